//! Transfers between accounts by procedures, like `procedures.c`.
use bohm::{Edition, Error, Machine, Outcome, Procedure};

const ACCOUNTS: &str = "log 1\nalice 100\nbob 20\ncarol 0\n";

const TRANSFER: &str = "\
procedure 2
key from
key to
value amount
reads from to
writes from to
need from >= $amount
set from = from - $amount
set to = to + $amount
end
";

const AUDIT: &str = "\
procedure 2
reads alice bob carol
writes
show alice + bob + carol
show carol
end
";

fn main() -> Result<(), Error> {
    let mut machine = Machine::open(ACCOUNTS, 0)?;
    let transfer = Procedure::prepare(TRANSFER)?;
    let audit = Procedure::prepare(AUDIT)?;
    let mut calls = machine.calls(Edition::Two)?;
    let (alice, bob, carol) = (calls.key("alice")?, calls.key("bob")?, calls.key("carol")?);
    calls.push_named(&transfer, &[alice, bob], &[30])?;
    calls.push_named(&transfer, &[bob, carol], &[80])?;
    calls.push_named(&transfer, &[alice, carol], &[70])?;
    calls.push_named(&transfer, &[alice, bob], &[1])?;
    calls.push_named(&transfer, &[bob, bob], &[50])?;
    print!("{}", machine.run(&calls)?);
    println!("{}", machine.call_named(&audit, &[], &[])?);
    let reply = machine.call(&transfer, &["alice", "carol"], &[5])?;
    if let Outcome::Abort { statement, .. } = reply.reply().outcome {
        let failed = transfer.statement(statement)?.expect("a reply's statement");
        println!("{reply}: {failed}");
    }
    print!("--\n{}", &machine.store_at(machine.top())?.as_str()[6..]);
    Ok(())
}
