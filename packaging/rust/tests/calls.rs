//! What the guide's examples don't show: which errors come, what compares, and what threads may share.
use bohm::{Calls, Edition, Error, Machine, Procedure, Reason, StoreRows};
use std::sync::{Arc, RwLock};
use std::thread;

const ADD: &str = "procedure 2\nkey k\nvalue n\nreads k\nwrites k\nset k = k + $n\nshow k\nend\n";
const PAIR: &str = "procedure 2\nkey a\nkey b\nreads a b\nwrites\nshow a\nshow b\nend\n";

fn opened() -> Machine {
    Machine::open("log 2\na 1\nb 2\n", 0).unwrap()
}

#[test]
fn threads_share_what_is_read() {
    fn shared<T: Send + Sync>() {}
    shared::<(Machine, Procedure, Calls, StoreRows, bohm::Replies, bohm::OwnedReply, Error)>();

    let add = Arc::new(Procedure::prepare(ADD).unwrap());
    let machine = Arc::new(RwLock::new(opened()));
    let readers: Vec<_> = (0..3)
        .map(|_| {
            let machine = Arc::clone(&machine);
            thread::spawn(move || loop {
                let machine = machine.read().unwrap();
                let top = machine.top();
                assert_eq!(machine.value_at("a", top).unwrap(), Some(1 + i64::from(top)));
                assert_eq!(machine.store_rows(top).unwrap().get("a"), Some(1 + i64::from(top)));
                if top == 500 {
                    return machine.digest(top).unwrap();
                }
            })
        })
        .collect();
    for _ in 0..500 {
        machine.write().unwrap().call(&add, &["a"], &[1]).unwrap();
    }
    let digest = machine.read().unwrap().digest(500).unwrap();
    for reader in readers {
        assert_eq!(reader.join().unwrap(), digest);
    }
}

/// A procedure whose body is long enough for workers to pay.
fn long_body() -> String {
    let sum = vec!["k"; 15].join(" + ");
    let steps: String = (1..60).map(|step| format!("let $x{step} = {sum}\n")).collect();
    format!("procedure 2\nkey k\nvalue n\nreads k\nwrites k\n{steps}set k = k + $n\nshow k\nend\n")
}

#[test]
fn workers_run_calls() {
    let add = Procedure::prepare(long_body()).unwrap();
    let mut in_order = opened();
    let mut calls = in_order.calls(Edition::Two).unwrap();
    for n in 0..2000 {
        calls.push(&add, &[["a", "b"][n % 2]], &[n as i64]).unwrap();
    }
    let replies = in_order.run(&calls).unwrap();
    for workers in 1..6 {
        let mut machine = opened();
        for round in 0..3 {
            let others = machine.run_calls_on(&mut calls, workers).unwrap();
            assert_eq!((others.len(), machine.top()), (2000, 2000 * (round + 1)));
            assert!(round > 0 || others == replies);
        }
        assert_eq!(machine.digest(2000).unwrap(), in_order.digest(2000).unwrap());
    }
    assert_eq!(calls.len(), 2000);
    assert_eq!(in_order.run_calls_on(&mut calls, 0).unwrap_err(), Error::Unfit);
    assert_eq!(in_order.run_calls_on(&mut calls, 17).unwrap().len(), 2000);
}

#[test]
fn single_calls() {
    let (mut machine, mut second) = (opened(), opened());
    let (add, pair) = (Procedure::prepare(ADD).unwrap(), Procedure::prepare(PAIR).unwrap());
    let (a, b) = (machine.key("a").unwrap(), machine.key("b").unwrap());
    let reply = machine.call_named(&add, &[a], &[4]).unwrap();
    assert_eq!((reply.to_string(), reply.shows()), ("1 commit 5".to_owned(), &[5][..]));
    assert_eq!(second.call(&add, &["a"], &[4]).unwrap(), reply);
    assert_eq!(machine.call(&pair, &["b", "a"], &[]).unwrap().shows(), [2, 5]);
    assert_eq!(machine.call_named(&pair, &[b, b], &[]).unwrap().shows(), [2, 2]);

    let aborted = machine.call(&add, &["c"], &[1]).unwrap();
    assert_eq!((aborted.is_commit(), aborted.shows().len()), (false, 0));
    assert_eq!(aborted.reply().outcome, bohm::Outcome::Abort { reason: Reason::Absent, statement: 2 });
    assert_eq!(aborted.to_string(), "4 abort absent 2");
    assert_ne!(aborted, reply);

    let none: [&str; 0] = [];
    for wrong in [machine.call(&add, &none, &[1]), machine.call(&add, &["a"; 33], &[1]), machine.call_named(&add, &[a], &[1, 2])] {
        assert_eq!(wrong.unwrap_err(), Error::Unfit);
    }
    for name in ["", "A", "a-b", "aaaaaaaaaaaaaaaaaaaaaaaaaaaaaaaaa"] {
        assert_eq!(machine.call(&add, &[name], &[1]).unwrap_err(), Error::NoKey);
        assert_eq!(machine.key(name).unwrap_err(), Error::NoKey);
    }
    assert_eq!(machine.top(), 4);
}

#[test]
fn handles_belong_to_one_owner() {
    let (mut machine, mut second) = (opened(), opened());
    let add = Procedure::prepare(ADD).unwrap();
    let mut calls = machine.calls(Edition::Two).unwrap();
    let (here, there, listed) = (machine.key("a").unwrap(), second.key("a").unwrap(), calls.key("a").unwrap());
    for wrong in [there, listed] {
        assert_eq!(machine.call_named(&add, &[wrong], &[1]).unwrap_err(), Error::OtherOwner);
    }
    assert_eq!(calls.push_named(&add, &[here], &[1]), Err(Error::OtherOwner));
    machine.compact().unwrap();
    assert_eq!(machine.call_named(&add, &[here], &[1]).unwrap().shows(), [2]);
}

#[test]
fn stores_as_rows() {
    let long = "k".repeat(32);
    let rows = [("a", i64::MIN), ("a0", 0), ("ab", -1), (&long, i64::MAX)];
    let machine = Machine::open_rows(rows, 7).unwrap();
    let store = machine.store_rows(7).unwrap();
    assert_eq!(store.iter().collect::<Vec<_>>(), rows);
    assert_eq!(store.iter().next_back(), Some(rows[3]));
    assert_eq!((store.len(), store.get(&long), store.get("b"), store.get("a\0")), (4, Some(i64::MAX), None, None));
    assert_eq!(Machine::open_rows(&store, 7).unwrap().store_rows(7).unwrap(), store);
    assert_eq!(machine.store_rows(8).unwrap_err(), Error::Future);
    assert!(Machine::open_rows([("", 0); 0], 0).unwrap().store_rows(0).unwrap().is_empty());

    for (wrong, why) in [
        ([("b", 0), ("a", 0)], Error::Unsorted),
        ([("a", 0), ("a", 0)], Error::Unsorted),
        ([("a", 0), ("", 0)], Error::NoKey),
        ([("a", 0), ("b\0c", 0)], Error::NoKey),
        ([("a", 0), ("kkkkkkkkkkkkkkkkkkkkkkkkkkkkkkkkk", 0)], Error::NoKey),
    ] {
        assert_eq!(Machine::open_rows(wrong, 0).err(), Some(why));
    }
}

#[test]
fn replies_are_iterated_and_compared() {
    let (mut machine, mut second) = (opened(), opened());
    let add = Procedure::prepare(ADD).unwrap();
    let mut calls = Calls::new(Edition::Two).unwrap();
    for number in 0..5 {
        calls.push(&add, &["a"], &[number]).unwrap();
    }
    let (replies, same) = (machine.run(&calls).unwrap(), second.apply(calls.text().unwrap()).unwrap());
    assert_eq!(replies, same);
    let mut shown: Vec<i64> = Vec::new();
    for reply in &replies {
        shown.extend(reply.shows());
    }
    assert_eq!(shown, [1, 2, 4, 7, 11]);
    assert_eq!(replies.iter().rev().map(|reply| reply.timestamp).collect::<Vec<_>>(), [5, 4, 3, 2, 1]);
    assert_eq!(replies.iter().len(), 5);
    assert_ne!(replies, second.run(&calls).unwrap());

    let error = machine.value_at("a", 9).unwrap_err();
    assert_eq!((error.clone(), error.to_string()), (Error::Future, "the timestamp is above the top".to_owned()));
    assert_ne!(error, Error::Trimmed);
}

#[test]
fn procedures_explain_themselves() {
    let add = Procedure::prepare(ADD).unwrap();
    let lines: Vec<_> = (1..=3).map(|number| add.statement(number).unwrap().unwrap()).collect();
    assert_eq!(lines.iter().map(|found| (found.line, found.to_string())).collect::<Vec<_>>(), [
        (3, "value n".to_owned()),
        (6, "set k = k + $n".to_owned()),
        (7, "show k".to_owned()),
    ]);
    for none in [0, 4, u32::MAX] {
        assert!(add.statement(none).unwrap().is_none());
    }

    let Err(error) = Procedure::prepare(ADD.replace("show k", "show other")) else { panic!("it is accepted") };
    assert_eq!(error.to_string().lines().take(3).collect::<Vec<_>>(), ["refused: check unread 1 3", "line 7, statement 2:", "    show other"]);
    assert_eq!(error, Error::Refused(error.to_string()));
    assert!(matches!(Machine::open("log 2\na b\n", 0).err(), Some(Error::Refused(line)) if line == "refused: line 2"));
}
