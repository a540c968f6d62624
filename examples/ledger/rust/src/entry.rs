//! Entries: definitions of procedures, calls of them, transactions as text.

/// The most bytes of an entry without its id and its last newline.
const LONGEST: usize = 1 << 20;

/// An entry without its id.
pub enum Entry<'a> {
    Definition { name: &'a str, text: &'a str },
    Call { name: &'a str, arguments: Vec<&'a str> },
    Transaction { text: &'a str },
}

/// Why an entry isn't stored.
#[derive(Debug, PartialEq)]
pub struct Refused(pub String);

impl Refused {
    pub fn because(why: &str) -> Refused {
        Refused(format!("refused: {why}"))
    }
}

fn is_word(word: &str) -> bool {
    !word.is_empty() && word.bytes().all(|byte| byte.is_ascii_graphic())
}

pub fn is_key(word: &str) -> bool {
    let is_part = |byte: u8| byte.is_ascii_lowercase() || byte.is_ascii_digit() || byte == b'_';
    word.len() <= 32 && word.starts_with(|first: char| first.is_ascii_lowercase()) && word.bytes().all(is_part)
}

/// The value that a word is, if it is one as a log writes it.
pub fn value_of(word: &str) -> Option<i64> {
    word.parse().ok().filter(|value: &i64| value.to_string() == word)
}

/// Takes the id out of a text, which ends with a newline: `call #ID NAME` becomes `call NAME`.
pub fn take_id(text: &str) -> Result<(Option<&str>, String), Refused> {
    let kind = text.find([' ', '\n']).unwrap_or(text.len());
    let Some(rest) = text[kind..].strip_prefix(" #") else { return Ok((None, text.to_owned())) };
    let len = rest.find([' ', '\n']).unwrap_or(rest.len());
    if !is_word(&rest[..len]) || len > 64 {
        return Err(Refused::because("shape"));
    }
    Ok((Some(&rest[..len]), [&text[..kind], &rest[len..]].concat()))
}

/// The entry of a text without an id, which ends with a newline.
pub fn read(text: &str) -> Result<Entry<'_>, Refused> {
    if text.len() > LONGEST + 1 {
        return Err(Refused::because("large"));
    }
    let (first, rest) = text.split_once('\n').ok_or_else(|| Refused::because("shape"))?;
    let words: Vec<&str> = first.split(' ').collect();
    match words[..] {
        ["define", name] if is_key(name) => Ok(Entry::Definition { name, text: rest }),
        ["call", name, ..] if is_key(name) && rest.is_empty() && words.iter().all(|word| is_word(word)) => {
            Ok(Entry::Call { name, arguments: words[2..].to_vec() })
        }
        ["txn"] => Ok(Entry::Transaction { text }),
        _ => Err(Refused::because("shape")),
    }
}

/// The entries of a batch, each with its last newline.
pub fn split(batch: &str) -> impl Iterator<Item = &str> {
    let mut rest = batch;
    std::iter::from_fn(move || {
        let end = if rest.starts_with("call ") { "\n" } else { "\nend\n" };
        let len = rest.find(end).map_or(rest.len(), |at| at + end.len());
        let (entry, behind) = rest.split_at(len);
        rest = behind;
        (!entry.is_empty()).then_some(entry)
    })
}
