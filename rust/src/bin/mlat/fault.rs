use std::io;

use jifrosk::Refusal;

use crate::rules;

/// What ends a command: a line on standard error, and an exit status that scripts can use.
#[derive(Debug)]
pub enum Fault {
    /// A refusal that the command has told already, as its answer.
    Refused,
    /// A refusal that standard error tells.
    Refusal(String),
    /// The words of the call are wrong.
    Call(String),
    /// The input is torn or malformed.
    Input(String),
    /// The input is torn or malformed, and the command has told that already, as its answer.
    Unsound,
    /// An input cannot be read.
    Read { name: String, error: io::Error },
    /// An output cannot be written.
    Write { name: String, error: io::Error },
}

impl Fault {
    /// A record, by its place in a file, that a call of the library turns away.
    pub fn record(name: &str, place: u64, record: &[u8], refusal: Refusal) -> Self {
        Fault::Input(format!("{name}: record {place} {}", turned_away(record, refusal)))
    }

    /// 1 a refusal; 2 a wrong call; 3 torn or malformed input; 4 cannot read; 5 cannot write.
    pub fn status(&self) -> u8 {
        match self {
            Fault::Refused | Fault::Refusal(_) => 1,
            Fault::Call(_) => 2,
            Fault::Input(_) | Fault::Unsound => 3,
            Fault::Read { .. } => 4,
            Fault::Write { .. } => 5,
        }
    }

    /// What standard error says of it, on one line whatever a file is called.
    pub fn line(&self) -> Option<String> {
        let line = match self {
            Fault::Refused | Fault::Unsound => return None,
            Fault::Refusal(words) | Fault::Call(words) | Fault::Input(words) => words.clone(),
            Fault::Read { name, error } => format!("{name} cannot be read: {}", words_of(error)),
            Fault::Write { name, error } => format!("{name} cannot be written: {}", words_of(error)),
        };
        Some(line.replace(|c: char| c.is_control(), "?"))
    }
}

/// What is said of a record that the library turns away, after its place.
pub fn turned_away(record: &[u8], refusal: Refusal) -> String {
    let number = refusal.number();
    match refusal {
        Refusal::MalformedRecord => match rules::broken(record) {
            Some(rule) => format!("is malformed ({number}): {rule}"),
            None => format!("is malformed ({number})"),
        },
        _ => format!("is refused ({number}): {refusal}"),
    }
}

/// The system's words, without the number that Rust puts behind them.
fn words_of(error: &io::Error) -> String {
    let words = error.to_string();
    words.split(" (os error").next().unwrap_or_default().to_string()
}
