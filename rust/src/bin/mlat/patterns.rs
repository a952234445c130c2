//! `mlat patterns`: what the screen leaves of small sets of receptions, for planners.

use std::ffi::OsString;

use jifrosk::{clash_patterns, Refusal};

use crate::args::{parse, whole, Takes};
use crate::fault::Fault;
use crate::output::say;

pub const HELP: &str = "\
usage: mlat patterns [N]

Prints, of all patterns of failing pairs that 0 to 6 receptions can have, how many leave each number of survivors of the
screen, and the share that leaves at least four. With N, 0 to 6, it prints that row alone.
";

const HEAD: &str = "\
Of all patterns of failing pairs, how many leave 0 to 6 survivors of the screen:

receptions  patterns       0       1       2       3       4       5       6  four or more
";

const TAKES: Takes = Takes {
    flags: &[],
    valued: &[],
};

pub fn patterns(words: &[OsString]) -> Result<(), Fault> {
    let given = parse(words, &TAKES)?;
    let rows = match given.operands.as_slice() {
        [] => 0..=6,
        [word] => {
            // what is beyond u32 is over six too
            let n = u32::try_from(whole("N", word)?).unwrap_or(u32::MAX);
            n..=n
        }
        _ => return Err(Fault::Call("usage: mlat patterns [N]".to_string())),
    };
    let mut text = HEAD.to_string();
    for receptions in rows {
        text += &row(receptions).map_err(over_six)?;
    }
    say(&text)
}

fn over_six(refusal: Refusal) -> Fault {
    Fault::Call(format!("N is 0 to 6 ({}): {refusal}", refusal.number()))
}

fn row(receptions: u32) -> Result<String, Refusal> {
    let counts = clash_patterns(receptions)?;
    let all: u64 = counts.iter().sum();
    let four: u64 = counts[4..].iter().sum();
    // a half up
    let tenths = (1000 * four + all / 2) / all;
    let columns: String = counts.iter().map(|count| format!("{count:8}")).collect();
    Ok(format!(
        "{receptions:10}{all:10}{columns}{:10}.{} %\n",
        tenths / 10,
        tenths % 10
    ))
}
