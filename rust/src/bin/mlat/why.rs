//! `mlat why`: what each receiver is to the fix of one problem.

use std::ffi::OsString;
use std::path::Path;

use jifrosk::{why_bytes, Refusal, State, RECEPTION, STATE, STATES};

use crate::args::{parse, Takes};
use crate::fault::Fault;
use crate::folder::Folder;
use crate::json::Object;
use crate::output::say;
use crate::solve;

pub const HELP: &str = "\
usage: mlat why [--json] FOLDER

Says of each reception of FOLDER's problem, by its place in the list and the first bytes of its receiver's key:
  used       with its normalised residual, at most 5
  left out   the screen keeps it, and it lies more than 5 standard deviations off the fix: its noise or its clock
             covariance is claimed too small, or its clock is off a little
  removed    by the screen, in which turn and for how many others: it cannot have heard the same transmission as these

  --json     one object on one line, with whole keys

Exit status: 0 a fix; 1 a refusal, which has no states; 2 a wrong call; 4 cannot read; 5 cannot write.
";

const TAKES: Takes = Takes {
    flags: &["--json"],
    valued: &[],
};

/// The bytes of a receiver's key.
pub const KEY: usize = 32;

/// How many of them a person is shown.
pub const SHOWN: usize = 8;

/// A reception's receiver, and what it is to the fix.
pub struct Heard {
    pub receiver: [u8; KEY],
    pub state: State,
}

pub fn why(words: &[OsString]) -> Result<(), Fault> {
    let given = parse(words, &TAKES)?;
    let [folder] = given.operands("mlat why [--json] FOLDER")?;
    let problem = Folder::of(Path::new(folder))?;
    match states(&problem.inputs()) {
        Ok(heard) if given.has("--json") => say(object(&heard)),
        Ok(heard) => say(heard.iter().enumerate().map(line).collect::<String>()),
        Err(_) => solve::tell(&problem, &solve::held(&solve::solved(&problem)), given.has("--json")),
    }
}

/// The states of a problem's receptions, in their order; or why it has no fix.
pub fn states(inputs: &[Option<&[u8]>; 4]) -> Result<Vec<Heard>, Refusal> {
    let [receptions, clock, altitude, reference] = *inputs;
    let receptions = receptions.unwrap_or_default();
    let (mut states, mut detail) = ([0; STATES], 0);
    let answer = why_bytes(receptions, clock, altitude, reference, &mut states, &mut detail);
    if let Some(refusal) = Refusal::of(answer, detail) {
        return Err(refusal);
    }
    let (states, _) = states.as_chunks::<STATE>();
    let heard = receptions
        .chunks_exact(RECEPTION)
        .zip(states)
        .map(|(reception, state)| Heard {
            receiver: *reception.first_chunk().expect("a key"),
            state: State::from_bytes(state),
        });
    Ok(heard.collect())
}

fn line((place, heard): (usize, &Heard)) -> String {
    let receiver = hexadecimal(&heard.receiver[..SHOWN]);
    let told = match heard.state {
        State::Used { residual } => format!("used; {residual:.2} standard deviations off the fix"),
        State::Removed { turn, clashes } => {
            let others = if clashes == 1 { "other" } else { "others" };
            let same = format!("it cannot have heard the same transmission as {clashes} {others}");
            format!("removed by the screen in turn {turn}; {same}")
        }
        State::LeftOut { residual } => {
            format!("left out; {residual:.2} standard deviations off the fix, where 5 is the limit")
        }
    };
    format!("{place:2}  receiver {receiver}: {told}\n")
}

fn object(heard: &[Heard]) -> Vec<u8> {
    let mut out = Vec::new();
    let mut object = Object::begin(&mut out);
    object.whole("answer", 0);
    object.text("name", "FIX");
    object.objects("receptions", heard.iter().enumerate(), |object, (place, heard)| {
        object.whole("place", place);
        object.text("receiver", &hexadecimal(&heard.receiver));
        let (name, turn, clashes, residual) = match heard.state {
            State::Used { residual } => ("used", 0, 0, Some(residual)),
            State::Removed { turn, clashes } => ("removed", turn, clashes, None),
            State::LeftOut { residual } => ("left out", 0, 0, Some(residual)),
        };
        object.text("state", name);
        object.whole("turn", turn);
        object.whole("clashes", clashes);
        object.float_or_null("residual", residual);
    });
    object.end();
    out.push(b'\n');
    out
}

pub fn hexadecimal(bytes: &[u8]) -> String {
    bytes.iter().map(|byte| format!("{byte:02x}")).collect()
}
