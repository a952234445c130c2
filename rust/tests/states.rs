//! The recorded states: through the bytes, and through `Problem` for the examples.

use jifrosk::{why, why_bytes, Problem, Reception, Refusal, Reported, State, RECEPTION, STATE, STATES};

const RECORDED: &str = concat!(env!("CARGO_MANIFEST_DIR"), "/../crates/replay_states/stdin");

/// One recorded input: its files, which are there, and number, detail and buffer after the call.
/// crates/replay_states/RECORDING.md has the form.
struct Recorded<'a> {
    files: [&'a [u8]; 4],
    there: [bool; 4],
    number: u32,
    detail: u32,
    states: &'a [u8],
}

fn word(bytes: &[u8], at: usize) -> u32 {
    u32::from_le_bytes(bytes[at..at + 4].try_into().expect("four bytes"))
}

fn recorded(mut bytes: &[u8]) -> Vec<Recorded<'_>> {
    let mut all = Vec::new();
    while !bytes.is_empty() {
        let (head, mut rest) = bytes.split_at(8);
        let length = |k: usize| usize::from(u16::from_le_bytes([head[k], head[k + 1]]));
        let files = [length(0), length(2), usize::from(head[4]), usize::from(head[5])].map(|length| {
            let (file, more) = rest.split_at(length);
            rest = more;
            file
        });
        let there = [3, 0, 1, 2].map(|bit: u8| head[6] >> bit & 1 == 1);
        let (told, more) = rest.split_at(8 + STATES);
        all.push(Recorded {
            files,
            there,
            number: word(told, 0),
            detail: word(told, 4),
            states: &told[8..],
        });
        bytes = more;
    }
    all
}

#[test]
fn bytes_give_the_recorded_states() {
    let bytes = std::fs::read(RECORDED).expect("the recording of crates/replay_states");
    for (k, input) in recorded(&bytes).iter().enumerate() {
        let file = |k: usize| input.there[k].then_some(input.files[k]);
        let (mut states, mut detail) = ([0xA5; STATES + 7], 0);
        let number = why_bytes(input.files[0], file(1), file(2), file(3), &mut states, &mut detail);
        assert_eq!((number, detail), (input.number, input.detail), "input {k}");
        assert_eq!(&states[..STATES], input.states, "input {k}");
        assert_eq!(states[STATES..], [0xA5; 7], "input {k}");
    }
}

fn part<const N: usize>(bytes: &[u8], at: usize) -> [u8; N] {
    bytes[at..at + N].try_into().expect("N bytes")
}

/// An example folder as a problem: its receptions and clock covariance, its barometric altitude and the reference.
fn example(name: &str) -> (Vec<Reception>, Vec<f64>, Reported, i64) {
    let file = |file: &str| {
        std::fs::read(format!("{}/../examples/{name}/{file}.bin", env!("CARGO_MANIFEST_DIR"))).expect("an example file")
    };
    let receptions = file("receptions")
        .chunks(RECEPTION)
        .map(|r| Reception::from_bytes(&part(r, 0)))
        .collect();
    let clock = file("clock")
        .chunks(8)
        .map(|entry| f64::from_le_bytes(part(entry, 0)))
        .collect();
    let altitude = file("altitude");
    let correction_cm = i32::from_le_bytes(part(&altitude, 4));
    let altitude = Reported::Barometric {
        metres: f64::from_le_bytes(part(&altitude, 8)),
        correction_cm,
    };
    (
        receptions,
        clock,
        altitude,
        i64::from_le_bytes(part(&file("reference"), 0)),
    )
}

fn told(name: &str) -> Result<Vec<State>, Refusal> {
    let (receptions, clock, altitude, reference_ps) = example(name);
    why(&Problem {
        receptions: &receptions,
        clock_m2: Some(&clock),
        altitude: Some(altitude),
        reference_ps,
    })
}

#[test]
fn examples_tell_their_receivers() {
    for name in ["fix", "corrected"] {
        assert!(told(name)
            .expect("a fix")
            .iter()
            .all(|state| matches!(state, State::Used { residual } if *residual <= 5.0)));
    }
    let screened = told("screened").expect("a fix");
    assert_eq!(screened[4], State::Removed { turn: 1, clashes: 5 });
    assert!(matches!(screened[1], State::LeftOut { residual } if residual > 5.0));
    assert_eq!(
        screened
            .iter()
            .filter(|state| matches!(state, State::Used { .. }))
            .count(),
        4
    );
    assert_eq!(told("ambiguous"), Err(Refusal::Ambiguous));
}

#[test]
fn short_buffers_are_left_alone() {
    for length in [0, 1, STATE, 176, STATES - 1] {
        let (mut states, mut detail) = (vec![0x5A; length], 77);
        assert_eq!(why_bytes(&[], None, None, None, &mut states, &mut detail), 14);
        assert!(states.iter().all(|byte| *byte == 0x5A));
        assert_eq!(detail, 77);
    }
}
