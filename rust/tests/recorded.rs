//! The recorded answers of the original: through the bytes, through a list of receptions, and through `Problem` where there is one.

use jifrosk::{
    read, solve, solve_bytes, solve_receptions, Altitude, Fix, ObservationId, Problem, Reception, Record, Reported,
    RECEPTION, RECORD,
};
use std::mem::{align_of, offset_of, size_of};

const RECORDED: &str = concat!(env!("CARGO_MANIFEST_DIR"), "/../crates/replay/stdin");

/// oracle/kept.rs has the form.
struct Recorded<'a> {
    files: [&'a [u8]; 4],
    there: [bool; 4],
    record: [u8; RECORD],
}

fn recorded(mut bytes: &[u8]) -> Vec<Recorded<'_>> {
    let mut all = Vec::new();
    while !bytes.is_empty() {
        let (head, mut rest) = bytes.split_at(8);
        let length = |k: usize| usize::from(u16::from_le_bytes([head[k], head[k + 1]]));
        let files = [length(0), length(2), usize::from(head[4]), usize::from(head[5])].map(|length| {
            let (file, more) = rest.split_at(length);
            rest = more;
            file
        });
        let there = [3, 0, 1, 2].map(|bit: u8| head[6] >> bit & 1 == 1);
        let (record, more) = rest.split_at(RECORD);
        all.push(Recorded {
            files,
            there,
            record: record.try_into().expect("176 bytes"),
        });
        bytes = more;
    }
    all
}

fn recording() -> Vec<u8> {
    std::fs::read(RECORDED).expect("the recording of crates/replay")
}

#[test]
fn bytes_give_the_recorded_record() {
    let bytes = recording();
    for (k, problem) in recorded(&bytes).iter().enumerate() {
        let file = |k: usize| problem.there[k].then_some(problem.files[k]);
        let mut out = [0xA5; RECORD + 7];
        let answer = solve_bytes(problem.files[0], file(1), file(2), file(3), &mut out);
        assert_eq!(out[..RECORD], problem.record, "problem {k}");
        assert_eq!(out[RECORD..], [0xA5; 7], "problem {k}");
        assert_eq!(answer.to_le_bytes(), problem.record[..4], "problem {k}");
    }
}

fn long(bytes: &[u8], at: usize) -> u64 {
    u64::from_le_bytes(bytes[at..at + 8].try_into().expect("eight bytes"))
}

/// The receptions of a file, unless it is torn.
fn list(file: &[u8]) -> Option<Vec<Reception>> {
    let reception = |bytes: &[u8]| Reception::from_bytes(bytes.try_into().expect("132 bytes"));
    let whole = file.chunks_exact(RECEPTION);
    whole.remainder().is_empty().then(|| whole.map(reception).collect())
}

#[test]
fn a_reception_is_laid_out_as_in_c() {
    assert_eq!((size_of::<Reception>(), align_of::<Reception>()), (136, 8));
    let at = [
        offset_of!(ObservationId, receiver),
        offset_of!(ObservationId, epoch),
        offset_of!(ObservationId, timestamp),
        offset_of!(ObservationId, message),
        offset_of!(Reception, time_ps),
        offset_of!(Reception, site_mm),
        offset_of!(Reception, z),
        offset_of!(Reception, noise_m2),
        offset_of!(Reception, filler),
    ];
    assert_eq!(at, [0, 32, 40, 48, 80, 88, 112, 120, 128]);
    assert_eq!(offset_of!(Reception, id), 0);
}

#[test]
fn receptions_are_written_as_they_were_read() {
    let bytes = recording();
    for problem in recorded(&bytes) {
        let Some(receptions) = list(problem.files[0]) else {
            continue;
        };
        let again: Vec<u8> = receptions.iter().flat_map(Reception::to_bytes).collect();
        assert_eq!(again, problem.files[0]);
    }
}

#[test]
fn lists_give_the_recorded_record() {
    let bytes = recording();
    for (k, problem) in recorded(&bytes).iter().enumerate() {
        let Some(receptions) = list(problem.files[0]) else {
            continue;
        };
        let file = |k: usize| problem.there[k].then_some(problem.files[k]);
        let mut out = [0xA5; RECORD + 7];
        let answer = solve_receptions(&receptions, file(1), file(2), file(3), &mut out);
        assert_eq!(out[..RECORD], problem.record, "problem {k}");
        assert_eq!(out[RECORD..], [0xA5; 7], "problem {k}");
        assert_eq!(answer.to_le_bytes(), problem.record[..4], "problem {k}");
    }
}

/// What altitude.bin says, unless it is none that `Reported` has.
fn reported(altitude: &[u8]) -> Option<Reported> {
    if altitude.len() != 16 || altitude[1..4] != [0; 3] {
        return None;
    }
    let (correction_cm, metres) = (
        i32::from_le_bytes(altitude[4..8].try_into().expect("four bytes")),
        f64::from_bits(long(altitude, 8)),
    );
    match (altitude[0], correction_cm) {
        (1, _) => Some(Reported::Barometric { metres, correction_cm }),
        (2, 0) => Some(Reported::Gnss { metres }),
        _ => None,
    }
}

#[test]
fn an_altitude_is_written_as_it_was_read() {
    let bytes = recording();
    let mut corrected = 0;
    for problem in recorded(&bytes) {
        let Some(read) = reported(problem.files[2]) else {
            continue;
        };
        assert_eq!(read.to_bytes(), problem.files[2]);
        corrected += usize::from(matches!(read, Reported::Barometric { correction_cm, .. } if correction_cm != 0));
    }
    assert!(corrected > 20, "{corrected} have a correction");
}

#[test]
fn a_fix_shows_the_metres_as_given() {
    let file = |name: &str| {
        std::fs::read(format!("{}/../examples/fix/{name}.bin", env!("CARGO_MANIFEST_DIR"))).expect("an example file")
    };
    let receptions = list(&file("receptions")).expect("whole receptions");
    let clock: Vec<f64> = file("clock")
        .chunks(8)
        .map(|entry| f64::from_bits(long(entry, 0)))
        .collect();
    let fix = |altitude: Reported| {
        solve(&Problem {
            receptions: &receptions,
            clock_m2: Some(&clock),
            altitude: Some(altitude),
            reference_ps: 0,
        })
        .expect("a fix")
    };
    // 11,181.5 m and 98.50 m are 11,280 m
    let plain = fix(Altitude::Barometric(11_280.0).into());
    let corrected = fix(Reported::Barometric {
        metres: 11_181.5,
        correction_cm: 9_850,
    });
    assert_eq!(corrected.altitude, Some(Altitude::Barometric(11_181.5)));
    assert_eq!(
        Fix {
            altitude: plain.altitude,
            ..corrected
        },
        plain
    );
    assert_ne!(fix(Altitude::Barometric(11_181.5).into()).position, plain.position);
}

#[test]
fn problems_give_the_recorded_answer() {
    let bytes = recording();
    for (k, problem) in recorded(&bytes).iter().enumerate() {
        let [receptions, clock, altitude, reference] = problem.files;
        let reported = reported(altitude);
        if clock.len() % 8 != 0
            || (problem.there[2] && reported.is_none())
            || (problem.there[3] && reference.len() != 8)
        {
            continue;
        }
        let Some(receptions) = list(receptions) else { continue };
        let entries: Vec<f64> = clock.chunks(8).map(|entry| f64::from_bits(long(entry, 0))).collect();
        let found = solve(&Problem {
            receptions: &receptions,
            clock_m2: problem.there[1].then_some(&entries),
            altitude: reported,
            reference_ps: if problem.there[3] { long(reference, 0) as i64 } else { 0 },
        });
        assert_eq!(found, read(&problem.record).and_then(Record::fix), "problem {k}");
    }
}

#[test]
fn examples_give_their_records() {
    for name in ["fix", "outlier", "ambiguous", "corrected", "screened"] {
        let file = |file: &str| {
            std::fs::read(format!("{}/../examples/{name}/{file}.bin", env!("CARGO_MANIFEST_DIR")))
                .expect("an example file")
        };
        let mut out = [0; RECORD];
        solve_bytes(
            &file("receptions"),
            Some(&file("clock")),
            Some(&file("altitude")),
            Some(&file("reference")),
            &mut out,
        );
        assert_eq!(out.as_slice(), file("record"), "{name}");
    }
}

#[test]
fn short_outputs_are_left_alone() {
    for length in 0..RECORD {
        let mut out = vec![0x5A; length];
        assert_eq!(solve_bytes(&[], None, None, None, &mut out), 14);
        assert_eq!(solve_receptions(&[], None, None, None, &mut out), 14);
        assert!(out.iter().all(|byte| *byte == 0x5A));
    }
}
