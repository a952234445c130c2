//! Records read back and written again: those of the original's solves, and the recorded cases of the oracle.

use jifrosk::{read, write, Altitude, Field, Fix, Record, Records, Refusal, RECORD};

/// oracle/kept.rs has the form.
const SOLVED: &str = concat!(env!("CARGO_MANIFEST_DIR"), "/../crates/replay/stdin");
/// crates/replay_records/RECORDING.md has the form.
const CASES: &str = concat!(env!("CARGO_MANIFEST_DIR"), "/../crates/replay_records/stdin");

fn taken<'a>(bytes: &mut &'a [u8], count: usize) -> &'a [u8] {
    let (first, rest) = bytes.split_at(count);
    *bytes = rest;
    first
}

fn two(bytes: &[u8], at: usize) -> usize {
    usize::from(u16::from_le_bytes([bytes[at], bytes[at + 1]]))
}

/// The records of the recorded solves, as a file of records.
fn solved() -> Vec<u8> {
    let recorded = std::fs::read(SOLVED).expect("the recording of crates/replay");
    let (mut bytes, mut file) = (recorded.as_slice(), Vec::new());
    while !bytes.is_empty() {
        let head = taken(&mut bytes, 8);
        taken(
            &mut bytes,
            two(head, 0) + two(head, 2) + usize::from(head[4]) + usize::from(head[5]),
        );
        file.extend(taken(&mut bytes, RECORD));
    }
    file
}

#[test]
fn every_recorded_record_is_read_and_written_again() {
    let file = solved();
    let records = Records::new(&file).expect("whole records");
    assert_eq!(records.len(), 2_447);
    let mut fixes = 0;
    for record in records {
        let held = read(record).expect("a record of a solve");
        assert_eq!(
            held.fix().map_or_else(|refusal| refusal.number(), |_| 0),
            u32::from(record[0])
        );
        fixes += usize::from(held.fix().is_ok());
        let mut out = [0xa5; RECORD + 3];
        assert_eq!(write(&held, &mut out), Ok(()));
        assert_eq!(out[..RECORD], *record);
        assert_eq!(out[RECORD..], [0xa5; 3]);
    }
    assert_eq!(fixes, 482);
}

#[test]
fn the_parts_are_the_files_own() {
    let file = solved();
    let records = Records::new(&file).expect("whole records");
    let count = records.len() as u64;
    for place in [0, 1, count - 1] {
        let record = records.get(place).expect("a place of the file");
        assert!(std::ptr::eq(record.as_ptr(), &file[RECORD * place as usize]));
    }
    for place in [count, count + 1, 1 << 60, 1 << 63, u64::MAX] {
        assert_eq!(records.get(place), Err(Refusal::NoSuchPlace));
    }
    let mut all = records.iter();
    assert_eq!(all.len(), records.len());
    assert_eq!(all.next(), records.get(0).ok());
    assert_eq!(all.len(), records.len() - 1);
    assert!(records.iter().eq(file.chunks_exact(RECORD)));
}

#[test]
fn torn_files_are_refused() {
    let file = solved();
    for length in [1, 175, 177, 3 * RECORD - 1, 3 * RECORD + 1] {
        assert_eq!(
            Records::new(&file[..length]).map(|records| records.len()),
            Err(Refusal::TornFile)
        );
    }
    let none = Records::new(&[]).expect("no records");
    assert!(none.is_empty() && none.iter().next().is_none());
    assert_eq!(none.len(), 0);
    assert_eq!(none.get(0), Err(Refusal::NoSuchPlace));
    for length in [0, 1, 175, 177, 352] {
        assert_eq!(read(&file[..length]), Err(Refusal::TornFile));
    }
}

/// What the oracle gave for words, numbers and transmit time; none where no `Record` can hold it.
fn held(value: &[u8]) -> Option<Record> {
    let word = |k: usize| u32::from_le_bytes(value[4 * k..4 * k + 4].try_into().expect("four bytes"));
    let long = |at: usize| u64::from_le_bytes(value[at..at + 8].try_into().expect("eight bytes"));
    let number = |k: usize| f64::from_bits(long(24 + 8 * k));
    let [answer, detail, n, used, version, kind] = [0, 1, 2, 3, 4, 5].map(word);
    if answer != 0 {
        let plain = [used, version, kind] == [0; 3] && value[24..].iter().all(|byte| *byte == 0);
        let refusal = Refusal::of(answer, detail)?;
        return (plain && refusal.detail() == Some(detail)).then_some(Record::Refused { refusal, n });
    }
    Some(Record::Fix(Fix {
        n,
        used,
        dof: detail,
        ecef: [0, 1, 2].map(number),
        t_m: number(3),
        position: [4, 5, 6].map(number).into(),
        transmit_ps: long(168) as i64,
        covariance: [7, 10, 13].map(|k| [k, k + 1, k + 2].map(number)),
        chi2: number(16),
        spec: version.try_into().ok()?,
        altitude: match kind {
            0 if number(17).to_bits() == 0 => None,
            1 => Some(Altitude::Barometric(number(17))),
            2 => Some(Altitude::Gnss(number(17))),
            _ => return None,
        },
    }))
}

/// By the bits: -0 is not 0, and not-a-numbers are alike.
fn bits(record: &Record) -> String {
    format!("{record:?}")
}

fn number_of<T>(result: &Result<T, Refusal>) -> u8 {
    result.as_ref().map_or_else(|refusal| refusal.number() as u8, |_| 0)
}

/// Whether a place of a file answers as recorded.
fn placed(place: u64, file: &[u8], number: u8, after: &[u8]) -> bool {
    let found = Records::new(file).and_then(|records| records.get(place));
    let at = found.map(|part| part.as_ptr() as u64 - file.as_ptr() as u64);
    let left = at.map(|at| [&at.to_le_bytes()[..], found.expect("a part").as_slice()].concat());
    number_of(&at) == number && left.map_or(after == [0xa5; 8], |left| left == after)
}

fn read_alike(record: &[u8], number: u8, after: &[u8]) -> bool {
    let found = read(record);
    let due = if number == 0 { held(after) } else { None };
    number_of(&found) == number && found.ok().map(|record| bits(&record)) == due.map(|record| bits(&record))
}

fn written(record: &Record, number: u8, after: &[u8]) -> bool {
    let mut out = vec![0xa5; after.len()];
    number_of(&write(record, &mut out)) == number && out == after
}

#[test]
fn recorded_cases_are_answered_alike() {
    let recorded = std::fs::read(CASES).expect("the recording of crates/replay_records");
    let mut bytes = recorded.as_slice();
    let mut tried = [0; 3];
    while !bytes.is_empty() {
        let head = taken(&mut bytes, 8);
        let (number, length) = (head[1], two(head, 4));
        let alike = match head[0] {
            0 => {
                let place = u64::from_le_bytes(taken(&mut bytes, 8).try_into().expect("eight bytes"));
                let file = taken(&mut bytes, length);
                placed(
                    place,
                    file,
                    number,
                    taken(&mut bytes, 8 + RECORD * usize::from(head[2])),
                )
            }
            1 => {
                let record = taken(&mut bytes, length);
                read_alike(record, number, taken(&mut bytes, RECORD))
            }
            _ => {
                let value = held(taken(&mut bytes, RECORD));
                let after = taken(&mut bytes, length);
                let Some(record) = value else { continue };
                written(&record, number, after)
            }
        };
        assert!(alike, "{head:?}");
        tried[usize::from(head[0])] += 1;
    }
    assert!(tried[0] > 80 && tried[1] > 1_300 && tried[2] > 300, "{tried:?}");
}

#[test]
fn values_that_no_read_gives_are_not_written() {
    let file = solved();
    let mut records = Records::new(&file).expect("whole records").iter();
    let fix = records.find_map(|record| read(record).ok()?.fix().ok()).expect("a fix");
    let refused = |refusal: Refusal, n: u32| Record::Refused { refusal, n };
    let bad = [
        refused(Refusal::ShortOutput, 0),
        refused(Refusal::TornFile, 0),
        refused(Refusal::OverSix, 0),
        refused(Refusal::TooMany, 5),
        refused(Refusal::Ambiguous, 33),
        refused(Refusal::TooFew { included: 4 }, 4),
        refused(Refusal::Disorder { index: 0 }, 0),
        refused(Refusal::BadField(Field::Reception { index: 32 }), 0),
        refused(Refusal::BadField(Field::Reception { index: 100 }), 0),
        refused(Refusal::BadField(Field::Reception { index: 200 }), 0),
        refused(Refusal::BadField(Field::ClockRow { row: 32 }), 0),
        refused(Refusal::BadField(Field::ClockRow { row: 100 }), 0),
        refused(Refusal::BadField(Field::ClockRow { row: u32::MAX - 99 }), 0),
        Record::Fix(Fix { spec: 7, ..fix }),
        Record::Fix(Fix {
            dof: fix.dof + 1,
            ..fix
        }),
        Record::Fix(Fix { n: 33, ..fix }),
        Record::Fix(Fix {
            chi2: f64::INFINITY,
            ..fix
        }),
        Record::Fix(Fix {
            position: [0.0, 0.0, f64::NAN].into(),
            ..fix
        }),
        Record::Fix(Fix {
            altitude: Some(Altitude::Gnss(f64::NAN)),
            ..fix
        }),
    ];
    for record in bad {
        let mut out = [0x5a; RECORD];
        assert_eq!(write(&record, &mut out), Err(Refusal::MalformedRecord), "{record:?}");
        assert_eq!(out, [0x5a; RECORD]);
        assert_eq!(write(&record, &mut out[..175]), Err(Refusal::ShortOutput), "{record:?}");
    }
    for length in 0..RECORD {
        let mut out = vec![0x5a; length];
        assert_eq!(write(&Record::Fix(fix), &mut out), Err(Refusal::ShortOutput));
        assert!(out.iter().all(|byte| *byte == 0x5a));
    }
}

#[test]
fn refusals_have_their_numbers_and_words() {
    let mut words = std::collections::BTreeSet::new();
    for number in 1..=24 {
        let refusal = Refusal::of(number, 7).expect("a refusal");
        assert_eq!(refusal.number(), number);
        assert_eq!(
            refusal.detail(),
            Some(if [1, 11, 12].contains(&number) { 7 } else { 0 })
        );
        assert!(words.insert(refusal.to_string()), "{number}: {refusal}");
    }
    assert_eq!(
        (Refusal::of(0, 0), Refusal::of(25, 0), Refusal::of(u32::MAX, 0)),
        (None, None, None)
    );
    for (detail, field) in [
        (0, Field::Reception { index: 0 }),
        (31, Field::Reception { index: 31 }),
        (100, Field::ClockRow { row: 0 }),
        (131, Field::ClockRow { row: 31 }),
        (200, Field::Altitude),
    ] {
        assert_eq!(Refusal::of(12, detail), Some(Refusal::BadField(field)));
        assert_eq!(Refusal::BadField(field).detail(), Some(detail));
    }
    assert_eq!(Refusal::NoSuchPlace.to_string(), "the file has no record at that place");
}
