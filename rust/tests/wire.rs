//! Positions as whole numbers and back: the recorded calls of the oracle, document 02's own numbers, fixes of the solve.

use jifrosk::geo::Geodetic;
use jifrosk::{read, to_wire, Record, Records, Refusal, Wire, RECORD};

/// crates/replay_wire/RECORDING.md has the form.
const CALLS: &str = concat!(env!("CARGO_MANIFEST_DIR"), "/../crates/replay_wire/stdin");
/// The records of three solves, one of them refused.
const RECORDS: &str = concat!(env!("CARGO_MANIFEST_DIR"), "/../examples/records.bin");

fn taken<'a>(bytes: &mut &'a [u8], count: usize) -> &'a [u8] {
    let (first, rest) = bytes.split_at(count);
    *bytes = rest;
    first
}

fn wire_of(bytes: &[u8]) -> Wire {
    let number = |k: usize| i32::from_le_bytes(bytes[4 * k..4 * k + 4].try_into().expect("four bytes"));
    Wire {
        latitude_e7: number(0),
        longitude_e7: number(1),
        height_mm: number(2),
    }
}

fn position_of(bytes: &[u8]) -> Geodetic {
    let number = |k: usize| f64::from_le_bytes(bytes[8 * k..8 * k + 8].try_into().expect("eight bytes"));
    [0, 1, 2].map(number).into()
}

/// By the bits: -0 is not 0.
fn bits(position: &Geodetic) -> [u64; 3] {
    <[f64; 3]>::from(*position).map(f64::to_bits)
}

#[test]
fn recorded_calls_are_answered_alike() {
    let recorded = std::fs::read(CALLS).expect("the recording of crates/replay_wire");
    let mut bytes = recorded.as_slice();
    let mut tried = [0; 2];
    while !bytes.is_empty() {
        let head = taken(&mut bytes, 8);
        let number = u32::from(head[1]);
        let due = Refusal::of(number, 0);
        if head[0] == 0 {
            let length = u32::from_le_bytes(head[4..].try_into().expect("four bytes"));
            let record = taken(&mut bytes, length as usize);
            let after = taken(&mut bytes, 12);
            assert_eq!(to_wire(record), due.map_or(Ok(wire_of(after)), Err), "{record:02x?}");
            if let Ok(Record::Fix(fix)) = read(record) {
                assert_eq!(fix.to_wire(), to_wire(record), "{fix:?}");
            }
        } else {
            let wire = wire_of(taken(&mut bytes, 12));
            let after = position_of(taken(&mut bytes, 24));
            assert_eq!(
                wire.position().map(|found| bits(&found)),
                due.map_or(Ok(bits(&after)), Err),
                "{wire:?}"
            );
        }
        tried[usize::from(head[0])] += 1;
    }
    assert!(tried[0] > 1_500 && tried[1] > 500, "{tried:?}");
}

/// A fix of the solve.
fn fix() -> jifrosk::Fix {
    let file = std::fs::read(RECORDS).expect("the records of examples/");
    let mut records = Records::new(&file).expect("whole records").iter();
    records.find_map(|record| read(record).ok()?.fix().ok()).expect("a fix")
}

#[test]
fn document_02s_numbers() {
    for (degrees, e7) in [
        (0.5, 5_000_000),
        (1.0 / 256.0, 39_063),
        (-1.0 / 256.0, -39_063),
        (-0.0, 0),
        (90.0, 900_000_000),
    ] {
        let placed = jifrosk::Fix {
            position: [degrees, -degrees, -1_500.0].into(),
            ..fix()
        };
        let wire = Wire {
            latitude_e7: e7,
            longitude_e7: -e7,
            height_mm: -1_500_000,
        };
        assert_eq!(placed.to_wire(), Ok(wire));
        assert_eq!(wire.position().map(|found| found.height_m), Ok(-1_500.0));
    }
}

#[test]
fn what_is_beyond_is_refused() {
    let beyond = Err(Refusal::BeyondTheWire);
    let next = |x: f64| f64::from_bits(x.to_bits() + 1);
    for position in [
        [next(90.0), 0.0, 0.0],
        [next(-90.0), 0.0, 0.0],
        [0.0, next(180.0), 0.0],
        [0.0, next(-180.0), 0.0],
        [0.0, 0.0, next(25_000.0)],
        [0.0, 0.0, next(-1_500.0)],
    ] {
        assert_eq!(
            jifrosk::Fix {
                position: position.into(),
                ..fix()
            }
            .to_wire(),
            beyond
        );
    }
    assert_eq!(
        jifrosk::Fix {
            position: [f64::NAN, 0.0, 0.0].into(),
            ..fix()
        }
        .to_wire(),
        Err(Refusal::MalformedRecord)
    );
    let mut refused = [0; RECORD];
    refused[0] = 7;
    assert_eq!(to_wire(&refused), beyond);
    refused[0] = 14;
    assert_eq!(to_wire(&refused), Err(Refusal::MalformedRecord));
    assert_eq!(to_wire(&refused[1..]), Err(Refusal::TornFile));
    let wire = Wire {
        latitude_e7: 900_000_001,
        ..Wire::default()
    };
    assert_eq!(wire.position().map(|_| ()), beyond.map(|_: Wire| ()));
}
