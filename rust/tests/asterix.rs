//! Items I020/041 and I020/105: the recorded calls of the oracle, document 02's own numbers, fixes of the solve.

use jifrosk::{
    read, read_asterix, to_asterix, to_wire, write_asterix, Multiples, Record, Records, Refusal, Wire, ITEMS, RECORD,
};

/// crates/replay_asterix/RECORDING.md has the form.
const CALLS: &str = concat!(env!("CARGO_MANIFEST_DIR"), "/../crates/replay_asterix/stdin");
/// A file of records, and the items of those that the wire has, by the oracle.
const FILE: &str = concat!(env!("CARGO_MANIFEST_DIR"), "/tests/data/asterix/records.bin");
const WRITTEN: &str = concat!(env!("CARGO_MANIFEST_DIR"), "/tests/data/asterix/items.bin");
/// What lent bytes are before a recorded call.
const FOUND: u8 = 0xa5;

fn taken<'a>(bytes: &mut &'a [u8], count: usize) -> &'a [u8] {
    let (first, rest) = bytes.split_at(count);
    *bytes = rest;
    first
}

fn three(bytes: &[u8]) -> [i32; 3] {
    std::array::from_fn(|k| i32::from_le_bytes(bytes[4 * k..4 * k + 4].try_into().expect("four bytes")))
}

fn wire_of([latitude_e7, longitude_e7, height_mm]: [i32; 3]) -> Wire {
    Wire {
        latitude_e7,
        longitude_e7,
        height_mm,
    }
}

fn multiples_of([latitude, longitude, height]: [i32; 3]) -> Multiples {
    Multiples {
        latitude,
        longitude,
        height,
    }
}

#[test]
fn recorded_calls_are_answered_alike() {
    let recorded = std::fs::read(CALLS).expect("the recording of crates/replay_asterix");
    let mut bytes = recorded.as_slice();
    let mut tried = [0; 3];
    while !bytes.is_empty() {
        let head = taken(&mut bytes, 8);
        let length = usize::from(head[2]);
        let due = Refusal::of(u32::from(head[1]), 0).map_or(Ok(()), Err);
        if head[0] == 2 {
            let items = taken(&mut bytes, length);
            let after = multiples_of(three(taken(&mut bytes, 12)));
            assert_eq!(read_asterix(items), due.map(|()| after), "{items:02x?}");
            if let Ok(ten) = <&[u8; ITEMS]>::try_from(items) {
                assert_eq!(Multiples::of_items(ten).to_items(), Ok(*ten));
            }
        } else {
            let numbers = three(taken(&mut bytes, 12));
            let mut out = vec![FOUND; length];
            let found = if head[0] == 0 {
                to_asterix(&wire_of(numbers), &mut out)
            } else {
                write_asterix(&multiples_of(numbers), &mut out)
            };
            assert_eq!((found, out.as_slice()), (due, taken(&mut bytes, length)), "{numbers:?}");
        }
        tried[usize::from(head[0])] += 1;
    }
    assert!(tried.iter().all(|calls| *calls > 800), "{tried:?}");
}

#[test]
fn document_02s_numbers() {
    let items = |latitude_e7, longitude_e7, height_mm| {
        Wire {
            latitude_e7,
            longitude_e7,
            height_mm,
        }
        .to_asterix()
    };
    assert_eq!(
        items(900_000_000, 1_800_000_000, 1_905),
        Ok([1, 0, 0, 0, 0xfe, 0, 0, 0, 0, 1])
    );
    assert_eq!(
        items(-900_000_000, -1_800_000_000, -1_905),
        Ok([0xff, 0, 0, 0, 0xfe, 0, 0, 0, 0xff, 0xff])
    );
    // the first longitude that comes to 180 degrees, and the one before it
    assert_eq!(items(0, 1_799_999_974, 952), Ok([0, 0, 0, 0, 0xfe, 0, 0, 0, 0, 0]));
    assert_eq!(
        items(0, 1_799_999_973, 953),
        Ok([0, 0, 0, 0, 1, 0xff, 0xff, 0xff, 0, 1])
    );
    for (latitude, longitude, height) in [
        (900_000_001, 0, 0),
        (0, -1_800_000_001, 0),
        (0, 0, 62_422_088),
        (0, 0, i32::MIN),
    ] {
        assert_eq!(items(latitude, longitude, height), Err(Refusal::BeyondTheItems));
    }
    let outside = Multiples {
        height: 32_768,
        ..Multiples::default()
    };
    assert_eq!(outside.to_items(), Err(Refusal::BeyondTheItems));
}

#[test]
fn a_file_of_records_becomes_items() {
    let (file, written) = (
        std::fs::read(FILE).expect("the file"),
        std::fs::read(WRITTEN).expect("its items"),
    );
    let records = Records::new(&file).expect("whole records");
    let items: Vec<u8> = records
        .iter()
        .filter_map(|record| to_wire(record).ok()?.to_asterix().ok())
        .flatten()
        .collect();
    assert_eq!(items, written);
    let mut fixes = 0;
    for record in records.iter() {
        assert_eq!(record.len(), RECORD);
        if let Ok(Record::Fix(fix)) = read(record) {
            fixes += 1;
            assert_eq!(fix.to_asterix(), fix.to_wire().and_then(|wire| wire.to_asterix()));
        }
    }
    assert!(fixes > 50 && items.len() == 680, "{fixes}");
}
