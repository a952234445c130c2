//! The times of the port's reader and of a plain Rust one, over a file of records. Built and run by bench/reader.

mod plain_reader;
#[allow(dead_code)]
#[path = "../oracle/random.rs"]
mod random;
#[allow(dead_code)]
#[path = "../oracle/reader.rs"]
mod reader;
#[allow(dead_code)]
#[path = "../oracle/records.rs"]
mod records;

use plain_reader::Held;
use reader::LENGTH;
use std::hint::black_box;

const RECORDED: &str = "crates/replay/stdin";

/// Runs over the whole file, of which the least time counts.
const RUNS: usize = 15;

#[repr(C)]
struct Time {
    seconds: i64,
    nanoseconds: i64,
}

extern "C" {
    fn clock_gettime(clock: i32, time: *mut Time) -> i32;
}

/// Processor time of this process, nanoseconds.
fn now() -> f64 {
    const PROCESS: i32 = 2;
    let mut time = Time { seconds: 0, nanoseconds: 0 };
    unsafe { clock_gettime(PROCESS, &mut time) };
    time.seconds as f64 * 1e9 + time.nanoseconds as f64
}

extern "C" {
    fn mlat_record_at(file: *const u8, file_len: usize, place: u64, at: &mut u64) -> u32;
    #[rustfmt::skip]
    fn mlat_read_record(
        record: *const u8, record_len: usize, words: &mut [u32; 6], numbers: &mut [f64; 18], transmit_ps: &mut i64,
    ) -> u32;
}

/// The port: the record at a place, taken apart.
fn by_the_port(file: &[u8], place: u64, held: &mut Held) -> u32 {
    let mut at = 0;
    let number = unsafe { mlat_record_at(file.as_ptr(), file.len(), place, &mut at) };
    if number != 0 {
        return number;
    }
    let record = &file[at as usize..][..LENGTH];
    let Held { words, numbers, transmit_ps } = held;
    unsafe { mlat_read_record(record.as_ptr(), record.len(), words, numbers, transmit_ps) }
}

/// The same by plain Rust, with the same checks.
fn by_rust(file: &[u8], place: u64, held: &mut Held) -> u32 {
    match reader::record_at(file, place) {
        Ok(record) => plain_reader::read(record, held),
        Err(number) => number,
    }
}

const SIDES: [fn(&[u8], u64, &mut Held) -> u32; 2] = [by_the_port, by_rust];

/// The least time a record of either side. They take turns, so that a slow moment of the machine meets both.
fn least(file: &[u8]) -> [f64; 2] {
    let mut held = Held::default();
    let mut best = [f64::INFINITY; 2];
    let count = file.len() / LENGTH;
    for _ in 0..RUNS {
        for (side, best) in SIDES.into_iter().zip(&mut best) {
            let start = now();
            for place in 0..count as u64 {
                assert_eq!(side(file, place, &mut held), 0, "every record is read");
                black_box(&mut held);
            }
            *best = best.min((now() - start) / count as f64);
        }
    }
    best
}

/// Both sides give the same of each record.
fn agree(record: &[u8]) {
    let [ours, theirs] = SIDES.map(|side| {
        let mut held = Held::default();
        (side(record, 0, &mut held), held)
    });
    assert_eq!(ours, theirs, "{record:02x?}");
}

fn main() {
    let count = std::env::args().nth(1).map_or(1_000_000, |word| word.parse().expect("RECORDS is a number"));
    let recorded = records::recorded(&std::fs::read(RECORDED).expect("the recorded inputs"));
    recorded.iter().for_each(|record| agree(record));
    let fixes = recorded.iter().copied().filter(|record| record[0] == 0).collect();
    let refusals = recorded.iter().copied().filter(|record| record[0] != 0).collect();
    let mut worst: f64 = 0.0;
    for (name, kinds) in [("fixes", fixes), ("refusals", refusals), ("both, as recorded", recorded)] {
        let file: Vec<u8> = kinds.iter().flatten().copied().cycle().take(LENGTH * count).collect();
        let [port, rust] = least(&file);
        let [ours, theirs] = [port, rust].map(|time| format!("{time:>5.1} ns, {:>5.1} million a second", 1e3 / time));
        worst = worst.max(port / rust);
        println!("{name:<18} port {ours}; Rust {theirs}; ratio {:.2}", port / rust);
    }
    println!("worst ratio {worst:.2}");
}
