//! The times of the port's `mlat_within` and `mlat_nearest` and of plain Rust loops, over a file of records. Built and
//! run by bench/near.

mod plain_near;
#[allow(dead_code)]
mod plain_reader;
#[allow(dead_code)]
#[path = "../oracle/random.rs"]
mod random;
#[allow(dead_code)]
#[path = "../oracle/reader.rs"]
mod reader;
#[allow(dead_code)]
#[path = "../oracle/records.rs"]
mod records;

use random::Random;
use reader::LENGTH;
use std::hint::black_box;

const RECORDED: &str = "crates/replay/stdin";

/// Runs over the whole file, of which the least time counts.
const RUNS: usize = 15;

#[repr(C)]
struct Time {
    seconds: i64,
    nanoseconds: i64,
}

extern "C" {
    fn clock_gettime(clock: i32, time: *mut Time) -> i32;
    #[rustfmt::skip]
    fn mlat_within(
        file: *const u8, file_len: usize, point: &[f64; 3], radius: f64, places: *mut u64, places_len: usize,
        count: &mut u64,
    ) -> u32;
    fn mlat_nearest(file: *const u8, file_len: usize, point: &[f64; 3], place: &mut u64) -> u32;
}

/// Processor time of this process, nanoseconds.
fn now() -> f64 {
    const PROCESS: i32 = 2;
    let mut time = Time { seconds: 0, nanoseconds: 0 };
    unsafe { clock_gettime(PROCESS, &mut time) };
    time.seconds as f64 * 1e9 + time.nanoseconds as f64
}

/// A query: the point, and the radius where those within it are asked for.
type Query = ([f64; 3], Option<f64>);

/// What a query gives: the number, the places, and the count or the nearest.
type Found = (u32, Vec<u64>, u64);

fn by_the_port(file: &[u8], (point, radius): &Query, places: &mut [u64], out: &mut u64) -> u32 {
    match radius {
        Some(radius) => unsafe {
            mlat_within(file.as_ptr(), file.len(), point, *radius, places.as_mut_ptr(), places.len(), out)
        },
        None => unsafe { mlat_nearest(file.as_ptr(), file.len(), point, out) },
    }
}

fn by_rust(file: &[u8], (point, radius): &Query, places: &mut [u64], out: &mut u64) -> u32 {
    match radius {
        Some(radius) => plain_near::within(file, point, *radius, places, out),
        None => plain_near::nearest(file, point, out),
    }
}

const SIDES: [fn(&[u8], &Query, &mut [u64], &mut u64) -> u32; 2] = [by_the_port, by_rust];

/// The least time a record of either side. They take turns, so that a slow moment of the machine meets both. Both have
/// to give the same.
fn least(file: &[u8], query: &Query) -> ([f64; 2], u64) {
    let count = file.len() / LENGTH;
    let mut best = [f64::INFINITY; 2];
    let mut given: [Found; 2] = [0, 1].map(|_| (0, vec![0; count], 0));
    for _ in 0..RUNS {
        for k in 0..2 {
            let (number, places, out) = &mut given[k];
            let start = now();
            *number = SIDES[k](black_box(file), query, places, out);
            best[k] = best[k].min((now() - start) / count as f64);
        }
    }
    assert!(given[0] == given[1] && given[0].0 == 0, "both sides give the same");
    (best, given[0].2)
}

fn main() {
    let count = std::env::args().nth(1).map_or(1_000_000, |word| word.parse().expect("RECORDS is a number"));
    let recorded = records::recorded(&std::fs::read(RECORDED).expect("the recorded inputs"));
    let fixes: Vec<_> = recorded.iter().copied().filter(|record| record[0] == 0).collect();
    // fixes of the solve, moved by up to 300 km on each axis, and every other one in between
    let mut random = Random::new(1);
    let mut file: Vec<u8> = Vec::with_capacity(LENGTH * count);
    for k in 0..count {
        let mut record = if k % 2 == 0 { fixes[k / 2 % fixes.len()] } else { recorded[k / 2 % recorded.len()] };
        if record[0] == 0 {
            for axis in 0..3 {
                let bytes: &mut [u8; 8] = (&mut record[16 + 8 * axis..24 + 8 * axis]).try_into().expect("eight bytes");
                *bytes = (f64::from_le_bytes(*bytes) + random.within(300_000.0)).to_le_bytes();
            }
        }
        file.extend(record);
    }
    let first = reader::read(&fixes[0]).expect("a fix").ecef.map(f64::from_bits);
    let mut worst: f64 = 0.0;
    for (name, radius) in [
        ("within 1 km", Some(1e3)),
        ("within 200 km", Some(2e5)),
        ("within 10^8 m, all", Some(1e8)),
        ("the nearest", None),
    ] {
        let ([port, rust], found) = least(&file, &(first, radius));
        let words = |time: f64| format!("{time:>5.1} ns a record, {:>6.1} ms", time * count as f64 / 1e6);
        let [ours, theirs] = [words(port), words(rust)];
        worst = worst.max(port / rust);
        let what = if radius.is_some() { "found" } else { "at place" };
        println!("{name:<18} {what} {found:>7}: port {ours}; Rust {theirs}; ratio {:.2}", port / rust);
    }
    println!("worst ratio {worst:.2}");
}
