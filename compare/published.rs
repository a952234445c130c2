//! Fixes of the port's solve through everything downstream: reader, archive and back, wire, category 020. Built and run by compare/published.

#[allow(dead_code)]
mod port_archive;
#[allow(dead_code)]
mod port_asterix;
mod port_solve;
#[allow(dead_code)]
mod port_wire;

use oracle::kinds::SCENES;
use oracle::random::Random;
use oracle::record::{self, LENGTH};
use oracle::scene::Files;
use oracle::steep;
use std::io::Write;
use std::time::Instant;

/// The archive's form of a record, and the two items.
const ARCHIVED: usize = 152;
const ITEMS: usize = 10;

extern "C" {
    #[rustfmt::skip]
    fn mlat_read_record(
        record: *const u8, record_len: usize, words: *mut u32, numbers: *mut f64, transmit_ps: *mut i64,
    ) -> u32;
}

fn read(record: &[u8]) -> u32 {
    let (mut words, mut numbers, mut transmit_ps) = ([0; 6], [0.0; 18], 0);
    unsafe { mlat_read_record(record.as_ptr(), record.len(), words.as_mut_ptr(), numbers.as_mut_ptr(), &mut transmit_ps) }
}

/// Who does not take the record, and why.
fn refused(record: &[u8; LENGTH]) -> Option<String> {
    let found = read(record);
    if found != 0 {
        return Some(format!("the reader answers {found}"));
    }
    let mut form = [0; ARCHIVED];
    let found = port_archive::to_archive(record, &mut form);
    if found != 0 {
        return Some(format!("the archive answers {found}"));
    }
    let mut back = [0; LENGTH];
    let found = port_archive::from_archive(&form, &mut back);
    if found != 0 || back != *record {
        return Some(format!("the archive answers {found} on the way back, or another record comes back"));
    }
    let mut wire = [0; 3];
    let found = port_wire::to_wire(record, &mut wire);
    if found != 0 {
        return Some(format!("the wire answers {found}"));
    }
    let found = port_asterix::to_asterix(wire, &mut [0; ITEMS]);
    (found != 0).then(|| format!("category 020 answers {found}"))
}

/// Whether a variance is under the floor, 5 m squared. That none ever is is not proved (docs/TRUST.md).
fn under_floor(record: &[u8; LENGTH]) -> bool {
    [80, 112, 144].iter().any(|at| f64::from_le_bytes(record[*at..*at + 8].try_into().expect("eight bytes")) < 25.0)
}

/// The files of a problem whose fix is refused, in a folder of their own.
fn keep(folder: &str, files: &Files) -> std::io::Result<()> {
    std::fs::create_dir_all(folder)?;
    let all = [("receptions", &files.receptions), ("clock", &files.clock), ("altitude", &files.altitude), ("reference", &files.reference)];
    for (name, file) in all {
        if let Some(bytes) = file {
            std::fs::write(format!("{folder}/{name}.bin"), bytes)?;
        }
    }
    Ok(())
}

/// The problem that is made for it: a fix for port and original alike, whose chi-square is plus infinity, and the reader answers 18.
fn infinite() -> bool {
    let files = steep::files();
    let mut found = [0; LENGTH];
    let answer = port_solve::solve(&files, &[], 0, &mut found);
    let chi2 = f64::from_le_bytes(found[152..160].try_into().expect("eight bytes"));
    let same = record::record(&files) == (answer, found);
    let (read, kept) = (read(&found), keep("target/compare/published/steep", &files));
    kept.unwrap_or_else(|error| println!("target/compare/published/steep: {error}"));
    println!("a problem with an all but singular clock: answer {answer}, chi-square {chi2}, the reader answers {read}; the original's record is {}", if same { "the same" } else { "another" });
    answer == 0 && chi2 == f64::INFINITY && same && read == 18
}

fn main() {
    let words: Vec<u64> = std::env::args().skip(1).map(|word| word.parse().expect("COUNT and SEED are numbers")).collect();
    let count = words.first().copied().unwrap_or(1_000_000);
    let seed = words.get(1).copied().unwrap_or(1);
    let start = Instant::now();
    let (mut fixes, mut not_taken, mut under, mut k) = ([0_u64; SCENES.len()], 0_u64, 0_u64, 0_u64);
    let mut all = 0;
    while all < count {
        let kind = (k % SCENES.len() as u64) as usize;
        let files = SCENES[kind].1(&mut Random::of_problem(seed, k)).files();
        // bytes and a list of structs in turn
        let solve = if k / SCENES.len() as u64 % 2 == 0 { port_solve::solve } else { port_solve::solve_receptions };
        let mut record = [0; LENGTH];
        let answer = solve(&files, &[], 0, &mut record);
        if answer == 0 {
            fixes[kind] += 1;
            all += 1;
            under += u64::from(under_floor(&record));
            if let Some(why) = refused(&record) {
                not_taken += 1;
                if not_taken <= 20 {
                    let folder = format!("target/compare/published/input-{k}");
                    println!("input {k}, {}: {why}; kept in {folder}", SCENES[kind].0);
                    keep(&folder, &files).unwrap_or_else(|error| println!("{folder}: {error}"));
                }
            }
            if all % count.div_ceil(50) == 0 {
                eprint!("\r{:>3}% of {count}, {not_taken} not taken, {:.0} s ", all * 100 / count, start.elapsed().as_secs_f64());
                std::io::stderr().flush().ok();
            }
        }
        k += 1;
    }
    eprintln!();
    for (kind, fixes) in SCENES.iter().zip(fixes) {
        println!("{:<34} {fixes:>8}", kind.0);
    }
    println!("{all} fixes of {k} problems, {not_taken} not taken by reader, archive, wire or category 020; {under} with a variance under 25 m²");
    let infinite = infinite();
    std::process::exit((not_taken > 0 || under > 0 || !infinite) as i32);
}
