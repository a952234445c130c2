//! cargo run --example solve [FOLDER]: solves the four files of a folder. A file that is not there is an absent input; one
//! that is there and cannot be read is an error.

use jifrosk::{read, solve_bytes, Record, RECORD};
use std::io::ErrorKind;
use std::process::ExitCode;

/// The bytes of a file, none where there is no such file.
fn input(folder: &str, name: &str) -> Result<Option<Vec<u8>>, String> {
    let path = format!("{folder}/{name}.bin");
    match std::fs::read(&path) {
        Ok(bytes) => Ok(Some(bytes)),
        Err(error) if error.kind() == ErrorKind::NotFound => Ok(None),
        Err(error) => Err(format!("{path}: {error}")),
    }
}

/// The record of the four files of a folder.
fn solved(folder: &str) -> Result<[u8; RECORD], String> {
    let file = |name| input(folder, name);
    let (receptions, clock, altitude, reference) = (
        file("receptions")?,
        file("clock")?,
        file("altitude")?,
        file("reference")?,
    );
    if [&receptions, &clock, &altitude, &reference]
        .iter()
        .all(|file| file.is_none())
    {
        return Err(format!("{folder} has none of the four files"));
    }
    let mut record = [0; RECORD];
    let receptions = receptions.unwrap_or_default();
    solve_bytes(
        &receptions,
        clock.as_deref(),
        altitude.as_deref(),
        reference.as_deref(),
        &mut record,
    );
    Ok(record)
}

fn main() -> ExitCode {
    let folder = std::env::args().nth(1).unwrap_or_else(|| ".".to_string());
    let record = match solved(&folder) {
        Ok(record) => record,
        Err(error) => {
            eprintln!("solve: {error}");
            return ExitCode::from(2);
        }
    };
    match read(&record).and_then(Record::fix) {
        Ok(fix) => println!(
            "latitude {:.7}, longitude {:.7}, height {:.1} m, used {:08x}",
            fix.position.lat_deg, fix.position.lon_deg, fix.position.height_m, fix.used
        ),
        Err(refusal) => {
            println!("refused: {}, {refusal}", refusal.number());
            return ExitCode::FAILURE;
        }
    }
    ExitCode::SUCCESS
}
