//! cargo run --example records FILE: lists a file of fix records.

use jifrosk::{read, Record, Records};

fn main() -> Result<(), Box<dyn std::error::Error>> {
    let path = std::env::args().nth(1).ok_or("usage: records FILE")?;
    let file = std::fs::read(path)?;
    for (place, record) in Records::new(&file)?.iter().enumerate() {
        match read(record) {
            Ok(Record::Fix(fix)) => {
                let [latitude, longitude, height] = fix.position.into();
                let sent = fix.transmit_ps;
                println!("{place}: {latitude:.7}, {longitude:.7} degrees, {height:.1} m, sent {sent} ps");
            }
            Ok(Record::Refused { refusal, .. }) => println!("{place}: no fix: {}, {refusal}", refusal.number()),
            Err(refusal) => println!("{place}: {refusal}"),
        }
    }
    Ok(())
}
