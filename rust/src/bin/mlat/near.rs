//! `mlat near`: the fixes of a file near a place. The library decides which they are, block by block; nothing is
//! printed before the whole file is known good.

use std::ffi::{OsStr, OsString};

use jifrosk::geo::to_ecef;
use jifrosk::{Refusal, RECORD};

use crate::args::{number, number_within, parse, Given, Takes};
use crate::fault::Fault;
use crate::found::{Form, Found};
use crate::input::{Block, Entries};
use crate::output::Output;
use crate::search::Search;
use crate::skipped::Skipped;
use crate::spool::Spool;

pub const HELP: &str = "\
usage: mlat near [--sort distance] [--json] [--skip-malformed] [--tail] [-q] FILE LAT LON HEIGHT RADIUS
       mlat near [..] FILE --ecef X Y Z RADIUS

Names the fix of FILE, records of 176 bytes, that is nearest to a place, the earliest of several; then each fix at most
RADIUS metres away, in the file's order: its place in the file, from 0, distance, position and transmit time. LAT is
within ±90 and LON within ±180 degrees, HEIGHT is metres above the ellipsoid. With --ecef the place is X Y Z, metres.
RADIUS and the coordinates are at most 10^8 m.

  --sort distance    the nearest of them first; they are then held in memory, 48 bytes each
  --json             a JSON object a line
  --skip-malformed   pass over records that are malformed (18), and say how many
  --tail             pass over a last record that is half written, and say so
  -q, --quiet        do not say how far it is, on a terminal

Nothing is printed before the whole file has been read and is good. FILE may be -.
";

const USAGE: &str = "mlat near FILE LAT LON HEIGHT RADIUS, or mlat near FILE --ecef X Y Z RADIUS";

const TAKES: Takes = Takes {
    flags: &["--ecef", "--json", "--skip-malformed", "--tail", "-q", "--quiet"],
    valued: &["--sort"],
};

/// The fixes that are within the radius, until they are printed.
enum Listed {
    InOrder(Spool),
    ByDistance(Vec<Found>),
}

pub fn near(words: &[OsString]) -> Result<(), Fault> {
    let given = parse(words, &TAKES)?;
    let [file, first, second, third, radius] = given.operands(USAGE)?;
    let point = point_of(&given, [first, second, third])?;
    let radius = number("RADIUS", radius)?;
    let mut listed = match given.value("--sort") {
        None => Listed::InOrder(Spool::default()),
        Some(word) if word == "distance" => Listed::ByDistance(Vec::new()),
        Some(word) => return Err(Fault::Call(format!("--sort takes distance, not {}", word.display()))),
    };
    let form = if given.has("--json") { Form::Json } else { Form::Text };
    let mut entries = Entries::open(file, RECORD, &given)?;
    let mut skipped = Skipped::new(&entries.input.name, given.has("--skip-malformed"));
    let mut search = Search::new(point, radius);
    entries.each_block(|block| take_block(&mut search, block, &mut skipped, |found| listed.add(found, form)))?;
    if search.is_bad() {
        return Err(bad_query(&point, radius));
    }
    print(search.nearest(), listed, form)?;
    entries.say_rest();
    skipped.end()
}

/// The point that three words name.
fn point_of(given: &Given, [first, second, third]: [&OsStr; 3]) -> Result<[f64; 3], Fault> {
    if given.has("--ecef") {
        return Ok([number("X", first)?, number("Y", second)?, number("Z", third)?]);
    }
    let latitude = number_within("LAT", first, -90.0, 90.0)?;
    let longitude = number_within("LON", second, -180.0, 180.0)?;
    Ok(to_ecef([latitude, longitude, number("HEIGHT", third)?].into()))
}

/// Searches a block; where it has malformed records, the runs of records between them.
fn take_block(
    search: &mut Search,
    block: Block,
    skipped: &mut Skipped,
    mut take: impl FnMut(Found) -> Result<(), Fault>,
) -> Result<(), Fault> {
    if search.take(block.place, block.bytes, &mut take)? {
        return Ok(());
    }
    let mut from = 0;
    for (at, record) in block.bytes.chunks_exact(RECORD).enumerate() {
        if let Err(refusal) = jifrosk::read(record) {
            skipped.pass_over(block.place + at as u64, record, refusal)?;
            let run = &block.bytes[from * RECORD..at * RECORD];
            search.take(block.place + from as u64, run, &mut take)?;
            from = at + 1;
        }
    }
    search.take(block.place + from as u64, &block.bytes[from * RECORD..], &mut take)?;
    Ok(())
}

impl Listed {
    fn add(&mut self, found: Found, form: Form) -> Result<(), Fault> {
        match self {
            Listed::InOrder(spool) => {
                form.put(spool.buffer(), "within", &found);
                spool.settle()
            }
            Listed::ByDistance(all) => {
                all.push(found);
                Ok(())
            }
        }
    }
}

fn print(nearest: Option<Found>, listed: Listed, form: Form) -> Result<(), Fault> {
    let mut out = Output::text()?;
    match nearest {
        Some(found) => form.put(out.buffer(), "nearest", &found),
        None => out.put(form.none())?,
    }
    match listed {
        Listed::InOrder(spool) => spool.pour(&mut out)?,
        Listed::ByDistance(mut all) => {
            all.sort_unstable_by(Found::order);
            for found in all {
                form.put(out.buffer(), "within", &found);
                out.put(b"")?;
            }
        }
    }
    out.finish()
}

/// The library's refusal of a query, with the limit that it breaks.
fn bad_query(point: &[f64; 3], radius: f64) -> Fault {
    let limit = if radius < 0.0 {
        format!("RADIUS is not negative, as {radius} is")
    } else if radius > 1e8 {
        format!("RADIUS is at most 10^8 m, not {radius}")
    } else {
        let [x, y, z] = point;
        format!("the place is at most 10^8 m from the middle of the earth on each axis, not at {x}, {y}, {z}")
    };
    Fault::Call(format!("bad query ({}): {limit}", Refusal::BadQuery.number()))
}
