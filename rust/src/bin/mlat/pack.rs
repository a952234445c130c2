//! `mlat pack`: folders as a stream of problems.

use std::ffi::{OsStr, OsString};
use std::path::Path;

use jifrosk::ABSENT;

use crate::args::{parse, Takes};
use crate::fault::Fault;
use crate::folder::Folder;
use crate::names::Names;
use crate::output::Output;
use crate::progress::Progress;

pub const HELP: &str = "\
usage: mlat pack [-q] [-o OUT] FOLDER..
       mlat pack [-q] [-o OUT] [-0] -

Writes the problems of folders, in their order, as a stream for `mlat many`: of each four lengths, u32 little-endian,
then the bytes of receptions.bin, clock.bin, altitude.bin and reference.bin; the length of one that is not there is
2^32 - 1. Of a file that is longer than any that is taken just as much is written as decides the answer.

  -             the folders that standard input names, one a line
  -0            each name there ends with a zero byte: find .. -print0 | mlat pack -0 -
  -o OUT        to OUT, which is whole or as it was, instead of standard output
  -q, --quiet   do not say how far it is, on a terminal

A folder that is missing, or a file that cannot be read, is a fault (4) before anything of that folder is written.
";

const TAKES: Takes = Takes {
    flags: &["-0", "-q", "--quiet"],
    valued: &["-o"],
};

pub fn pack(words: &[OsString]) -> Result<(), Fault> {
    let given = parse(words, &TAKES)?;
    let mut folders = given.operands.clone();
    if folders.is_empty() && given.has("-0") {
        folders.push("-".into());
    }
    if folders.is_empty() {
        return Err(Fault::Call(
            "usage: mlat pack [-o OUT] FOLDER.., or - for names from standard input".to_string(),
        ));
    }
    let mut packer = Packer {
        out: Output::bytes(given.value("-o").unwrap_or(OsStr::new("-")))?,
        folder: Folder::new(),
        count: 0,
        progress: Progress::unless(given.is_quiet()),
    };
    for folder in folders {
        match folder == "-" {
            true => packer.put_named(if given.has("-0") { b'\0' } else { b'\n' })?,
            false => packer.put(Path::new(&folder))?,
        }
    }
    packer.out.finish()
}

struct Packer {
    out: Output,
    folder: Folder,
    count: u64,
    progress: Progress,
}

impl Packer {
    /// The folders that standard input names; what is packed does not wait for a name that is still to come.
    fn put_named(&mut self, end: u8) -> Result<(), Fault> {
        let mut names = Names::of_standard_input(end)?;
        loop {
            if !names.is_ready() {
                self.out.flush()?;
            }
            match names.next()? {
                Some(name) => self.put(Path::new(&name))?,
                None => return Ok(()),
            }
        }
    }

    fn put(&mut self, path: &Path) -> Result<(), Fault> {
        self.folder.read(path)?;
        let inputs = self.folder.inputs();
        let buffer = self.out.buffer();
        for input in inputs {
            let length = input.map_or(ABSENT, |bytes| bytes.len() as u32);
            buffer.extend_from_slice(&length.to_le_bytes());
        }
        for input in inputs.into_iter().flatten() {
            buffer.extend_from_slice(input);
        }
        self.count += 1;
        let count = self.count;
        self.progress
            .tell(|seconds| format!("{count} folders, {:.0} a second", count as f64 / seconds));
        self.out.put(&[])
    }
}
