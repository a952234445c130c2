//! Runs the command `mlat`, and holds what came of it. Each file of tests uses a part of this.
#![allow(dead_code)]

use std::ffi::OsStr;
use std::fs;
use std::io::Write;
use std::path::{Path, PathBuf};
use std::process::{Child, Command, Output, Stdio};

pub const RECORD: usize = 176;

/// 107 records of recorded solves: 20 fixes, and refusals of most kinds.
pub const RECORDS: &str = concat!(env!("CARGO_MANIFEST_DIR"), "/tests/data/archive/records.bin");
/// 107 others, with 72 fixes, four of them beyond the wire.
pub const FIXES: &str = concat!(env!("CARGO_MANIFEST_DIR"), "/tests/data/asterix/records.bin");
/// The four records of examples/: fix, outlier, ambiguous, corrected.
pub const EXAMPLES: &str = concat!(env!("CARGO_MANIFEST_DIR"), "/../examples/records.bin");

pub struct Ran {
    pub status: Option<i32>,
    pub out: Vec<u8>,
    pub err: String,
}

impl Ran {
    pub fn of(output: Output) -> Self {
        Ran {
            status: output.status.code(),
            out: output.stdout,
            err: String::from_utf8(output.stderr).expect("standard error is text"),
        }
    }

    pub fn text(&self) -> &str {
        std::str::from_utf8(&self.out).expect("standard output is text")
    }

    /// It did what was asked, and said nothing besides.
    pub fn done(self) -> Self {
        assert_eq!((self.status, self.err.as_str()), (Some(0), ""));
        self
    }

    /// It ended with this status and one line on standard error, with these words in it; nothing was printed.
    pub fn faulted(self, status: i32, words: &str) {
        assert_eq!(self.status, Some(status), "{}", self.err);
        assert!(
            self.err.starts_with("mlat: ") && self.err.contains(words),
            "{}",
            self.err
        );
        assert_eq!(self.err.matches('\n').count(), 1, "{}", self.err);
        assert!(self.err.ends_with('\n') && self.out.is_empty(), "{}", self.err);
    }
}

pub fn command<W: AsRef<OsStr>>(words: &[W]) -> Command {
    let mut command = Command::new(env!("CARGO_BIN_EXE_mlat"));
    command.args(words).stdin(Stdio::null());
    command
}

pub fn mlat<W: AsRef<OsStr>>(words: &[W]) -> Ran {
    Ran::of(command(words).output().expect("mlat runs"))
}

/// With bytes that come through a pipe, some at a time.
pub fn mlat_on<W: AsRef<OsStr>>(bytes: &[u8], words: &[W]) -> Ran {
    let mut child = piped(words);
    let mut pipe = child.stdin.take().expect("a pipe");
    let sent = bytes.to_vec();
    let sender = std::thread::spawn(move || {
        // a command that ends early reads no more
        sent.chunks(1001).try_for_each(|some| pipe.write_all(some)).ok()
    });
    let output = child.wait_with_output().expect("mlat ends");
    sender.join().expect("the sender ends");
    Ran::of(output)
}

/// Started, with pipes for all three.
pub fn piped<W: AsRef<OsStr>>(words: &[W]) -> Child {
    command(words)
        .stdin(Stdio::piped())
        .stdout(Stdio::piped())
        .stderr(Stdio::piped())
        .spawn()
        .expect("mlat starts")
}

pub fn ended(child: Child) -> Ran {
    Ran::of(child.wait_with_output().expect("mlat ends"))
}

/// A folder for a test's files, which goes with it.
pub struct Folder(PathBuf);

impl Folder {
    pub fn new(test: &str) -> Self {
        let path = Path::new(env!("CARGO_TARGET_TMPDIR")).join(format!("{test}-{}", std::process::id()));
        fs::create_dir_all(&path).expect("a folder for the test");
        Folder(path)
    }

    pub fn path(&self, name: &str) -> String {
        self.0.join(name).to_str().expect("a path in UTF-8").to_string()
    }

    pub fn file(&self, name: &str, bytes: &[u8]) -> String {
        let path = self.path(name);
        fs::write(&path, bytes).expect("a file of the test");
        path
    }

    /// The names of what is in it.
    pub fn names(&self) -> Vec<String> {
        let entries = fs::read_dir(&self.0).expect("the folder of the test");
        let mut names: Vec<String> = entries
            .map(|entry| {
                entry
                    .expect("an entry")
                    .file_name()
                    .to_str()
                    .expect("UTF-8")
                    .to_string()
            })
            .collect();
        names.sort();
        names
    }
}

impl Drop for Folder {
    fn drop(&mut self) {
        let _ = fs::remove_dir_all(&self.0);
    }
}

pub fn bytes_of(path: &str) -> Vec<u8> {
    fs::read(path).unwrap_or_else(|error| panic!("{path}: {error}"))
}

pub fn long(record: &[u8], at: usize) -> u64 {
    u64::from_le_bytes(record[at..at + 8].try_into().expect("eight bytes"))
}

pub fn float(record: &[u8], at: usize) -> f64 {
    f64::from_bits(long(record, at))
}

pub fn answer(record: &[u8]) -> u32 {
    u32::from_le_bytes(record[..4].try_into().expect("four bytes"))
}

/// A record with other bytes from a place on.
pub fn damaged(record: &[u8], at: usize, bytes: &[u8]) -> Vec<u8> {
    let mut record = record.to_vec();
    record[at..at + bytes.len()].copy_from_slice(bytes);
    record
}

/// The first record of a file with this answer.
pub fn with_answer(file: &[u8], wanted: u32) -> &[u8] {
    file.chunks_exact(RECORD)
        .find(|record| answer(record) == wanted)
        .expect("a record with that answer")
}
