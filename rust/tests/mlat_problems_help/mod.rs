//! What the tests of the commands over problems share: calls of `mlat`, recorded problems, folders that go again.
#![allow(dead_code)]

use std::ffi::OsStr;
use std::fs;
use std::io::Write;
use std::path::{Path, PathBuf};
use std::process::{Child, Command, Stdio};
use std::sync::atomic::{AtomicU32, Ordering};

use jifrosk::{ABSENT, RECORD};

const ROOT: &str = concat!(env!("CARGO_MANIFEST_DIR"), "/..");

pub const FILES: [&str; 4] = ["receptions.bin", "clock.bin", "altitude.bin", "reference.bin"];
pub const EXAMPLES: [&str; 5] = ["fix", "outlier", "ambiguous", "corrected", "screened"];

/// How a call ended.
pub struct Done {
    pub status: Option<i32>,
    pub out: Vec<u8>,
    pub err: String,
}

impl Done {
    pub fn text(&self) -> &str {
        std::str::from_utf8(&self.out).expect("words")
    }

    /// The status of a fault that was said in one line, and nothing else.
    #[track_caller]
    pub fn is_fault(&self, status: i32, says: &[&str]) {
        assert_eq!(self.status, Some(status), "{}", self.err);
        assert!(
            self.err.starts_with("mlat: ") && self.err.ends_with('\n'),
            "{}",
            self.err
        );
        assert_eq!(self.err.lines().count(), 1, "{}", self.err);
        for word in says {
            assert!(self.err.contains(word), "{word:?} is not in {}", self.err);
        }
    }

    #[track_caller]
    pub fn is_silent(&self, status: i32) {
        assert_eq!((self.status, self.err.as_str()), (Some(status), ""));
    }
}

/// A path as a word of a call.
pub fn word(path: &Path) -> &str {
    path.to_str().expect("a path of the test")
}

pub fn mlat<S: AsRef<OsStr>>(words: &[S]) -> Command {
    let mut command = Command::new(env!("CARGO_BIN_EXE_mlat"));
    command.args(words).stdin(Stdio::null());
    command
}

/// Runs a command with these bytes in its standard input.
pub fn run(mut command: Command, input: &[u8]) -> Done {
    command
        .stdin(Stdio::piped())
        .stdout(Stdio::piped())
        .stderr(Stdio::piped());
    let mut child = command.spawn().expect("mlat runs");
    let mut stdin = child.stdin.take().expect("a pipe");
    std::thread::scope(|scope| {
        // a command that ends before its input does closes the pipe
        scope.spawn(move || stdin.write_all(input));
        done(child)
    })
}

pub fn call<S: AsRef<OsStr>>(words: &[S]) -> Done {
    run(mlat(words), &[])
}

pub fn done(child: Child) -> Done {
    let output = child.wait_with_output().expect("it ends");
    Done {
        status: output.status.code(),
        out: output.stdout,
        err: String::from_utf8(output.stderr).expect("words"),
    }
}

/// A problem's four inputs, none where one is absent, and the original's record of it.
pub struct Recorded {
    pub inputs: [Option<Vec<u8>>; 4],
    pub record: Vec<u8>,
}

/// The recorded problems of crates/replay; oracle/kept.rs has the form.
pub fn recorded() -> Vec<Recorded> {
    let bytes = fs::read(format!("{ROOT}/crates/replay/stdin")).expect("the recording");
    let (mut rest, mut all) = (bytes.as_slice(), Vec::new());
    let mut take = |length: usize| {
        let (first, more) = rest.split_at(length);
        rest = more;
        (first.to_vec(), more.is_empty())
    };
    loop {
        let (head, _) = take(8);
        let length = |k: usize| usize::from(u16::from_le_bytes([head[k], head[k + 1]]));
        let lengths = [length(0), length(2), head[4].into(), head[5].into()];
        let bits = [3, 0, 1, 2].map(|bit: u8| head[6] >> bit & 1 == 1);
        let inputs = [0, 1, 2, 3].map(|k| Some(take(lengths[k]).0).filter(|_| bits[k]));
        let (record, ends) = take(RECORD);
        all.push(Recorded { inputs, record });
        if ends {
            return all;
        }
    }
}

/// Four inputs as a problem of a stream.
pub fn stream_of(inputs: &[Option<Vec<u8>>; 4]) -> Vec<u8> {
    let lengths = inputs
        .iter()
        .map(|input| input.as_ref().map_or(ABSENT, |bytes| bytes.len() as u32));
    let head = lengths.flat_map(u32::to_le_bytes);
    head.chain(inputs.iter().flatten().flatten().copied()).collect()
}

/// The recorded problems as one stream, and their records one after the other.
pub fn recorded_stream(problems: &[Recorded]) -> (Vec<u8>, Vec<u8>) {
    let stream = problems.iter().flat_map(|problem| stream_of(&problem.inputs)).collect();
    (
        stream,
        problems.iter().flat_map(|problem| problem.record.clone()).collect(),
    )
}

pub fn example(name: &str) -> PathBuf {
    Path::new(ROOT).join("examples").join(name)
}

pub fn example_inputs(name: &str) -> [Option<Vec<u8>>; 4] {
    FILES.map(|file| Some(fs::read(example(name).join(file)).expect("an example's file")))
}

/// Whether bytes are the same; where they are not, at which first.
#[track_caller]
pub fn is_same(found: &[u8], wanted: &[u8]) {
    let first = found.iter().zip(wanted).position(|(a, b)| a != b);
    assert_eq!(
        (found.len(), first),
        (wanted.len(), None),
        "length, and the first byte that differs"
    );
}

/// A folder that goes when the test ends.
pub struct Scratch(pub PathBuf);

impl Scratch {
    pub fn new() -> Self {
        static COUNT: AtomicU32 = AtomicU32::new(0);
        let count = COUNT.fetch_add(1, Ordering::Relaxed);
        let path = std::env::temp_dir().join(format!("mlat-test-{}-{count}", std::process::id()));
        fs::create_dir(&path).expect("a new folder");
        Scratch(path)
    }

    pub fn path(&self, name: &str) -> PathBuf {
        self.0.join(name)
    }

    pub fn file(&self, name: &str, bytes: &[u8]) -> PathBuf {
        fs::write(self.path(name), bytes).expect("a file of the test");
        self.path(name)
    }

    /// A problem's folder.
    pub fn problem(&self, name: &str, inputs: &[Option<Vec<u8>>; 4]) -> PathBuf {
        let folder = self.path(name);
        fs::create_dir(&folder).expect("a new folder");
        for (file, bytes) in FILES.iter().zip(inputs) {
            if let Some(bytes) = bytes {
                fs::write(folder.join(file), bytes).expect("a problem's file");
            }
        }
        folder
    }

    /// What the folder holds.
    pub fn names(&self) -> Vec<String> {
        let entries = fs::read_dir(&self.0)
            .expect("the folder")
            .map(|entry| entry.expect("an entry"));
        let mut names: Vec<String> = entries.map(|entry| entry.file_name().display().to_string()).collect();
        names.sort();
        names
    }
}

impl Drop for Scratch {
    fn drop(&mut self) {
        let _ = fs::remove_dir_all(&self.0);
    }
}

/// A file that is there and cannot be read; none where the tests run as root, who reads everything.
pub fn unreadable(path: &Path) -> bool {
    use std::os::unix::fs::PermissionsExt;
    fs::set_permissions(path, fs::Permissions::from_mode(0o000)).expect("permissions");
    fs::File::open(path).is_err()
}
