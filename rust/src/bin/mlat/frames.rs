//! A stream of problems, as it comes: whole problems, as soon as they are there.

use std::collections::VecDeque;
use std::ffi::{OsStr, OsString};
use std::fs;
use std::io;

use jifrosk::{cut_lengths, Refusal, ABSENT};

use crate::fault::Fault;
use crate::input::{Input, BLOCK};
use crate::progress;

/// The bytes of a problem's four lengths.
const LENGTHS: usize = 16;

/// The problems of streams one after the other, each input a stream of its own.
pub struct Frames {
    /// What is still to be opened.
    words: VecDeque<OsString>,
    input: Option<Input>,
    /// Whether a last problem that is not whole is passed over, and said.
    tail: bool,
    /// What was read and not yet given lies from `start` to `filled`.
    buffer: Vec<u8>,
    start: usize,
    filled: usize,
    /// Of this input's next problem the place and the byte that it begins at, both from 0.
    place: u64,
    at: u64,
    /// What is given: problems one after the other, and where each ends.
    given: Vec<u8>,
    ends: Vec<usize>,
}

/// Problems one after the other, and where each of them ends: one at least.
pub struct Whole<'a> {
    pub bytes: &'a [u8],
    pub ends: &'a [usize],
}

/// What stands next in the buffer.
enum Next {
    /// A problem of so many bytes.
    Whole(usize),
    /// The lengths of a problem of whose inputs a part decides.
    Long([u32; 4]),
    /// The start of a problem, or nothing.
    Part,
}

impl Frames {
    /// The streams of what words name, of which `-` is standard input; a file that is not there is a fault at once.
    pub fn open(words: &[OsString], tail: bool) -> Result<Self, Fault> {
        for word in words.iter().filter(|word| *word != "-") {
            is_readable(word).map_err(|error| Fault::Read {
                name: word.display().to_string(),
                error,
            })?;
        }
        let standard = [OsString::from("-")];
        let words = if words.is_empty() { &standard } else { words };
        Ok(Frames {
            words: words.iter().cloned().collect(),
            input: None,
            tail,
            buffer: vec![0; BLOCK],
            start: 0,
            filled: 0,
            place: 0,
            at: 0,
            given: Vec::with_capacity(BLOCK),
            ends: Vec::new(),
        })
    }

    /// The problems that are there; waits for more of the stream only where there is none. None at the end of the last.
    pub fn next(&mut self) -> Result<Option<Whole<'_>>, Fault> {
        self.given.clear();
        self.ends.clear();
        while self.ends.is_empty() {
            match self.stands_next() {
                Next::Whole(_) => self.give_all(),
                Next::Long(lengths) => self.give_long(lengths)?,
                Next::Part if self.read()? => {}
                Next::Part if self.open_next()? => {}
                Next::Part => return Ok(None),
            }
        }
        self.place += self.ends.len() as u64;
        Ok(Some(Whole {
            bytes: &self.given,
            ends: &self.ends,
        }))
    }

    fn stands_next(&self) -> Next {
        let bytes = &self.buffer[self.start..self.filled];
        let Some(lengths) = lengths_of(bytes) else {
            return Next::Part;
        };
        if cut_lengths(&lengths) != lengths {
            return Next::Long(lengths);
        }
        match LENGTHS + lengths.map(size).iter().sum::<u64>() as usize {
            size if size <= bytes.len() => Next::Whole(size),
            _ => Next::Part,
        }
    }

    /// Gives every whole problem of the buffer up to the first that is too long.
    fn give_all(&mut self) {
        let first = self.start;
        while let Next::Whole(size) = self.stands_next() {
            self.start += size;
            self.ends.push(self.start - first);
        }
        self.given.extend_from_slice(&self.buffer[first..self.start]);
        self.at += (self.start - first) as u64;
    }

    /// Gives a problem of whose inputs only as much is kept as decides: with the lengths of these parts.
    fn give_long(&mut self, lengths: [u32; 4]) -> Result<(), Fault> {
        let cut = cut_lengths(&lengths);
        self.given.extend(cut.iter().flat_map(|length| length.to_le_bytes()));
        self.start += LENGTHS;
        for (length, kept) in lengths.map(size).into_iter().zip(cut.map(size)) {
            self.take(kept, true)?;
            self.take(length - kept, false)?;
        }
        self.ends.push(self.given.len());
        self.at += LENGTHS as u64 + lengths.map(size).iter().sum::<u64>();
        Ok(())
    }

    /// Takes so many bytes of the stream, to keep them or to pass over them.
    fn take(&mut self, count: u64, keeps: bool) -> Result<(), Fault> {
        let mut left = count;
        while left > 0 {
            if self.start == self.filled && !self.read()? {
                return Err(self.torn());
            }
            let here = left.min((self.filled - self.start) as u64) as usize;
            if keeps {
                self.given
                    .extend_from_slice(&self.buffer[self.start..self.start + here]);
            }
            self.start += here;
            left -= here as u64;
        }
        Ok(())
    }

    /// Reads what is there behind what is not yet given; whether there was more.
    fn read(&mut self) -> Result<bool, Fault> {
        let Some(input) = &mut self.input else {
            return Ok(false);
        };
        self.buffer.copy_within(self.start..self.filled, 0);
        self.filled -= self.start;
        self.start = 0;
        let count = input.read(&mut self.buffer[self.filled..])?;
        self.filled += count;
        Ok(count > 0)
    }

    /// Goes on with the next input; whether there is one. The one before ends here: within a problem, that is a fault.
    fn open_next(&mut self) -> Result<bool, Fault> {
        if self.start < self.filled {
            let torn = self.torn();
            if !self.tail {
                return Err(torn);
            }
            progress::say(&format!("{}, and is passed over", torn.line().unwrap_or_default()));
        }
        (self.start, self.filled, self.place, self.at) = (0, 0, 0, 0);
        self.input = self.words.pop_front().map(|word| Input::open(&word)).transpose()?;
        Ok(self.input.is_some())
    }

    fn torn(&self) -> Fault {
        let (name, done) = self.input.as_ref().map_or(("", 0), |input| (&input.name, input.done));
        let (number, place, at) = (Refusal::TornFile.number(), self.place, self.at);
        let there = done - at;
        let begins = format!("problem {place}, which begins at byte {at}: {there} bytes of it are there");
        Fault::Input(format!("{name}: torn stream ({number}): it ends within {begins}"))
    }
}

/// Whether there is such a file, without opening it: a pipe can be opened once.
fn is_readable(word: &OsStr) -> io::Result<()> {
    match fs::metadata(word)?.is_dir() {
        true => Err(io::ErrorKind::IsADirectory.into()),
        false => Ok(()),
    }
}

/// The lengths or marks of a problem's four inputs, where they are there.
pub fn lengths_of(bytes: &[u8]) -> Option<[u32; 4]> {
    let head: &[u8; LENGTHS] = bytes.first_chunk()?;
    Some([0, 4, 8, 12].map(|at| u32::from_le_bytes([head[at], head[at + 1], head[at + 2], head[at + 3]])))
}

/// How many bytes an input of that length or mark has.
fn size(length: u32) -> u64 {
    if length == ABSENT {
        0
    } else {
        length.into()
    }
}

/// The inputs of a whole problem, none where one is absent.
pub fn inputs_of(problem: &[u8]) -> [Option<&[u8]>; 4] {
    let mut rest = &problem[LENGTHS..];
    lengths_of(problem).expect("a whole problem").map(|length| {
        let (input, more) = rest.split_at(size(length) as usize);
        rest = more;
        (length != ABSENT).then_some(input)
    })
}
