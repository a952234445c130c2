use std::ffi::OsStr;
use std::fs::File;
use std::io::{self, IsTerminal, Read, Seek, SeekFrom};
use std::os::fd::AsFd;

use jifrosk::Refusal;

use crate::args::Given;
use crate::fault::Fault;
use crate::progress::{say, share, Progress};

/// How much is read and written at a time.
pub const BLOCK: usize = 1 << 20;

/// An input that is read once, from its start to its end: a file, a pipe, or standard input.
pub struct Input {
    /// What messages call it.
    pub name: String,
    /// How many bytes it has, where it is a file, as it was opened.
    pub size: Option<u64>,
    /// How many of them have been read.
    pub done: u64,
    file: File,
}

impl Input {
    /// Opens what a word names; `-` is standard input.
    pub fn open(word: &OsStr) -> Result<Self, Fault> {
        let name = if word == "-" {
            "standard input".to_string()
        } else {
            word.display().to_string()
        };
        let opened = if word == "-" { standard()? } else { File::open(word) };
        let sized = opened.and_then(|mut file| Ok((left_of(&mut file)?, file)));
        match sized {
            Ok((size, file)) => Ok(Input {
                name,
                size,
                done: 0,
                file,
            }),
            Err(error) => Err(Fault::Read { name, error }),
        }
    }

    /// Fills the buffer as far as the input goes; gives how many bytes it read, under the buffer's at the end alone.
    pub fn fill(&mut self, buffer: &mut [u8]) -> Result<usize, Fault> {
        let mut filled = 0;
        while filled < buffer.len() {
            match self.read(&mut buffer[filled..])? {
                0 => break,
                count => filled += count,
            }
        }
        Ok(filled)
    }

    /// Reads what is there, and waits only for the first byte; 0 at the end.
    pub fn read(&mut self, buffer: &mut [u8]) -> Result<usize, Fault> {
        loop {
            match self.file.read(buffer) {
                Ok(count) => {
                    self.done += count as u64;
                    return if count == 0 { self.ended() } else { Ok(count) };
                }
                Err(error) if error.kind() == io::ErrorKind::Interrupted => {}
                Err(error) => return Err(self.unread(error)),
            }
        }
    }

    /// Passes over so many bytes of a file.
    pub fn skip(&mut self, count: u64) -> Result<(), Fault> {
        let offset = i64::try_from(count).unwrap_or(i64::MAX);
        let sought = self.file.seek(SeekFrom::Current(offset));
        sought.map_err(|error| self.unread(error))?;
        self.done += count;
        Ok(())
    }

    /// At the end: a file may have grown meanwhile, and then its new bytes were read; it may not have become shorter.
    fn ended(&self) -> Result<usize, Fault> {
        match self.size {
            Some(size) if self.done < size => Err(self.unread(io::Error::other(format!(
                "it became shorter meanwhile, {} of {size} bytes were read",
                self.done
            )))),
            _ => Ok(0),
        }
    }

    fn unread(&self, error: io::Error) -> Fault {
        Fault::Read {
            name: self.name.clone(),
            error,
        }
    }
}

/// Standard input, as a file of its own; people who type no bytes are told so.
fn standard() -> Result<io::Result<File>, Fault> {
    if io::stdin().is_terminal() {
        return Err(Fault::Call(
            "standard input is a terminal: name a file, or send one".to_string(),
        ));
    }
    Ok(io::stdin().as_fd().try_clone_to_owned().map(File::from))
}

/// How many bytes a file has from where it stands; none where it is a pipe or a device.
fn left_of(file: &mut File) -> io::Result<Option<u64>> {
    let told = file.metadata()?;
    if !told.is_file() {
        return Ok(None);
    }
    Ok(Some(told.len().saturating_sub(file.stream_position()?)))
}

/// The whole entries of an input, a block of them at a time.
pub struct Entries {
    pub input: Input,
    /// The bytes after the last whole entry, once the end is reached.
    pub rest: usize,
    /// The bytes of an entry: 176 of a record, 152 in the archive's form.
    entry: usize,
    /// Whether a last entry that is not whole is passed over.
    tail: bool,
    /// Whether no line tells how far it is.
    quiet: bool,
    /// Whether the end was seen: what a file gets after that is not read.
    ended: bool,
    buffer: Vec<u8>,
    place: u64,
}

/// Entries one after the other, and the place of the first, from 0.
pub struct Block<'a> {
    pub place: u64,
    pub bytes: &'a [u8],
}

impl Entries {
    /// A file that is not whole entries is refused before any is read, unless its last may be half written: `--tail`.
    pub fn open(word: &OsStr, entry: usize, given: &Given) -> Result<Self, Fault> {
        let mut entries = Entries::open_torn(word, entry, given)?;
        entries.tail = given.has("--tail");
        match entries.input.size {
            Some(size) if size % entry as u64 != 0 && !entries.tail => Err(entries.torn(size)),
            _ => Ok(entries),
        }
    }

    /// The same, and a torn file is read as far as it goes.
    pub fn open_torn(word: &OsStr, entry: usize, given: &Given) -> Result<Self, Fault> {
        Ok(Entries {
            input: Input::open(word)?,
            rest: 0,
            entry,
            tail: true,
            quiet: given.is_quiet(),
            ended: false,
            buffer: vec![0; BLOCK / entry * entry],
            place: 0,
        })
    }

    /// The next block; none at the end.
    fn next(&mut self) -> Result<Option<Block<'_>>, Fault> {
        if self.ended {
            return Ok(None);
        }
        let filled = self.input.fill(&mut self.buffer)?;
        let whole = filled / self.entry * self.entry;
        self.ended = filled < self.buffer.len();
        self.rest = filled - whole;
        if self.rest > 0 && !self.tail {
            return Err(self.torn(self.input.done));
        }
        let place = self.place;
        self.place += (whole / self.entry) as u64;
        let bytes = &self.buffer[..whole];
        Ok((whole > 0).then_some(Block { place, bytes }))
    }

    /// Takes every entry in turn, with its place.
    pub fn each(&mut self, mut take: impl FnMut(u64, &[u8]) -> Result<(), Fault>) -> Result<(), Fault> {
        let entry = self.entry;
        self.each_block(|block| {
            let mut entries = (block.place..).zip(block.bytes.chunks_exact(entry));
            entries.try_for_each(|(place, bytes)| take(place, bytes))
        })
    }

    /// Takes every block in turn, and tells how far it is.
    pub fn each_block(&mut self, mut take: impl FnMut(Block) -> Result<(), Fault>) -> Result<(), Fault> {
        let mut progress = Progress::begin();
        while let Some(block) = self.next()? {
            take(block)?;
            if !self.quiet {
                let share = share(self.input.done, self.input.size);
                progress.tell(|_| format!("{} records, {share}", self.place));
            }
        }
        Ok(())
    }

    /// How many whole entries were read.
    pub fn count(&self) -> u64 {
        self.place
    }

    /// Says that a last entry was passed over, if one was.
    pub fn say_rest(&self) {
        if self.rest > 0 {
            let (name, rest, entry) = (&self.input.name, self.rest, self.entry);
            say(&format!(
                "{name}: its last record has {rest} bytes of {entry}, and is passed over"
            ));
        }
    }

    fn torn(&self, size: u64) -> Fault {
        Fault::Input(format!("{}: {}", self.input.name, torn(size, self.entry)))
    }
}

/// What is said of a file of this size that is not whole entries.
pub fn torn(size: u64, entry: usize) -> String {
    let (place, rest) = (size / entry as u64, size % entry as u64);
    let number = Refusal::TornFile.number();
    format!("torn file ({number}): {size} bytes are not whole records of {entry}: record {place} has {rest}")
}
