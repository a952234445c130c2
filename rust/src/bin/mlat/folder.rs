//! A problem as a folder of four files, any of which may be absent.

use std::fs::{self, File};
use std::io::{self, ErrorKind, Read};
use std::path::Path;

use jifrosk::{cut_lengths, ABSENT, RECEPTION};

use crate::fault::Fault;

/// In the order of a problem's inputs.
pub const FILES: [&str; 4] = ["receptions.bin", "clock.bin", "altitude.bin", "reference.bin"];

/// How many bytes of a file are kept while it is read: more than decide, whatever its length.
const KEPT: usize = 1 << 14;

/// The inputs of a problem, read from its folder; memory that the next folder can be read to.
pub struct Folder {
    files: [Input; 4],
    block: Vec<u8>,
}

#[derive(Default)]
struct Input {
    /// How many bytes the file has; none where it is not there.
    length: Option<u64>,
    /// Those of them that decide.
    bytes: Vec<u8>,
}

impl Folder {
    /// Memory for folders.
    pub fn new() -> Self {
        Folder {
            files: Default::default(),
            block: vec![0; 4 * KEPT],
        }
    }

    /// The problem of one folder, which has one of the four files at least.
    pub fn of(path: &Path) -> Result<Self, Fault> {
        let mut folder = Folder::new();
        folder.read(path)?;
        if folder.files.iter().any(|file| file.length.is_some()) {
            return Ok(folder);
        }
        let error = io::Error::other(format!("it has none of {}", FILES.join(", ")));
        Err(unread(path, error))
    }

    /// Reads the problem of a folder. A file that is not there is an absent input; one that cannot be read is a fault.
    pub fn read(&mut self, path: &Path) -> Result<(), Fault> {
        if path.as_os_str().is_empty() {
            return Err(Fault::Call("the name of a folder is empty".to_string()));
        }
        for (file, name) in self.files.iter_mut().zip(FILES) {
            file.read(path, name, &mut self.block)?;
        }
        if self.files.iter().all(|file| file.length.is_none()) {
            fs::read_dir(path).map_err(|error| unread(path, error))?;
        }
        let cut = cut_lengths(&self.files.each_ref().map(Input::told));
        for (file, cut) in self.files.iter_mut().zip(cut) {
            if file.length.is_some() {
                file.bytes.truncate(cut as usize);
            }
        }
        Ok(())
    }

    /// The bytes that stand for the four files; none where one is not there.
    pub fn inputs(&self) -> [Option<&[u8]>; 4] {
        let there = |file: &'_ Input| file.length.is_some();
        self.files
            .each_ref()
            .map(|file| there(file).then_some(file.bytes.as_slice()))
    }

    /// How long the files are, in words.
    pub fn lengths(&self) -> String {
        let told = self.files.iter().zip(FILES).map(|(file, name)| match file.length {
            Some(length) => format!("{name} {length} bytes"),
            None => format!("{name} absent"),
        });
        told.collect::<Vec<String>>().join(", ")
    }
}

impl Input {
    fn read(&mut self, folder: &Path, name: &str, block: &mut [u8]) -> Result<(), Fault> {
        self.bytes.clear();
        let path = folder.join(name);
        match self.read_file(&path, block) {
            Ok(length) => self.length = Some(length),
            Err(error) if error.kind() == ErrorKind::NotFound => self.length = None,
            Err(error) if error.kind() == ErrorKind::NotADirectory => return Err(unread(folder, error)),
            Err(error) => return Err(unread(&path, error)),
        }
        Ok(())
    }

    /// Keeps the first bytes of a file, reads and counts the others.
    fn read_file(&mut self, path: &Path, block: &mut [u8]) -> io::Result<u64> {
        let mut file = File::open(path)?;
        let mut length = 0;
        loop {
            match file.read(block) {
                Ok(0) => return Ok(length),
                Ok(count) => {
                    let room = KEPT - self.bytes.len();
                    self.bytes.extend_from_slice(&block[..count.min(room)]);
                    length += count as u64;
                }
                Err(error) if error.kind() == ErrorKind::Interrupted => {}
                Err(error) => return Err(error),
            }
        }
    }

    /// The length as a stream would have it. One that is beyond its numbers stands for a shorter one that is as many
    /// bytes past whole receptions: neither decides otherwise.
    fn told(&self) -> u32 {
        const BEYOND: u64 = 1 << 31;
        let reception = RECEPTION as u64;
        match self.length {
            None => ABSENT,
            Some(length) if length < BEYOND => length as u32,
            Some(length) => (length - (length - BEYOND) / reception * reception) as u32,
        }
    }
}

fn unread(path: &Path, error: io::Error) -> Fault {
    let name = path.display().to_string();
    Fault::Read { name, error }
}
