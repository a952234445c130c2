use std::fs::File;
use std::io::{self, Read, Seek, Write};

use crate::fault::Fault;
use crate::input::BLOCK;
use crate::output::Output;

/// Text that waits until a whole input is known good: in memory, and past some megabytes in a file without a name, so
/// that memory stays flat.
#[derive(Default)]
pub struct Spool {
    held: Vec<u8>,
    file: Option<File>,
}

/// The bytes that are held in memory.
const MOST: usize = 8 * BLOCK;

impl Spool {
    /// The buffer, for what is made in place; [`Spool::settle`] then moves it to the file where it has become too long.
    pub fn buffer(&mut self) -> &mut Vec<u8> {
        &mut self.held
    }

    pub fn settle(&mut self) -> Result<(), Fault> {
        if self.held.len() < MOST {
            return Ok(());
        }
        self.write().map_err(unwritten)
    }

    fn write(&mut self) -> io::Result<()> {
        if self.file.is_none() {
            self.file = Some(nameless()?);
        }
        if let Some(file) = &mut self.file {
            file.write_all(&self.held)?;
        }
        self.held.clear();
        Ok(())
    }

    /// Puts all of it into an output, in order.
    pub fn pour(mut self, out: &mut Output) -> Result<(), Fault> {
        if let Some(mut file) = self.file.take() {
            file.rewind().map_err(unwritten)?;
            let mut block = vec![0; BLOCK];
            loop {
                match file.read(&mut block).map_err(unwritten)? {
                    0 => break,
                    count => out.put(&block[..count])?,
                }
            }
        }
        out.put(&self.held)
    }
}

fn unwritten(error: io::Error) -> Fault {
    Fault::Write {
        name: format!("a temporary file in {}", std::env::temp_dir().display()),
        error,
    }
}

/// A new file in the folder for temporary ones, which is gone when the command ends, however it ends.
fn nameless() -> io::Result<File> {
    let path = std::env::temp_dir().join(format!("mlat-{}", std::process::id()));
    let file = File::options().read(true).write(true).create_new(true).open(&path)?;
    std::fs::remove_file(&path)?;
    Ok(file)
}
