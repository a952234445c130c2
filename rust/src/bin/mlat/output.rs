use std::ffi::{CString, OsStr};
use std::fs::{self, File};
use std::io::{self, IsTerminal, Write};
use std::os::fd::AsFd;
use std::os::unix::ffi::OsStrExt;
use std::path::{Path, PathBuf};
use std::ptr;
use std::sync::atomic::{AtomicPtr, Ordering};

use crate::closed::is_output_closed;
use crate::fault::Fault;
use crate::input::BLOCK;

/// What a command writes: standard output, or a file that is whole or as it was.
pub struct Output {
    name: String,
    file: File,
    buffer: Vec<u8>,
    /// The file beside its name that takes it, once it is whole.
    beside: Option<Beside>,
}

struct Beside {
    written: PathBuf,
    named: PathBuf,
}

impl Output {
    /// Standard output, for text.
    pub fn text() -> Result<Self, Fault> {
        let name = "standard output".to_string();
        if is_output_closed() {
            let error = io::Error::other("it is closed");
            return Err(Fault::Write { name, error });
        }
        match io::stdout().as_fd().try_clone_to_owned() {
            Ok(file) => Ok(Output::over(name, File::from(file), None)),
            Err(error) => Err(Fault::Write { name, error }),
        }
    }

    /// What a word names, for bytes; `-` is standard output, if it is no terminal.
    pub fn bytes(word: &OsStr) -> Result<Self, Fault> {
        if word != "-" {
            return Output::named(Path::new(word));
        }
        if io::stdout().is_terminal() {
            return Err(Fault::Call(
                "standard output is a terminal, and this is no text: send it to a file or a pipe".to_string(),
            ));
        }
        Output::text()
    }

    /// A file that is there is replaced once all is written; a pipe or a device is written to as it is.
    fn named(path: &Path) -> Result<Self, Fault> {
        let name = path.display().to_string();
        let opened = match fs::metadata(path) {
            Ok(told) if !told.is_file() && !told.is_dir() => {
                File::options().write(true).open(path).map(|file| (file, None))
            }
            _ => open_beside(path).map(|(file, beside)| (file, Some(beside))),
        };
        match opened {
            Ok((file, beside)) => Ok(Output::over(name, file, beside)),
            Err(error) => Err(Fault::Write { name, error }),
        }
    }

    fn over(name: String, file: File, beside: Option<Beside>) -> Self {
        Output {
            name,
            file,
            buffer: Vec::with_capacity(BLOCK + BLOCK / 8),
            beside,
        }
    }

    /// Adds to what is to be written, and writes it where that has become a block.
    pub fn put(&mut self, bytes: &[u8]) -> Result<(), Fault> {
        self.buffer.extend_from_slice(bytes);
        if self.buffer.len() < BLOCK {
            return Ok(());
        }
        self.flush()
    }

    /// The buffer, for what is made in place; [`Output::put`] of nothing writes it where it has become a block.
    pub fn buffer(&mut self) -> &mut Vec<u8> {
        &mut self.buffer
    }

    /// Writes what is waiting.
    pub fn flush(&mut self) -> Result<(), Fault> {
        let written = self.file.write_all(&self.buffer);
        self.buffer.clear();
        written.map_err(|error| self.unwritten(error))
    }

    /// Writes the rest; a named file has its name from here on.
    pub fn finish(mut self) -> Result<(), Fault> {
        self.flush()?;
        match self.beside.take() {
            Some(beside) => beside.take_name(&self.file).map_err(|error| self.unwritten(error)),
            None => Ok(()),
        }
    }

    fn unwritten(&self, error: io::Error) -> Fault {
        Fault::Write {
            name: self.name.clone(),
            error,
        }
    }
}

impl Drop for Output {
    /// What was not finished leaves nothing beside its name.
    fn drop(&mut self) {
        if let Some(beside) = self.beside.take() {
            beside.discard();
        }
    }
}

impl Beside {
    fn discard(&self) {
        // a file that cannot be removed is no reason for another fault
        let _ = fs::remove_file(&self.written);
        forget_unfinished();
    }

    /// Its bytes are on the disk before it takes the name of the file that was there, and the name is there too after.
    fn take_name(&self, file: &File) -> io::Result<()> {
        let moved = file.sync_all().and_then(|()| fs::rename(&self.written, &self.named));
        if let Err(error) = moved {
            self.discard();
            return Err(error);
        }
        forget_unfinished();
        let folder = self.named.parent().filter(|folder| *folder != Path::new(""));
        // not every file system syncs folders
        let _ = File::open(folder.unwrap_or(Path::new("."))).and_then(|folder| folder.sync_all());
        Ok(())
    }
}

/// Writes a text to standard output.
pub fn say(text: impl AsRef<[u8]>) -> Result<(), Fault> {
    let mut out = Output::text()?;
    out.put(text.as_ref())?;
    out.finish()
}

/// A new file beside the one that is named, in its folder, with its permissions. A link is followed.
fn open_beside(path: &Path) -> io::Result<(File, Beside)> {
    let named = fs::canonicalize(path).unwrap_or_else(|_| path.to_path_buf());
    let file_name = named.file_name().filter(|_| !named.is_dir());
    let file_name = file_name.ok_or_else(|| io::Error::from(io::ErrorKind::IsADirectory))?;
    let mut beside_name = file_name.to_os_string();
    beside_name.push(format!(".mlat-{}", std::process::id()));
    let written = named.with_file_name(beside_name);
    let beside = Beside { written, named };
    remember_unfinished(&beside.written);
    let opened = File::options().write(true).create_new(true).open(&beside.written);
    let file = opened.inspect_err(|_| forget_unfinished())?;
    let kept = fs::metadata(&beside.named).map(|told| file.set_permissions(told.permissions()));
    if let Ok(Err(error)) = kept {
        beside.discard();
        return Err(error);
    }
    Ok((file, beside))
}

/// The path of a file that is not finished, for the handler of signals.
static UNFINISHED: AtomicPtr<std::ffi::c_char> = AtomicPtr::new(ptr::null_mut());

/// The signals that end a command from outside: of a closed terminal, of Ctrl-C, of Ctrl-\ and of kill (POSIX).
const ENDING: [i32; 4] = [1, 2, 3, 15];

/// The signal of a file that grows over the user's limit: where it is ignored, the write fails and says so.
const TOO_LARGE: i32 = 25;

/// POSIX's SIG_IGN.
const IGNORED: usize = 1;

extern "C" {
    fn signal(number: i32, handler: usize) -> usize;
    fn raise(number: i32) -> i32;
    fn unlink(path: *const std::ffi::c_char) -> i32;
}

/// A command that is stopped leaves nothing beside the name either.
extern "C" fn stopped(number: i32) {
    let path = UNFINISHED.swap(ptr::null_mut(), Ordering::SeqCst);
    // SAFETY: the path is a C string that is never freed; the three calls are safe in a handler (POSIX).
    unsafe {
        if !path.is_null() {
            unlink(path);
        }
        signal(number, 0);
        raise(number);
    }
}

fn remember_unfinished(path: &Path) {
    let Ok(path) = CString::new(path.as_os_str().as_bytes()) else {
        return;
    };
    UNFINISHED.store(path.into_raw(), Ordering::SeqCst);
    // SAFETY: nothing is lent, and no handler is set.
    unsafe { signal(TOO_LARGE, IGNORED) };
    for number in ENDING {
        // SAFETY: the handler does only what a handler may. What was ignored, as by nohup, stays ignored.
        unsafe {
            if signal(number, stopped as *const () as usize) == IGNORED {
                signal(number, IGNORED);
            }
        }
    }
}

fn forget_unfinished() {
    UNFINISHED.store(ptr::null_mut(), Ordering::SeqCst);
}
