//! Names that standard input has, each ended by a byte.

use std::ffi::{OsStr, OsString};
use std::os::unix::ffi::OsStringExt;

use crate::fault::Fault;
use crate::input::{Input, BLOCK};

pub struct Names {
    input: Input,
    /// The byte that ends a name: a line's end, or zero.
    end: u8,
    buffer: Vec<u8>,
    /// Where in the buffer the next name begins.
    start: usize,
}

impl Names {
    pub fn of_standard_input(end: u8) -> Result<Self, Fault> {
        Ok(Names {
            input: Input::open(OsStr::new("-"))?,
            end,
            buffer: Vec::new(),
            start: 0,
        })
    }

    /// Whether a whole name is there, so that the next does not wait for input.
    pub fn is_ready(&self) -> bool {
        self.length().is_some()
    }

    /// The next name; none at the end. The last may lack the byte that ends it.
    pub fn next(&mut self) -> Result<Option<OsString>, Fault> {
        let mut searched = true;
        while !self.is_ready() && searched {
            searched = self.read()?;
        }
        let rest = self.buffer.len() - self.start;
        let length = self.length().unwrap_or(rest);
        if length == 0 && rest == 0 {
            return Ok(None);
        }
        let name = self.buffer[self.start..self.start + length].to_vec();
        self.start = (self.start + length + 1).min(self.buffer.len());
        Ok(Some(OsString::from_vec(name)))
    }

    /// How long the next name is, where its end is there.
    fn length(&self) -> Option<usize> {
        self.buffer[self.start..].iter().position(|byte| *byte == self.end)
    }

    /// Reads what is there; whether there was more.
    fn read(&mut self) -> Result<bool, Fault> {
        self.buffer.drain(..self.start);
        self.start = 0;
        let filled = self.buffer.len();
        self.buffer.resize(filled + BLOCK / 16, 0);
        let count = self.input.read(&mut self.buffer[filled..])?;
        self.buffer.truncate(filled + count);
        Ok(count > 0)
    }
}
