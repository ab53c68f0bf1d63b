//! Reads a trace row by row, and finds its first fault.

use crate::rows::{read_header, read_row, Room, Row, Version};
use crate::world::Setup;
use std::io::BufRead;

const ROWS_MAX: u32 = 1_000_000;

#[derive(Debug)]
pub enum Fault {
    Form(u32, &'static str),
    Read,
    Write,
}

/// The rows of a trace. What the last one has of many nodes stands in the room.
pub struct Rows<R> {
    lines: Lines<R>,
    version: Version,
    pub setup: Setup,
    pub room: Room,
}

/// The lines of the input, each a row. Blank lines are none.
struct Lines<R> {
    input: R,
    line: Vec<u8>,
    number: u32,
}

impl<R: BufRead> Rows<R> {
    /// Reads the header.
    pub fn open(input: R) -> Result<Rows<R>, Fault> {
        let mut lines = Lines {
            input,
            line: Vec::new(),
            number: 0,
        };
        let header = match lines.next()? {
            Some((_, line)) => read_header(line),
            None => None,
        };
        let (version, setup) = header.ok_or(Fault::Form(1, "BadHeader"))?;
        Ok(Rows {
            lines,
            version,
            setup,
            room: Room::new(&setup),
        })
    }

    /// The next row, with its number.
    pub fn next(&mut self) -> Result<Option<(u32, Row)>, Fault> {
        let Some((number, line)) = self.lines.next()? else {
            return Ok(None);
        };
        if number > ROWS_MAX + 1 {
            return Err(Fault::Form(number, "TooManyRows"));
        }
        match read_row(line, self.version, &self.setup, &mut self.room) {
            Some(row) => Ok(Some((number, row))),
            None => Err(Fault::Form(number, "BadRow")),
        }
    }
}

impl<R: BufRead> Lines<R> {
    /// The next row without its line end, with its number.
    fn next(&mut self) -> Result<Option<(u32, &[u8])>, Fault> {
        loop {
            self.line.clear();
            match self.input.read_until(b'\n', &mut self.line) {
                Ok(0) => return Ok(None),
                Ok(_) => cut_line_end(&mut self.line),
                Err(_) => return Err(Fault::Read),
            }
            if !self.line.is_empty() {
                self.number += 1;
                return Ok(Some((self.number, &self.line)));
            }
        }
    }
}

fn cut_line_end(line: &mut Vec<u8>) {
    if line.last() == Some(&b'\n') {
        line.pop();
    }
    if line.last() == Some(&b'\r') {
        line.pop();
    }
}
