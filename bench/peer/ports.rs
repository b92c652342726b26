//! Standard input and standard output: large reads into one buffer, one write for what came of a read.

use crate::bytes::{Lines, find};
use std::fmt;
use std::io::{self, Read, StdinLock, StdoutLock, Write};

/// The bytes of a read.
const READ: usize = 65_536;

/// Why a run stopped before the end.
pub enum Stop {
    CaptureLine(u64),
    Read,
    Write,
    Memory,
    Reads,
}

impl fmt::Display for Stop {
    fn fmt(&self, f: &mut fmt::Formatter) -> fmt::Result {
        match self {
            Stop::CaptureLine(number) => write!(f, "K1 line {number}"),
            Stop::Read => f.write_str("K2"),
            Stop::Write => f.write_str("K3"),
            Stop::Memory => f.write_str("K4"),
            Stop::Reads => f.write_str("K5"),
        }
    }
}

/// Standard output, and what is to be written there.
pub struct Output {
    sink: StdoutLock<'static>,
    pub lines: Lines,
}

impl Output {
    pub fn new() -> Output {
        Output { sink: io::stdout().lock(), lines: Lines::default() }
    }

    /// Sends on what was put since the last flush, in one write.
    pub fn flush(&mut self) -> Result<(), Stop> {
        let sent = self.sink.write_all(self.lines.as_slice()).and_then(|()| self.sink.flush());
        self.lines.clear();
        sent.map_err(|_| Stop::Write)
    }
}

/// Standard input, of which at most so many reads are made.
pub struct Input {
    source: StdinLock<'static>,
    reads: u32,
}

impl Input {
    pub fn new() -> Input {
        Input { source: io::stdin().lock(), reads: 0 }
    }

    /// Reads into the buffer: how many bytes came, 0 at the end.
    pub fn read(&mut self, buffer: &mut [u8]) -> Result<usize, Stop> {
        self.reads = self.reads.checked_add(1).ok_or(Stop::Reads)?;
        self.source.read(buffer).map_err(|_| Stop::Read)
    }
}

/// Hands each read of the input to `take`, and sends on what it put before the next.
pub fn each_read(output: &mut Output, mut take: impl FnMut(&[u8], &mut Lines)) -> Result<(), Stop> {
    let mut input = Input::new();
    let mut buffer = vec![0; READ];
    loop {
        let count = input.read(&mut buffer)?;
        if count == 0 {
            return Ok(());
        }
        take(&buffer[..count], &mut output.lines);
        output.flush()?;
    }
}

/// What stands before an end byte, or behind the last one.
pub enum Piece<'a> {
    Ended(&'a [u8]),
    Unended(&'a [u8]),
    /// More bytes than a piece may have, told as soon as they were read.
    TooLong,
}

/// Hands the pieces of the input to `take`, in their order, until it answers that it wants no more of them. A piece
/// that is still open at the end of a read is moved to the front of the buffer, and the next read goes behind it.
pub fn each_piece(
    end: u8,
    limit: usize,
    output: &mut Output,
    mut take: impl FnMut(Piece, &mut Lines) -> bool,
) -> Result<(), Stop> {
    let mut input = Input::new();
    let mut buffer = vec![0; limit + READ];
    let mut held = 0;
    loop {
        let count = input.read(&mut buffer[held..held + READ])?;
        if count == 0 {
            if held > 0 {
                take(Piece::Unended(&buffer[..held]), &mut output.lines);
            }
            return Ok(());
        }
        let filled = held + count;
        let (mut start, mut searched) = (0, held);
        while let Some(length) = find(&buffer[searched..filled], |byte| byte == end) {
            let piece = &buffer[start..searched + length];
            let piece = if piece.len() > limit { Piece::TooLong } else { Piece::Ended(piece) };
            if !take(piece, &mut output.lines) {
                return Ok(());
            }
            searched += length + 1;
            start = searched;
        }
        held = filled - start;
        if held > limit {
            take(Piece::TooLong, &mut output.lines);
            return Ok(());
        }
        buffer.copy_within(start..filled, 0);
        output.flush()?;
    }
}
