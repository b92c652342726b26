//! Captures: what was seen on a line, in both directions. `replay`, `texts` and `upgrade`.

use crate::Report;
use crate::bytes::{Lines, are_digits, read_digits};
use crate::link::{CR, LF};
use crate::ports::{Output, Piece, Stop, each_piece};
use crate::receiver::{Readiness, Receiver};

const LINE_LIMIT: usize = 4_096;
const VERSION: &[u8] = b"capture 2";

/// What a line of a capture says; of bytes the digits, pairs of them, one pair at least.
enum Line<'a> {
    Empty,
    Version,
    Analyzer(&'a [u8]),
    Computer(&'a [u8]),
    Timer,
    Restart,
    Set(Readiness),
}

/// The capture's version, told by its first line.
#[derive(Clone, Copy, PartialEq)]
enum Version {
    Unknown,
    One,
    Two,
}

fn read_line(line: &[u8], version: Version) -> Option<Line<'_>> {
    let digits = |digits: &'_ [u8]| !digits.is_empty() && digits.len() % 2 == 0 && are_digits(digits);
    match line {
        [] => Some(Line::Empty),
        [b'>', b' ', rest @ ..] if digits(rest) => Some(Line::Analyzer(rest)),
        [b'<', b' ', rest @ ..] if digits(rest) => Some(Line::Computer(rest)),
        b"T" => Some(Line::Timer),
        VERSION if version == Version::Unknown => Some(Line::Version),
        _ if version != Version::Two => None,
        b"R" => Some(Line::Restart),
        b"S ready" => Some(Line::Set(Readiness::Ready)),
        b"S busy" => Some(Line::Set(Readiness::Busy)),
        b"S contending" => Some(Line::Set(Readiness::Contending)),
        _ => None,
    }
}

/// Hands each line, with its number and itself, to `take`, up to the first that is none.
fn each_line(output: &mut Output, mut take: impl FnMut(u64, &[u8], Line, &mut Lines)) -> Result<(), Stop> {
    let (mut number, mut version, mut refused) = (0, Version::Unknown, false);
    each_piece(LF, LINE_LIMIT, output, |piece, lines| {
        number += 1;
        let line = match piece {
            Piece::Ended(line) | Piece::Unended(line) => Some(line.strip_suffix(&[CR]).unwrap_or(line)),
            Piece::TooLong => None,
        };
        let Some((line, said)) = line.and_then(|line| Some((line, read_line(line, version)?))) else {
            refused = true;
            return false;
        };
        if version == Version::Unknown {
            version = if matches!(said, Line::Version) { Version::Two } else { Version::One };
        }
        take(number, line, said, lines);
        true
    })?;
    if refused {
        return Err(Stop::CaptureLine(number));
    }
    Ok(())
}

/// The bytes that a line's digits stand for.
struct Decoded([u8; LINE_LIMIT / 2]);

impl Decoded {
    fn read(&mut self, digits: &[u8]) -> &[u8] {
        let bytes = &mut self.0[..digits.len() / 2];
        read_digits(digits, bytes);
        bytes
    }
}

/// A receiver gets the analyzer's lines; its replies stand in `replies`.
struct Playing {
    receiver: Receiver,
    replies: Vec<u8>,
    decoded: Decoded,
}

impl Playing {
    fn new(limit: usize) -> Playing {
        Playing { receiver: Receiver::new(limit), replies: Vec::new(), decoded: Decoded([0; LINE_LIMIT / 2]) }
    }

    /// Carries out what a line says to the receiver.
    fn play(&mut self, line: Line, text: impl FnMut(&[u8])) {
        match line {
            Line::Analyzer(digits) => self.receiver.read(self.decoded.read(digits), &mut self.replies, text),
            Line::Timer => self.receiver.timer(),
            Line::Restart => self.receiver.restart(),
            Line::Set(readiness) => self.receiver.set_ready(readiness),
            Line::Empty | Line::Version | Line::Computer(_) => (),
        }
    }
}

pub fn replay(limit: usize, output: &mut Output) -> Result<Report, Stop> {
    let mut playing = Playing::new(limit);
    let (mut texts, mut differences) = (0, 0);
    each_line(output, |number, _, line, lines| {
        if let Line::Computer(digits) = line {
            let wanted = playing.decoded.read(digits);
            if wanted != playing.replies {
                differences += 1;
                put_difference(Some(number), wanted, &playing.replies, lines);
            }
            playing.replies.clear();
            return;
        }
        playing.play(line, |text| {
            texts += 1;
            lines.put(b"text ");
            lines.put_number(number);
            lines.put(b" ");
            lines.put_number(text.len() as u64);
            lines.put(b"\n");
        });
    })?;
    let lines = &mut output.lines;
    if !playing.replies.is_empty() {
        differences += 1;
        put_difference(None, &[], &playing.replies, lines);
    }
    lines.put(b"texts ");
    lines.put_number(texts);
    lines.put(b" differences ");
    lines.put_number(differences);
    lines.put(b"\n");
    Ok(Report::of((differences > 0) as u8))
}

fn put_difference(number: Option<u64>, wanted: &[u8], got: &[u8], lines: &mut Lines) {
    let put_bytes = |bytes: &[u8], lines: &mut Lines| match bytes {
        [] => lines.put(b"-"),
        _ => lines.put_digits(bytes),
    };
    lines.put(b"difference ");
    match number {
        Some(number) => lines.put_number(number),
        None => lines.put(b"end"),
    }
    lines.put(b" ");
    put_bytes(wanted, lines);
    lines.put(b" ");
    put_bytes(got, lines);
    lines.put(b"\n");
}

pub fn texts(limit: usize, output: &mut Output) -> Result<Report, Stop> {
    let mut playing = Playing::new(limit);
    each_line(output, |_, _, line, lines| {
        playing.play(line, |text| lines.put(text));
        playing.replies.clear();
    })?;
    Ok(Report::of(0))
}

pub fn upgrade(output: &mut Output) -> Result<Report, Stop> {
    let mut begun = false;
    each_line(output, |_, line, said, lines| {
        if !begun {
            lines.put(VERSION);
            lines.put(b"\n");
            begun = true;
        }
        match said {
            Line::Version => return,
            Line::Analyzer(_) | Line::Computer(_) => lines.put_lower(line),
            _ => lines.put(line),
        }
        lines.put(b"\n");
    })?;
    if !begun {
        output.lines.put(VERSION);
        output.lines.put(b"\n");
    }
    Ok(Report::of(0))
}
