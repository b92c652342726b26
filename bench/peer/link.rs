//! The bytes of the link: signals, frames and what is wrong with one.

use crate::bytes::{digit_value, find, find_and_sum};

pub const STX: u8 = 0x02;
pub const ETX: u8 = 0x03;
pub const EOT: u8 = 0x04;
pub const ENQ: u8 = 0x05;
pub const ACK: u8 = 0x06;
pub const LF: u8 = 0x0a;
pub const CR: u8 = 0x0d;
pub const NAK: u8 = 0x15;
pub const ETB: u8 = 0x17;

/// The bytes of a stretch beside the text: number, end, two digits, CR.
const FRAMING: usize = 5;

/// A frame, its text lent from where it was read.
pub struct Frame<'a> {
    pub number: u8,
    pub last: bool,
    pub text: &'a [u8],
}

/// The first fault of the bytes between STX and LF.
pub enum Fault {
    TooLong,
    Shape,
    Number,
    Text(usize),
    Sum,
}

pub enum Signal<'a> {
    Enq,
    Eot,
    Good(Frame<'a>),
    Bad(Fault),
}

/// SOH, STX, ETX, EOT, ENQ, ACK, LF, DLE, DC1 to DC4, NAK, SYN, ETB.
#[inline(always)]
fn is_forbidden(byte: u8) -> bool {
    (byte.wrapping_sub(1) < 6) | (byte == LF) | (byte & 0xf8 == 0x10)
}

/// What is read wherever it stands outside a frame.
#[inline(always)]
fn begins(byte: u8) -> bool {
    (byte == STX) | (byte == EOT) | (byte == ENQ)
}

/// What ends a run of bytes behind an STX.
#[inline(always)]
fn is_mark(byte: u8) -> bool {
    begins(byte) | (byte == LF)
}

impl<'a> Frame<'a> {
    /// The frame of a number's digit, a text without forbidden bytes, an end and the two digits of the sum.
    #[inline]
    fn summed(digit: u8, text: &'a [u8], text_sum: u8, end: u8, sum: [u8; 2]) -> Option<Frame<'a>> {
        let value = text_sum.wrapping_add(digit).wrapping_add(end);
        let good = digit_value(sum[0]) == value >> 4 && digit_value(sum[1]) == value & 15;
        good.then_some(Frame { number: digit - b'0', last: end == ETX, text })
    }
}

/// The good frame that stands whole at the front of the bytes behind an STX, and what follows it. The first forbidden
/// byte behind the number of a good frame is its end.
#[inline]
fn front_frame(bytes: &[u8], limit: usize) -> Option<(Frame<'_>, &[u8])> {
    let (digit @ b'0'..=b'7', rest) = bytes.split_first()? else { return None };
    let (place, text_sum) = find_and_sum(rest, is_forbidden)?;
    let (text, rest) = rest.split_at(place);
    let (&[end @ (ETB | ETX), high, low, CR, LF], rest) = rest.split_first_chunk()? else { return None };
    if text.len() > limit {
        return None;
    }
    Some((Frame::summed(*digit, text, text_sum, end, [high, low])?, rest))
}

/// Reads the bytes between STX and LF.
fn read_frame(stretch: &[u8], limit: usize) -> Result<Frame<'_>, Fault> {
    if stretch.len() > limit + FRAMING {
        return Err(Fault::TooLong);
    }
    let (body, &[end @ (ETB | ETX), high, low, CR]) = stretch.split_last_chunk().ok_or(Fault::Shape)? else {
        return Err(Fault::Shape);
    };
    let (digit, text) = body.split_first().ok_or(Fault::Shape)?;
    if !(b'0'..=b'7').contains(digit) {
        return Err(Fault::Number);
    }
    if let Some(place) = find(text, is_forbidden) {
        return Err(Fault::Text(place));
    }
    let text_sum = text.iter().fold(0, |sum: u8, byte| sum.wrapping_add(*byte));
    Frame::summed(*digit, text, text_sum, end, [high, low]).ok_or(Fault::Sum)
}

/// Reads a stream cut anywhere. A frame that stands whole in the bytes handed in is lent from there; one that was cut
/// is gathered first.
pub struct Scanner {
    limit: usize,
    /// Whether the last call ended behind an STX and before its mark.
    open: bool,
    /// What came behind that STX, no more of it than shows that it is too long.
    held: Vec<u8>,
}

impl Scanner {
    pub fn new(limit: usize) -> Scanner {
        Scanner { limit, open: false, held: Vec::new() }
    }

    /// Hands each signal of the bytes to `hear`.
    #[inline]
    pub fn scan(&mut self, bytes: &[u8], mut hear: impl FnMut(Signal)) {
        let mut bytes = if self.open { self.scan_on(bytes, &mut hear) } else { bytes };
        while let Some((first, rest)) = bytes.split_first() {
            bytes = match *first {
                STX => match front_frame(rest, self.limit) {
                    Some((frame, after)) => {
                        hear(Signal::Good(frame));
                        after
                    }
                    None => self.scan_stretch(rest, &mut hear),
                },
                ENQ => {
                    hear(Signal::Enq);
                    rest
                }
                EOT => {
                    hear(Signal::Eot);
                    rest
                }
                _ => find(rest, begins).map_or(&[], |start| &rest[start..]),
            }
        }
    }

    /// What follows an STX, where that is no whole good frame: up to its mark, or all of it.
    fn scan_stretch<'a>(&mut self, bytes: &'a [u8], hear: &mut impl FnMut(Signal)) -> &'a [u8] {
        let (stretch, rest) = bytes.split_at(find(bytes, is_mark).unwrap_or(bytes.len()));
        match rest.first() {
            Some(&LF) => hear(judged(stretch, self.limit)),
            Some(_) => (),
            None => {
                self.open = true;
                self.hold(stretch);
            }
        }
        rest
    }

    /// What follows an STX of an earlier call.
    fn scan_on<'a>(&mut self, bytes: &'a [u8], hear: &mut impl FnMut(Signal)) -> &'a [u8] {
        let (run, rest) = bytes.split_at(find(bytes, is_mark).unwrap_or(bytes.len()));
        self.hold(run);
        if let Some(mark) = rest.first() {
            if *mark == LF {
                hear(judged(&self.held, self.limit));
            }
            self.open = false;
            self.held.clear();
        }
        rest
    }

    fn hold(&mut self, run: &[u8]) {
        let room = self.limit + FRAMING + 1 - self.held.len();
        self.held.extend_from_slice(&run[..run.len().min(room)]);
    }
}

fn judged(stretch: &[u8], limit: usize) -> Signal<'_> {
    match read_frame(stretch, limit) {
        Ok(frame) => Signal::Good(frame),
        Err(fault) => Signal::Bad(fault),
    }
}
