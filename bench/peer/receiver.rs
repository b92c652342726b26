//! The computer's end: what it answers to a stream and the texts that it hands out.

use crate::link::{ACK, ENQ, Frame, NAK, Scanner, Signal};

/// The most bytes of a text, and the most frames of a session.
const TEXT_LIMIT: usize = 1_048_576;
const FRAME_LIMIT: u32 = u32::MAX;

#[derive(Clone, Copy)]
pub enum Readiness {
    Ready,
    Busy,
    Contending,
}

/// What the receiver is without its scanner.
struct Line {
    open: bool,
    readiness: Readiness,
    accepted: u32,
    held: Vec<u8>,
}

pub struct Receiver {
    scanner: Scanner,
    limit: usize,
    line: Line,
}

impl Receiver {
    pub fn new(limit: usize) -> Receiver {
        let line = Line { open: false, readiness: Readiness::Ready, accepted: 0, held: Vec::new() };
        Receiver { scanner: Scanner::new(limit), limit, line }
    }

    pub fn restart(&mut self) {
        self.scanner = Scanner::new(self.limit);
        self.line.close();
        self.line.readiness = Readiness::Ready;
    }

    pub fn set_ready(&mut self, readiness: Readiness) {
        self.line.readiness = readiness;
    }

    pub fn timer(&mut self) {
        self.line.close();
    }

    /// Reads bytes, adds the replies to `replies` and hands each text to `text`.
    pub fn read(&mut self, bytes: &[u8], replies: &mut Vec<u8>, mut text: impl FnMut(&[u8])) {
        let line = &mut self.line;
        self.scanner.scan(bytes, |signal| match signal {
            Signal::Enq => replies.push(line.enquire()),
            Signal::Eot => line.close(),
            Signal::Good(frame) if line.open => replies.push(line.judge(&frame, &mut text)),
            Signal::Bad(_) if line.open => replies.push(NAK),
            Signal::Good(_) | Signal::Bad(_) => (),
        });
    }
}

impl Line {
    fn close(&mut self) {
        self.open = false;
        self.held.clear();
    }

    fn enquire(&mut self) -> u8 {
        self.close();
        match self.readiness {
            Readiness::Ready => {
                self.open = true;
                self.accepted = 0;
                ACK
            }
            Readiness::Busy => NAK,
            Readiness::Contending => {
                self.readiness = Readiness::Ready;
                ENQ
            }
        }
    }

    /// A good frame on an open line: a repeated one is acknowledged and not taken, and so is none out of its turn.
    fn judge(&mut self, frame: &Frame, mut text: impl FnMut(&[u8])) -> u8 {
        let last_number = (self.accepted % 8) as u8;
        if self.accepted > 0 && frame.number == last_number {
            return ACK;
        }
        let in_turn = frame.number == (last_number + 1) % 8;
        if !in_turn || self.accepted == FRAME_LIMIT || self.held.len() + frame.text.len() > TEXT_LIMIT {
            return NAK;
        }
        self.accepted += 1;
        self.held.extend_from_slice(frame.text);
        if frame.last {
            text(&self.held);
            self.held.clear();
        }
        ACK
    }
}
