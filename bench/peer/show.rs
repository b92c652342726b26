//! `show`: a line for each signal.

use crate::Report;
use crate::bytes::Lines;
use crate::link::{Fault, Frame, Scanner, Signal};
use crate::ports::{Output, Stop, each_read};

pub fn show(limit: usize, output: &mut Output) -> Result<Report, Stop> {
    let mut scanner = Scanner::new(limit);
    each_read(output, |bytes, lines| scanner.scan(bytes, |signal| put_signal(signal, lines)))?;
    Ok(Report::of(0))
}

#[inline]
fn put_signal(signal: Signal, lines: &mut Lines) {
    match signal {
        Signal::Enq => lines.put(b"ENQ\n"),
        Signal::Eot => lines.put(b"EOT\n"),
        Signal::Good(frame) => put_frame(frame, lines),
        Signal::Bad(Fault::TooLong) => lines.put(b"bad F1\n"),
        Signal::Bad(Fault::Shape) => lines.put(b"bad F2\n"),
        Signal::Bad(Fault::Number) => lines.put(b"bad F3\n"),
        Signal::Bad(Fault::Text(place)) => {
            lines.put(b"bad F4 ");
            lines.put_number(place as u64);
            lines.put(b"\n");
        }
        Signal::Bad(Fault::Sum) => lines.put(b"bad F5\n"),
    }
}

fn put_frame(frame: Frame, lines: &mut Lines) {
    if frame.last {
        lines.put(&numbered(*b"frame 0 end ", frame.number));
    } else {
        lines.put(&numbered(*b"frame 0 more ", frame.number));
    }
    lines.put_number(frame.text.len() as u64);
    if !frame.text.is_empty() {
        lines.put(b" ");
        lines.put_digits(frame.text);
    }
    lines.put(b"\n");
}

/// The beginning of a line with the frame's number.
fn numbered<const N: usize>(mut beginning: [u8; N], number: u8) -> [u8; N] {
    beginning[b"frame ".len()] += number;
    beginning
}
