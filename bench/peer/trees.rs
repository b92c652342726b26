//! Messages as trees, made of record text that is read whole: as `Vec`s of `Vec`s (`vecs`), or as places in one buffer
//! (`places`). A tree owns all that it has, and outlives the text.

use crate::Report;
use crate::bytes::{Lines, find};
use crate::link::CR;
use crate::ports::{Input, Output, Stop};
use crate::records::{Delimiters, Open, RECORD_LIMIT, Record, escape_length, read_record};

/// A way to keep a message.
pub trait Tree: Sized {
    /// An open message.
    type Open: Default;
    /// One more record. Its fields are at this place of the message's text.
    fn add(open: &mut Self::Open, record: &Record, place: usize);
    /// The message of the records that were added, and its text. The next message is open then.
    fn close(open: &mut Self::Open, text: &[u8]) -> Self;
    /// Puts the tree as the answers of conformance rows have it.
    fn put(&self, lines: &mut Lines);
}

/// What a component has.
#[derive(Clone, Copy)]
pub enum Symbol {
    Char(u8),
    Raw(u8),
    On,
    Off,
}

/// The messages of a text, up to the first bad record, and whether all are good.
fn read_messages<T: Tree>(text: &[u8]) -> (Vec<T>, bool) {
    let (mut messages, mut tree, mut open) = (Vec::new(), T::Open::default(), None::<Open>);
    let (mut begin, mut start) = (0, 0);
    while let Some(length) = find(&text[start..], |byte| byte == CR) {
        let record = &text[start..start + length];
        let Ok(record) = read_record(record, &mut open) else { return (messages, false) };
        if length > RECORD_LIMIT {
            return (messages, false);
        }
        T::add(&mut tree, &record, start + length - record.fields.len() - begin);
        start += length + 1;
        if record.kind == b'L' {
            messages.push(T::close(&mut tree, &text[begin..start]));
            open = None;
            begin = start;
        }
    }
    (messages, begin == text.len())
}

/// Hands each symbol of a component to `take`.
pub fn each_symbol(component: &[u8], delimiters: Delimiters, mut take: impl FnMut(Symbol)) {
    let mut rest = component;
    while let Some((first, after)) = rest.split_first() {
        let escape = if *first == delimiters.escape { escape_length(rest, *first) } else { None };
        let Some(length) = escape else {
            take(Symbol::Char(*first));
            rest = after;
            continue;
        };
        match rest[1] {
            b'H' => take(Symbol::On),
            b'N' => take(Symbol::Off),
            b'F' => take(Symbol::Char(delimiters.field)),
            b'S' => take(Symbol::Char(delimiters.component)),
            b'R' => take(Symbol::Char(delimiters.repeat)),
            b'E' => take(Symbol::Char(delimiters.escape)),
            _ => rest[2..length - 1].as_chunks().0.iter().for_each(|pair| take(Symbol::Raw(byte_of(*pair)))),
        }
        rest = &rest[length..];
    }
}

/// The byte of two digits.
fn byte_of(pair: [u8; 2]) -> u8 {
    let mut byte = [0];
    crate::bytes::read_digits(&pair, &mut byte);
    byte[0]
}

/// Puts a symbol.
pub fn put_symbol(symbol: Symbol, lines: &mut Lines) {
    match symbol {
        Symbol::Char(byte) => lines.put_digits(&[byte]),
        Symbol::Raw(byte) => {
            lines.put(b"~");
            lines.put_digits(&[byte]);
        }
        Symbol::On => lines.put(b"+"),
        Symbol::Off => lines.put(b"!"),
    }
}

/// Puts what comes before a tree: the delimiters, and the number of records.
pub fn put_front(delimiters: Delimiters, records: usize, lines: &mut Lines) {
    let Delimiters { field, repeat, component, escape } = delimiters;
    lines.put(b"delimiters=");
    lines.put_digits(&[field, repeat, component, escape]);
    lines.put(b" records=");
    lines.put_number(records as u64);
    lines.put(b" tree=");
}

/// All of standard input.
fn whole() -> Result<Vec<u8>, Stop> {
    let (mut input, mut text, mut filled) = (Input::new(), Vec::new(), 0);
    loop {
        text.resize((2 * filled).max(65_536), 0);
        let count = input.read(&mut text[filled..])?;
        if count == 0 {
            text.truncate(filled);
            return Ok(text);
        }
        filled += count;
    }
}

/// Makes the trees of standard input so many times, each time with the memory of the time before, and prints how many
/// they were.
pub fn count<T: Tree>(rounds: u64, output: &mut Output) -> Result<Report, Stop> {
    let text = whole()?;
    let mut count = 0;
    for _ in 0..rounds {
        let (messages, all) = read_messages::<T>(&text);
        if !all {
            return Ok(Report::of(3));
        }
        count += messages.len();
    }
    output.lines.put_number(count as u64);
    output.lines.put(b"\n");
    Ok(Report::of(0))
}

/// Prints the trees of standard input, a line for each.
pub fn print<T: Tree>(output: &mut Output) -> Result<Report, Stop> {
    for message in read_messages::<T>(&whole()?).0 {
        message.put(&mut output.lines);
        output.lines.put(b"\n");
    }
    Ok(Report::of(0))
}
