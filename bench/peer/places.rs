//! A message as places in one buffer, as one writes it for speed: a copy of its text, where each field ends, and the
//! record above each record. Repeats, components and escapes are found when they are asked for.

use crate::bytes::Lines;
use crate::records::{Delimiters, Record};
use crate::trees::{Tree, each_symbol, put_front, put_symbol};

/// A record: where its fields begin in the text, the first of them in the list of ends, and the record above it: of a
/// note that which it belongs to.
#[derive(Clone, Copy)]
struct Entry {
    kind: u8,
    above: u32,
    start: u32,
    first: u32,
}

pub struct Message {
    delimiters: Delimiters,
    text: Box<[u8]>,
    entries: Box<[Entry]>,
    ends: Box<[u32]>,
}

/// An open message. The next one has its memory.
#[derive(Default)]
pub struct Open {
    delimiters: Option<Delimiters>,
    entries: Vec<Entry>,
    ends: Vec<u32>,
    /// The last record that isn't a note, and the last patient and order.
    last: u32,
    patient: u32,
    order: u32,
}

impl Open {
    /// The record above the next one.
    fn above(&mut self, kind: u8) -> u32 {
        let next = self.entries.len() as u32;
        let above = match kind {
            b'O' => self.patient,
            b'R' => self.order,
            b'H' | b'P' | b'Q' | b'L' => 0,
            _ => return self.last,
        };
        match kind {
            b'P' | b'Q' => self.patient = next,
            b'O' => self.order = next,
            _ => (),
        }
        self.last = next;
        above
    }
}

impl Message {
    /// The fields of a record.
    fn fields(&self, place: usize) -> impl Iterator<Item = &[u8]> {
        let entry = self.entries[place];
        let after = self.entries.get(place + 1).map_or(self.ends.len(), |next| next.first as usize);
        let mut start = entry.start as usize;
        self.ends[entry.first as usize..after].iter().map(move |end| {
            let field = &self.text[start + 1..*end as usize];
            start = *end as usize;
            field
        })
    }

    fn put_record(&self, place: usize, lines: &mut Lines) {
        lines.put(&[self.entries[place].kind]);
        for field in self.fields(place) {
            let mut before = b"/";
            for repeat in field.split(|byte| *byte == self.delimiters.repeat) {
                for component in repeat.split(|byte| *byte == self.delimiters.component) {
                    lines.put(before);
                    each_symbol(component, self.delimiters, |symbol| put_symbol(symbol, lines));
                    before = b",";
                }
                before = b";";
            }
        }
    }
}

impl Tree for Message {
    type Open = Open;

    fn add(open: &mut Open, record: &Record, place: usize) {
        open.delimiters = Some(record.delimiters);
        let above = open.above(record.kind);
        let (start, first) = (place as u32, open.ends.len() as u32);
        open.entries.push(Entry { kind: record.kind, above, start, first });
        if let Some(fields) = record.fields.get(1..) {
            for (passed, byte) in (start + 1..).zip(fields) {
                if *byte == record.delimiters.field {
                    open.ends.push(passed);
                }
            }
            open.ends.push(start + record.fields.len() as u32);
        }
    }

    fn close(open: &mut Open, text: &[u8]) -> Message {
        let (entries, ends) = (open.entries.as_slice().into(), open.ends.as_slice().into());
        open.entries.clear();
        open.ends.clear();
        Message { delimiters: open.delimiters.unwrap(), text: text.into(), entries, ends }
    }

    fn put(&self, lines: &mut Lines) {
        put_front(self.delimiters, self.entries.len(), lines);
        self.put_record(0, lines);
        let mut opened = vec![0];
        for (place, entry) in self.entries.iter().enumerate().skip(1) {
            while *opened.last().unwrap() != entry.above {
                opened.pop();
                lines.put(b"]");
            }
            match entry.kind {
                b'C' | b'M' | b'S' => lines.put(b"*"),
                b'L' => (),
                _ => {
                    lines.put(b"[");
                    opened.push(place as u32);
                }
            }
            self.put_record(place, lines);
        }
    }
}
