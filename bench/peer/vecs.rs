//! A message as `Vec`s of `Vec`s, as one writes it at first.

use crate::bytes::Lines;
use crate::records::{self, Delimiters};
use crate::trees::{Symbol, Tree, each_symbol, put_front, put_symbol};

type Component = Vec<Symbol>;
type Repeat = Vec<Component>;
type Field = Vec<Repeat>;

struct Record {
    kind: u8,
    fields: Vec<Field>,
}

/// A record and the comments and other notes on it.
struct Noted {
    head: Record,
    notes: Vec<Record>,
}

struct Order {
    order: Noted,
    results: Vec<Noted>,
}

/// A patient, or a query, which has no orders.
struct Group {
    head: Noted,
    orders: Vec<Order>,
}

pub struct Message {
    delimiters: Delimiters,
    header: Noted,
    groups: Vec<Group>,
    closing: Option<Record>,
}

impl Record {
    fn new(record: &records::Record) -> Record {
        let delimiters = record.delimiters;
        let component = |text: &[u8]| {
            let mut symbols = Component::with_capacity(text.len());
            each_symbol(text, delimiters, |symbol| symbols.push(symbol));
            symbols
        };
        let repeat = |text: &[u8]| text.split(|byte| *byte == delimiters.component).map(component).collect();
        let field = |text: &[u8]| text.split(|byte| *byte == delimiters.repeat).map(repeat).collect();
        let fields = record.fields().map_or(Vec::new(), |fields| fields.map(field).collect());
        Record { kind: record.kind, fields }
    }

    fn put(&self, lines: &mut Lines) {
        lines.put(&[self.kind]);
        for field in &self.fields {
            let mut before = b"/";
            for repeat in field {
                for component in repeat {
                    lines.put(before);
                    component.iter().for_each(|symbol| put_symbol(*symbol, lines));
                    before = b",";
                }
                before = b";";
            }
        }
    }
}

impl Noted {
    fn new(head: Record) -> Noted {
        Noted { head, notes: Vec::new() }
    }

    fn len(&self) -> usize {
        1 + self.notes.len()
    }

    fn put(&self, lines: &mut Lines) {
        self.head.put(lines);
        for note in &self.notes {
            lines.put(b"*");
            note.put(lines);
        }
    }
}

impl Order {
    fn len(&self) -> usize {
        self.order.len() + self.results.iter().map(Noted::len).sum::<usize>()
    }

    fn put(&self, lines: &mut Lines) {
        self.order.put(lines);
        for result in &self.results {
            lines.put(b"[");
            result.put(lines);
            lines.put(b"]");
        }
    }
}

impl Group {
    fn len(&self) -> usize {
        self.head.len() + self.orders.iter().map(Order::len).sum::<usize>()
    }

    fn put(&self, lines: &mut Lines) {
        self.head.put(lines);
        for order in &self.orders {
            lines.put(b"[");
            order.put(lines);
            lines.put(b"]");
        }
    }
}

impl Message {
    /// The record that a note belongs to, and its notes.
    fn last(&mut self) -> &mut Noted {
        let Some(group) = self.groups.last_mut() else { return &mut self.header };
        let Some(order) = group.orders.last_mut() else { return &mut group.head };
        order.results.last_mut().unwrap_or(&mut order.order)
    }

    /// One more record, which may come next.
    fn add(&mut self, record: Record) {
        match (record.kind, self.groups.last_mut()) {
            (b'P' | b'Q', _) => self.groups.push(Group { head: Noted::new(record), orders: Vec::new() }),
            (b'O', Some(group)) => group.orders.push(Order { order: Noted::new(record), results: Vec::new() }),
            (b'R', Some(group)) => group.orders.last_mut().unwrap().results.push(Noted::new(record)),
            (b'L', _) => self.closing = Some(record),
            _ => self.last().notes.push(record),
        }
    }
}

impl Tree for Message {
    type Open = Option<Message>;

    fn add(open: &mut Option<Message>, record: &records::Record, _: usize) {
        let made = Record::new(record);
        match open {
            Some(message) => message.add(made),
            None => {
                let delimiters = record.delimiters;
                *open = Some(Message { delimiters, header: Noted::new(made), groups: Vec::new(), closing: None });
            }
        }
    }

    fn close(open: &mut Option<Message>, _: &[u8]) -> Message {
        open.take().unwrap()
    }

    fn put(&self, lines: &mut Lines) {
        let records = self.header.len() + self.groups.iter().map(Group::len).sum::<usize>() + 1;
        put_front(self.delimiters, records, lines);
        self.header.put(lines);
        for group in &self.groups {
            lines.put(b"[");
            group.put(lines);
            lines.put(b"]");
        }
        self.closing.as_ref().unwrap().put(lines);
    }
}
