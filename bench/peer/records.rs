//! Record text: `check` and `results`. Records are read in place, and of an open message only the lines are kept that
//! come of it once it is whole.

use crate::Report;
use crate::bytes::{Lines, any, count, split};
use crate::link::CR;
use crate::ports::{Output, Piece, Stop, each_piece};
use std::fmt;

pub const RECORD_LIMIT: usize = 65_536;

/// Why a record is refused, by its code.
#[derive(Clone, Copy)]
pub struct Reason(&'static str);

const EMPTY: Reason = Reason("G1 C1");
const UNKNOWN_KIND: Reason = Reason("G1 C2");
const DELIMITER_PART: Reason = Reason("G1 C3");
const BAD_BYTE: Reason = Reason("G1 C4");
const NOT_HEADER: Reason = Reason("G2");
const NO_PARENT: Reason = Reason("G3");
const SECOND_HEADER: Reason = Reason("G4");
const UNFINISHED: Reason = Reason("G5");
const TOO_LONG: Reason = Reason("G6");

/// The first record that can't be read.
struct Refused {
    message: u64,
    place: u64,
    reason: Reason,
}

impl fmt::Display for Refused {
    fn fmt(&self, f: &mut fmt::Formatter) -> fmt::Result {
        write!(f, "refused {} {} {}", self.message, self.place, self.reason.0)
    }
}

#[derive(Clone, Copy)]
pub struct Delimiters {
    pub field: u8,
    pub repeat: u8,
    pub component: u8,
    pub escape: u8,
}

/// A record in its text: the letter in upper case, and the fields, a field delimiter before each.
pub struct Record<'a> {
    pub kind: u8,
    pub delimiters: Delimiters,
    pub fields: &'a [u8],
}

impl<'a> Record<'a> {
    fn len(&self) -> usize {
        count(self.fields, self.delimiters.field)
    }

    /// The fields, the first of which has number 2.
    pub fn fields(&self) -> Option<impl Iterator<Item = &'a [u8]> + use<'a>> {
        Some(split(self.fields.get(1..)?, self.delimiters.field))
    }

    fn field(&self, number: usize) -> Option<&'a [u8]> {
        self.fields()?.nth(number - 2)
    }
}

/// Whether all bytes may stand in a record. The few control bytes that may are told apart only where one stands.
fn is_text(bytes: &[u8]) -> bool {
    let unusual = any(bytes, |byte| (byte < 32) | (byte == 127) | (byte == 255));
    !unusual || bytes.iter().all(|byte| matches!(byte, 7 | 9 | 11 | 12 | 32..=126 | 128..=254))
}

/// Reads a header's delimiters: four distinct punctuation bytes, then a field delimiter or the record's end.
fn read_delimiters(text: &[u8]) -> Option<Delimiters> {
    let (&[_, field, repeat, component, escape], rest) = text.split_first_chunk()?;
    let all = [field, repeat, component, escape];
    let distinct = (0..4).all(|place| !all[..place].contains(&all[place]));
    let ended = rest.first().is_none_or(|byte| *byte == field);
    let well_formed = all.iter().all(u8::is_ascii_punctuation) && distinct && ended;
    well_formed.then_some(Delimiters { field, repeat, component, escape })
}

/// Where an open message stands: its delimiters, how many records it has, the last P or Q, and whether an O came since.
pub struct Open {
    delimiters: Delimiters,
    records: u64,
    group: Option<u8>,
    order: bool,
}

/// Reads the next record of a message, or the header of one.
pub fn read_record<'a>(text: &'a [u8], open: &mut Option<Open>) -> Result<Record<'a>, Reason> {
    let kind = text.first().ok_or(EMPTY)?.to_ascii_uppercase();
    if !b"HPORCQMSL".contains(&kind) {
        return Err(UNKNOWN_KIND);
    }
    let record = match open {
        None if kind != b'H' => return Err(NOT_HEADER),
        Some(_) if kind == b'H' => return Err(SECOND_HEADER),
        None => {
            let delimiters = read_delimiters(text).ok_or(DELIMITER_PART)?;
            Record { kind, delimiters, fields: &text[5..] }
        }
        Some(open) if text.get(1).is_none_or(|byte| *byte == open.delimiters.field) => {
            Record { kind, delimiters: open.delimiters, fields: &text[1..] }
        }
        Some(_) => return Err(UNKNOWN_KIND),
    };
    if !is_text(text) {
        return Err(BAD_BYTE);
    }
    let begun = Open { delimiters: record.delimiters, records: 0, group: None, order: false };
    open.get_or_insert(begun).add(kind)?;
    Ok(record)
}

impl Open {
    /// One more record, if it may stand here: O belongs to P, R to O.
    fn add(&mut self, kind: u8) -> Result<(), Reason> {
        match kind {
            b'P' | b'Q' => (self.group, self.order) = (Some(kind), false),
            b'O' if self.group != Some(b'P') => return Err(NO_PARENT),
            b'O' => self.order = true,
            b'R' if !self.order => return Err(NO_PARENT),
            _ => (),
        }
        self.records += 1;
        Ok(())
    }
}

/// What a command makes of records.
trait Command {
    fn record(&mut self, place: u64, record: &Record);
    /// The message is whole: its lines go out.
    fn message(&mut self, number: u64, lines: &mut Lines);
}

/// Reads messages until a record is refused or the input ends: how many are whole, and what was refused.
fn each_message(output: &mut Output, command: &mut impl Command) -> Result<(u64, Option<Refused>), Stop> {
    let (mut completed, mut refused) = (0, None);
    let mut open: Option<Open> = None;
    each_piece(CR, RECORD_LIMIT, output, |piece, lines| {
        let read = match piece {
            Piece::Ended(text) => read_record(text, &mut open),
            Piece::Unended(_) => Err(UNFINISHED),
            Piece::TooLong => Err(TOO_LONG),
        };
        let place = open.as_ref().map_or(0, |open| open.records);
        match read {
            Ok(record) => {
                command.record(place, &record);
                if record.kind == b'L' {
                    open = None;
                    completed += 1;
                    command.message(completed, lines);
                }
            }
            Err(reason) => refused = Some(Refused { message: completed + 1, place: place + 1, reason }),
        }
        refused.is_none()
    })?;
    if let (Some(open), None) = (open, &refused) {
        refused = Some(Refused { message: completed + 1, place: open.records + 1, reason: UNFINISHED });
    }
    Ok((completed, refused))
}

/// `check`: the open message's lines, those of its findings, and how many records stand under their parent.
#[derive(Default)]
struct Check {
    records: Lines,
    findings: Lines,
    patients: u64,
    queries: u64,
    orders: u64,
    results: u64,
    comments: u64,
    found: u64,
    found_before: u64,
}

impl Check {
    /// The sequence number that a record is to have, where it is to have one.
    fn expected(&mut self, kind: u8) -> Option<u64> {
        let counted = match kind {
            b'P' => {
                self.orders = 0;
                &mut self.patients
            }
            b'O' => {
                self.results = 0;
                &mut self.orders
            }
            b'R' => &mut self.results,
            b'Q' => &mut self.queries,
            b'C' => &mut self.comments,
            b'L' => return Some(1),
            b'H' => {
                (self.patients, self.queries, self.comments) = (0, 0, 0);
                return None;
            }
            _ => return None,
        };
        *counted += 1;
        let expected = *counted;
        if kind != b'C' {
            self.comments = 0;
        }
        Some(expected)
    }
}

/// Whether a field is this number, in one to nine digits.
fn is_number(field: &[u8], expected: u64) -> bool {
    let value = || field.iter().fold(0, |value, digit| 10 * value + u64::from(digit - b'0'));
    matches!(field.len(), 1..=9) && field.iter().all(u8::is_ascii_digit) && value() == expected
}

fn put_line(lines: &mut Lines, place: u64, kind: u8, number: u64) {
    lines.put_number(place);
    lines.put(&[b' ', kind, b' ']);
    lines.put_number(number);
    lines.put(b"\n");
}

impl Command for Check {
    fn record(&mut self, place: u64, record: &Record) {
        put_line(&mut self.records, place, record.kind, record.len() as u64);
        let Some(expected) = self.expected(record.kind) else { return };
        if !record.field(2).is_some_and(|field| is_number(field, expected)) {
            self.found += 1;
            self.findings.put(b"finding ");
            put_line(&mut self.findings, place, record.kind, expected);
        }
    }

    fn message(&mut self, number: u64, lines: &mut Lines) {
        lines.put(b"message ");
        lines.put_number(number);
        lines.put(b"\n");
        lines.put(self.records.as_slice());
        lines.put(self.findings.as_slice());
        self.records.clear();
        self.findings.clear();
        self.found_before += std::mem::take(&mut self.found);
    }
}

pub fn check(output: &mut Output) -> Result<Report, Stop> {
    let mut check = Check::default();
    let (completed, refused) = each_message(output, &mut check)?;
    if let Some(refused) = &refused {
        output.lines.put(format!("{refused}\n").as_bytes());
    }
    output.lines.put(format!("messages {completed} findings {}\n", check.found_before).as_bytes());
    Ok(Report::of((refused.is_some() || check.found_before > 0) as u8))
}

/// `results`: the spelling of the present order's field 3, and the open message's lines.
#[derive(Default)]
struct Results {
    order: Lines,
    lines: Lines,
}

/// The length of the escape that begins here, if one does: a letter, or an X and pairs of digits, between escape bytes.
pub fn escape_length(text: &[u8], escape: u8) -> Option<usize> {
    let length = match text.get(1)? {
        b'H' | b'N' | b'F' | b'S' | b'R' | b'E' => 3,
        b'X' => match text[2..].iter().take_while(|byte| byte.is_ascii_hexdigit()).count() {
            digits if digits > 0 && digits % 2 == 0 => digits + 3,
            _ => return None,
        },
        _ => return None,
    };
    (text.get(length - 1) == Some(&escape)).then_some(length)
}

/// A field's spelling: as it stands but for an escape byte that begins no escape, and for hexadecimal escapes, of
/// which each byte gets one of its own in lower case.
fn put_encoding(field: &[u8], escape: u8, spelling: &mut Lines) {
    let mut rest = field;
    while let Some(place) = rest.iter().position(|byte| *byte == escape) {
        let (plain, escaped) = rest.split_at(place);
        spelling.put(plain);
        let length = escape_length(escaped, escape);
        match length {
            None => spelling.put(&[escape, b'E', escape]),
            Some(3) => spelling.put(&escaped[..3]),
            Some(length) => {
                for pair in escaped[2..length - 1].chunks_exact(2) {
                    let [high, low] = [pair[0].to_ascii_lowercase(), pair[1].to_ascii_lowercase()];
                    spelling.put(&[escape, b'X', high, low, escape]);
                }
            }
        }
        rest = &escaped[length.unwrap_or(1)..];
    }
    spelling.put(rest);
}

impl Command for Results {
    fn record(&mut self, _: u64, record: &Record) {
        let Delimiters { field, escape, .. } = record.delimiters;
        match record.kind {
            b'O' => {
                self.order.clear();
                put_encoding(record.field(3).unwrap_or_default(), escape, &mut self.order);
            }
            b'R' => {
                self.lines.put(self.order.as_slice());
                let mut fields = record.fields();
                let escaped = any(record.fields, |byte| byte == escape);
                // One passed over, fields 3, 4, 5, 6, 7, another passed over, field 9.
                for passed in [1, 0, 0, 0, 0, 1] {
                    self.lines.put(&[field]);
                    let field = fields.as_mut().and_then(|fields| fields.nth(passed)).unwrap_or_default();
                    if escaped {
                        put_encoding(field, escape, &mut self.lines);
                    } else {
                        self.lines.put(field);
                    }
                }
                self.lines.put(b"\n");
            }
            _ => (),
        }
    }

    fn message(&mut self, _: u64, lines: &mut Lines) {
        lines.put(self.lines.as_slice());
        self.lines.clear();
    }
}

pub fn results(output: &mut Output) -> Result<Report, Stop> {
    let (_, refused) = each_message(output, &mut Results::default())?;
    Ok(Report { status: refused.is_some() as u8, refused: refused.map(|refused| refused.to_string()) })
}
