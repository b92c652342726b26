//! The reader, and the records that it reads.
use crate::{block::Block, Delimiters, Reason, Status};
use lislink_sys as sys;
use std::borrow::Cow;
use std::fmt;

/// Why a record can't be read. It prints the record's number, the reason and, of a text that is no record, why.
#[derive(Clone, Copy, Debug, PartialEq, Eq)]
pub struct MessageError {
    /// Its number in its message, from 1 for a header.
    pub number: u64,
    /// What is wrong with it.
    pub reason: Reason,
    /// The number of the status of its text ([`Status::of`]), or its letter.
    pub detail: u8,
    /// The byte that no text may hold, from 0.
    pub place: usize,
}

impl fmt::Display for MessageError {
    fn fmt(&self, f: &mut fmt::Formatter<'_>) -> fmt::Result {
        let MessageError { number, reason, detail, place } = *self;
        write!(f, "record {number}: {reason}")?;
        match (reason, Status::of(detail)) {
            (Reason::BadRecord, Status::Forbidden) => {
                write!(f, ": {}, byte {place} from 0", Status::Forbidden)
            }
            (Reason::BadRecord, status) => write!(f, ": {status}"),
            (Reason::NoParent, _) => write!(f, ", {}", char::from(detail)),
            _ => Ok(()),
        }
    }
}

impl std::error::Error for MessageError {}

/// A component of a record. Fields are counted as the standard does: the first after the letter is 2, after a header's
/// delimiters 3; repeats and components from 0.
#[derive(Clone, Copy, Debug, PartialEq, Eq)]
pub struct Part<'r> {
    /// The field.
    pub field: usize,
    /// The repeat of the field.
    pub repeat: usize,
    /// The component of the repeat.
    pub component: usize,
    /// Its bytes as they are in the record.
    pub raw: &'r [u8],
    escaped: bool,
    delimiters: Delimiters,
}

impl<'r> Part<'r> {
    /// The bytes that it means: its escapes are decoded.
    #[must_use]
    pub fn bytes(&self) -> Cow<'r, [u8]> {
        if !self.escaped {
            return Cow::Borrowed(self.raw);
        }
        let (mut out, mut size) = (vec![0; self.raw.len()], 0);
        let (by, len) = (self.delimiters.to_sys(), self.raw.len());
        unsafe {
            sys::lis_part_decode(&by, self.raw.as_ptr(), len, out.as_mut_ptr(), len, &mut size)
        };
        out.truncate(size);
        Cow::Owned(out)
    }
}

/// A record of a message.
#[derive(Clone, Debug)]
pub struct Record {
    text: Vec<u8>,
    parts: Vec<sys::lis_part>,
    letter: u8,
    fields: usize,
    delimiters: Delimiters,
}

impl Record {
    /// Its letter in upper case.
    #[must_use]
    pub fn letter(&self) -> char {
        self.letter.into()
    }

    /// How many fields follow the letter, or a header's delimiters.
    #[must_use]
    pub fn fields(&self) -> usize {
        self.fields
    }

    /// Its text, without the CR.
    #[must_use]
    pub fn text(&self) -> &[u8] {
        &self.text
    }

    /// The delimiters of its message.
    #[must_use]
    pub fn delimiters(&self) -> Delimiters {
        self.delimiters
    }

    fn part_of(&self, part: &sys::lis_part) -> Part<'_> {
        let begin = part.offset as usize;
        Part {
            field: part.field as usize,
            repeat: part.repeat as usize,
            component: part.component as usize,
            raw: &self.text[begin..begin + part.len as usize],
            escaped: u64::from(part.flags) & sys::LIS_PART_ESCAPED != 0,
            delimiters: self.delimiters,
        }
    }

    /// All components, in the order of the text.
    #[must_use]
    pub fn parts(&self) -> impl ExactSizeIterator<Item = Part<'_>> + '_ {
        self.parts.iter().map(|part| self.part_of(part))
    }

    /// The bytes that a component means; none if there is no such part. Fields are counted as the standard does: the
    /// first after the letter is 2, after a header's delimiters 3; repeats and components from 0.
    #[must_use]
    pub fn part(&self, field: usize, repeat: usize, component: usize) -> Option<Cow<'_, [u8]>> {
        let wanted = (field, repeat, component);
        let key =
            |it: &sys::lis_part| (it.field as usize, it.repeat as usize, it.component as usize);
        let found = self.parts.binary_search_by_key(&wanted, key).ok()?;
        Some(self.part_of(&self.parts[found]).bytes())
    }
}

/// Reads the records of a stream that comes in pieces.
pub struct Reader {
    block: Block<sys::lis_reader>,
    parts: Vec<sys::lis_part>,
    /// The bytes of a record that came in earlier pieces, which the library holds too.
    held: Vec<u8>,
    read: u64,
    /// Whether a header is searched for, and then whether a record begins with the next byte.
    searches: bool,
    begins: bool,
}

impl Default for Reader {
    fn default() -> Self {
        Self::new()
    }
}

impl Reader {
    /// A reader at the start of a stream.
    #[must_use]
    pub fn new() -> Self {
        let (block, parts, held) = (Block::new(), Vec::new(), Vec::new());
        Reader { block, parts, held, read: 0, searches: false, begins: false }
    }

    /// The records that end in these bytes. One that can't be read is the last, and the reader gives that error for
    /// good, unless [`Records::resume`] goes on. Bytes that the iterator isn't asked for are not read.
    pub fn feed<'a>(&'a mut self, bytes: &'a [u8]) -> Records<'a> {
        Records { reader: self, rest: bytes, is_over: false }
    }

    /// How many bytes of the stream were read: up to the end of the last record, or up to the one that can't be read.
    #[must_use]
    pub fn read(&self) -> u64 {
        self.read
    }

    /// How many bytes come before the next header, if one is searched for.
    fn search(&mut self, bytes: &[u8]) -> usize {
        if !self.searches {
            return 0;
        }
        let before = unsafe { sys::lis_header_find(bytes.as_ptr(), bytes.len(), &mut self.begins) };
        self.searches = before == bytes.len();
        self.read += before as u64;
        before
    }

    /// The end of the stream.
    ///
    /// # Errors
    ///
    /// A message or a record isn't ended, or one couldn't be read.
    pub fn finish(&mut self) -> Result<(), MessageError> {
        let mut found = nothing();
        match unsafe { sys::lis_reader_finish(self.block.get(), &mut found) } {
            sys::LIS_STATUS_OK => Ok(()),
            _ => Err(fault_of(&found)),
        }
    }

    /// All parts of the record that ended, as far as there is room.
    fn table(&mut self) -> sys::lis_table {
        let mut table = sys::lis_table { count: 0, len: 0, delimiters: no_delimiters() };
        let (to, room) = (self.parts.as_mut_ptr(), self.parts.len());
        unsafe { sys::lis_reader_parts(self.block.get(), to, room, &mut table) };
        table
    }

    /// The record that ended, whose bytes the library holds.
    fn record(&mut self, found: &sys::lis_found) -> Record {
        let mut table = self.table();
        if table.count > self.parts.len() {
            self.parts.resize(table.count, no_part());
            table = self.table();
        }
        let (mut text, mut size) = (vec![0; table.len], 0);
        unsafe { sys::lis_reader_text(self.block.get(), text.as_mut_ptr(), table.len, &mut size) };
        let parts = self.parts[..table.count].to_vec();
        let delimiters = Delimiters::from_sys(table.delimiters);
        Record { text, parts, letter: found.letter, fields: found.fields, delimiters }
    }
}

/// The records of some bytes.
pub struct Records<'a> {
    reader: &'a mut Reader,
    /// What follows the last record.
    rest: &'a [u8],
    is_over: bool,
}

impl Records<'_> {
    /// After an error: goes on at the next header, which may be the record that can't be read, in these bytes or in
    /// those that the reader is fed with next. The message that was open is dropped: it has no end. So a session that
    /// broke off costs its own message alone.
    ///
    /// ```
    /// let mut reader = lislink::Reader::new();
    /// let mut records = reader.feed(b"H|\\^&\rP|1\rH|\\^&\rL|1\r");
    /// let mut letters = String::new();
    /// while let Some(record) = records.next() {
    ///     match record {
    ///         Ok(record) => letters.push(record.letter()),
    ///         Err(_) => records.resume(),
    ///     }
    /// }
    /// assert_eq!(letters, "HPHL");
    /// ```
    pub fn resume(&mut self) {
        let reader = &mut *self.reader;
        reader.begins = unsafe { sys::lis_reader_resume(reader.block.get()) };
        reader.searches = true;
        self.is_over = false;
        let held = std::mem::take(&mut reader.held);
        if reader.search(&held) < held.len() {
            // The header began in an earlier piece: the library holds its bytes again.
            let (block, mut found) = (reader.block.get(), nothing());
            unsafe { sys::lis_reader_read(block, held.as_ptr(), held.len(), &mut found) };
            reader.held = held;
        }
    }
}

impl Iterator for Records<'_> {
    type Item = Result<Record, MessageError>;

    fn next(&mut self) -> Option<Self::Item> {
        if self.is_over {
            return None;
        }
        self.rest = &self.rest[self.reader.search(self.rest)..];
        let mut rest = self.rest;
        while !rest.is_empty() {
            let (reader, mut found) = (self.reader.block.get(), nothing());
            let read =
                unsafe { sys::lis_reader_read(reader, rest.as_ptr(), rest.len(), &mut found) };
            rest = &rest[read..];
            match found.kind {
                sys::LIS_FOUND_RECORD => {
                    let here = self.rest.len() - rest.len();
                    self.reader.read += (self.reader.held.len() + here) as u64;
                    self.reader.held.clear();
                    self.rest = rest;
                    return Some(Ok(self.reader.record(&found)));
                }
                sys::LIS_FOUND_REFUSED => {
                    self.is_over = true;
                    return Some(Err(fault_of(&found)));
                }
                _ => {}
            }
        }
        self.reader.held.extend_from_slice(self.rest);
        self.rest = rest;
        None
    }
}

impl std::iter::FusedIterator for Records<'_> {}

fn no_part() -> sys::lis_part {
    sys::lis_part { offset: 0, len: 0, field: 0, repeat: 0, component: 0, flags: 0 }
}

fn no_delimiters() -> sys::lis_delimiters {
    sys::lis_delimiters { field: 0, repeat: 0, component: 0, escape: 0 }
}

pub(crate) fn nothing() -> sys::lis_found {
    sys::lis_found { kind: 0, letter: 0, reason: 0, detail: 0, fields: 0, place: 0, number: 0 }
}

pub(crate) fn fault_of(found: &sys::lis_found) -> MessageError {
    MessageError {
        number: found.number,
        reason: Reason::of(found.reason),
        detail: found.detail,
        place: found.place,
    }
}
