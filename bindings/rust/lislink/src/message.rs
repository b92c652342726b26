//! A message as places in its text.
use crate::reader::{fault_of, nothing};
use crate::{Delimiters, MessageError};
use lislink_sys as sys;

/// A message as places in its text: its records, each with the one that it is under. No byte is copied.
#[derive(Clone, Debug)]
pub struct Message<'t> {
    text: &'t [u8],
    places: Vec<sys::lis_record_place>,
    delimiters: Delimiters,
}

impl<'t> Message<'t> {
    /// Reads the message that a text begins with, and answers it with the bytes after it; none where the text is empty.
    ///
    /// # Errors
    ///
    /// Which record can't come next, or that the text ends before the message does.
    ///
    /// ```
    /// let text = b"H|\\^&\rP|1\rO|1|S7\rR|1|^^^GLU|5.4\rL|1\r";
    /// let (message, _) = lislink::Message::read(text).unwrap().unwrap();
    /// let result = message.results().next().unwrap();
    /// assert_eq!(result.order.part(3, 0, 0).as_deref(), Some(&b"S7"[..]));
    /// ```
    pub fn read(text: &'t [u8]) -> Result<Option<(Self, &'t [u8])>, MessageError> {
        let mut places = vec![no_place(); 16];
        let mut told =
            sys::lis_message { count: 0, len: 0, delimiters: Delimiters::usual().to_sys() };
        let mut found = nothing();
        loop {
            let (to, room) = (places.as_mut_ptr(), places.len());
            let status = unsafe {
                sys::lis_message_places(text.as_ptr(), text.len(), to, room, &mut told, &mut found)
            };
            match status {
                sys::LIS_STATUS_OK => break,
                sys::LIS_STATUS_TOO_SHORT => places.resize(told.count, no_place()),
                sys::LIS_STATUS_NO_RECORD => return Ok(None),
                _ => return Err(fault_of(&found)),
            }
        }
        places.truncate(told.count);
        let (text, following) = text.split_at(told.len);
        let delimiters = Delimiters::from_sys(told.delimiters);
        Ok(Some((Message { text, places, delimiters }, following)))
    }

    /// The bytes of a text from the next header on, after a message that can't be read; none are left if there is none.
    #[must_use]
    pub fn skip(text: &[u8]) -> &[u8] {
        let mut begins = false;
        &text[unsafe { sys::lis_header_find(text.as_ptr(), text.len(), &mut begins) }..]
    }

    /// The delimiters that it is read under.
    #[must_use]
    pub fn delimiters(&self) -> Delimiters {
        self.delimiters
    }

    /// Its text, with the CR of each record.
    #[must_use]
    pub fn text(&self) -> &'t [u8] {
        self.text
    }

    /// Its records, from the header to the terminator.
    #[must_use]
    pub fn entries(&self) -> impl ExactSizeIterator<Item = Entry<'_, 't>> + '_ {
        (0..self.places.len()).map(|index| Entry { message: self, index })
    }

    /// Its results, each with the patient and the order that it belongs to.
    pub fn results(&self) -> impl Iterator<Item = ResultEntry<'_, 't>> + '_ {
        self.entries().filter(|entry| entry.letter() == 'R').map(|result| {
            let order = result.parent();
            ResultEntry { patient: order.parent(), order, result }
        })
    }
}

/// A result of a message, with the order and the patient that it belongs to.
#[derive(Clone, Copy, Debug)]
pub struct ResultEntry<'m, 't> {
    /// The patient.
    pub patient: Entry<'m, 't>,
    /// The order.
    pub order: Entry<'m, 't>,
    /// The result.
    pub result: Entry<'m, 't>,
}

/// A record in its message.
#[derive(Clone, Copy, Debug)]
pub struct Entry<'m, 't> {
    message: &'m Message<'t>,
    index: usize,
}

impl<'m, 't> Entry<'m, 't> {
    fn place(&self) -> sys::lis_record_place {
        self.message.places[self.index]
    }

    /// Its place in the message, from 0 for the header.
    #[must_use]
    pub fn index(&self) -> usize {
        self.index
    }

    /// Its letter in upper case.
    #[must_use]
    pub fn letter(&self) -> char {
        self.place().letter.into()
    }

    /// Its text, without the CR.
    #[must_use]
    pub fn text(&self) -> &'t [u8] {
        let place = self.place();
        &self.message.text[place.start..place.start + place.len as usize]
    }

    /// The record that it is under; the header is under itself.
    #[must_use]
    pub fn parent(&self) -> Entry<'m, 't> {
        Entry { index: self.place().parent, ..*self }
    }

    /// The records that are under it, in order.
    pub fn below(&self) -> impl Iterator<Item = Entry<'m, 't>> + 'm
    where
        't: 'm,
    {
        let (message, index) = (self.message, self.index);
        (index + 1..message.places.len())
            .filter(move |&below| message.places[below].parent == index)
            .map(move |index| Entry { message, index })
    }

    /// The bytes that a component means; none if there is no such part. Fields are counted as the standard does: the
    /// first after the letter is 2, after a header's delimiters 3; repeats and components from 0.
    #[must_use]
    pub fn part(&self, field: usize, repeat: usize, component: usize) -> Option<Vec<u8>> {
        let text = self.text();
        let (mut out, mut size) = (vec![0; text.len()], 0);
        let (at, len, to) = (text.as_ptr(), text.len(), out.as_mut_ptr());
        let status = unsafe {
            if self.index == 0 {
                sys::lis_header_part(at, len, field, repeat, component, to, len, &mut size)
            } else {
                let by = self.message.delimiters.to_sys();
                sys::lis_record_part(&by, at, len, field, repeat, component, to, len, &mut size)
            }
        };
        out.truncate(size);
        (status == sys::LIS_STATUS_OK).then_some(out)
    }
}

fn no_place() -> sys::lis_record_place {
    sys::lis_record_place { start: 0, parent: 0, len: 0, letter: 0 }
}
