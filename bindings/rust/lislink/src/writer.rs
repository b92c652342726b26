//! The writer.
use crate::{block::Block, Error, Status};
use lislink_sys as sys;

/// The delimiters of a message.
#[derive(Clone, Copy, Debug, PartialEq, Eq)]
pub struct Delimiters {
    /// Between fields, usually `|`.
    pub field: u8,
    /// Between the repeats of a field, usually `\`.
    pub repeat: u8,
    /// Between components, usually `^`.
    pub component: u8,
    /// Around an escape, usually `&`.
    pub escape: u8,
}

impl Delimiters {
    /// `|`, `\\`, `^` and `&`.
    #[must_use]
    pub fn usual() -> Self {
        Delimiters { field: b'|', repeat: b'\\', component: b'^', escape: b'&' }
    }

    pub(crate) fn to_sys(self) -> sys::lis_delimiters {
        let Delimiters { field, repeat, component, escape } = self;
        sys::lis_delimiters { field, repeat, component, escape }
    }

    pub(crate) fn from_sys(found: sys::lis_delimiters) -> Self {
        let sys::lis_delimiters { field, repeat, component, escape } = found;
        Delimiters { field, repeat, component, escape }
    }
}

/// Writes records. Delimiters in a field are escaped.
///
/// ```
/// # fn main() -> Result<(), lislink::Error> {
/// let mut writer = lislink::Writer::new();
/// writer.record(b'H')?.put()?;
/// writer.record(b'P')?.field(b"1")?.field(b"a|b")?.put()?;
/// assert_eq!(writer.text(1).as_deref(), Some(&b"P|1|a&F&b\r"[..]));
/// # Ok(())
/// # }
/// ```
pub struct Writer(Block<sys::lis_writer>);

impl Default for Writer {
    fn default() -> Self {
        Self::new()
    }
}

impl Writer {
    /// A writer outside a message, with the usual delimiters.
    #[must_use]
    pub fn new() -> Self {
        Writer(Block::new())
    }

    /// Drops all that was written, and begins with these delimiters.
    ///
    /// # Errors
    ///
    /// They are no four delimiters: then nothing has changed.
    pub fn start(&mut self, delimiters: Delimiters) -> Result<&mut Self, Error> {
        Error::of(unsafe { sys::lis_writer_start(self.0.get(), &delimiters.to_sys()) })?;
        Ok(self)
    }

    /// Begins a record by the letter of its kind.
    ///
    /// # Errors
    ///
    /// It is no such letter: then nothing has changed.
    pub fn record(&mut self, letter: u8) -> Result<&mut Self, Error> {
        Error::of(unsafe { sys::lis_writer_record(self.0.get(), letter) })?;
        Ok(self)
    }

    /// Writes a component that another one of the same repeat follows.
    ///
    /// # Errors
    ///
    /// No record is begun; or there is no memory, and the record is dropped.
    pub fn component(&mut self, bytes: &[u8]) -> Result<&mut Self, Error> {
        let status =
            unsafe { sys::lis_writer_component(self.0.get(), bytes.as_ptr(), bytes.len()) };
        Error::of(status)?;
        Ok(self)
    }

    /// Writes the last component of a repeat that another repeat of the field follows.
    ///
    /// # Errors
    ///
    /// Those of [`component`](Self::component).
    pub fn repeat(&mut self, bytes: &[u8]) -> Result<&mut Self, Error> {
        let status = unsafe { sys::lis_writer_repeat(self.0.get(), bytes.as_ptr(), bytes.len()) };
        Error::of(status)?;
        Ok(self)
    }

    /// Writes the last component of a field, for most fields the only one.
    ///
    /// # Errors
    ///
    /// Those of [`component`](Self::component).
    pub fn field(&mut self, bytes: &[u8]) -> Result<&mut Self, Error> {
        let status = unsafe { sys::lis_writer_field(self.0.get(), bytes.as_ptr(), bytes.len()) };
        Error::of(status)?;
        Ok(self)
    }

    /// Puts the record after the others.
    ///
    /// # Errors
    ///
    /// It can't come next, isn't begun or ended, is too long, or has a byte that no record may hold, in the field that
    /// is the error's index; the message has as many as it may have, or there is no memory. Nothing has changed then.
    pub fn put(&mut self) -> Result<&mut Self, Error> {
        let mut field = 0;
        let status = unsafe { sys::lis_writer_put(self.0.get(), &mut field) };
        Error::at_field(status, field)?;
        Ok(self)
    }

    /// How many records were put.
    #[must_use]
    pub fn texts_len(&self) -> usize {
        unsafe { sys::lis_writer_texts(&self.0.handle()) }
    }

    /// The text of a record that was put, with its CR, by its place from 0; none if there are not so many.
    #[must_use]
    pub fn text(&self, place: usize) -> Option<Vec<u8>> {
        let writer = self.0.handle();
        let len = unsafe { sys::lis_writer_text_len(&writer, place) };
        let (mut out, mut size) = (vec![0; len], 0);
        let status =
            unsafe { sys::lis_writer_text(&writer, place, out.as_mut_ptr(), len, &mut size) };
        (Status::of(status) == Status::Ok).then_some(out)
    }

    /// The texts of the records, in their order.
    pub fn texts(&self) -> impl Iterator<Item = Vec<u8>> + '_ {
        (0..self.texts_len()).map_while(|place| self.text(place))
    }
}
