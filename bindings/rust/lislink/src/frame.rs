//! Frames, and the scanner that reads them.
use crate::{block::Block, Error, Fault};
use lislink_sys as sys;
use std::mem::MaybeUninit;
use std::ops::Deref;

/// Bytes to be sent; there may be none.
#[derive(Clone, Copy)]
pub struct Bytes(sys::lis_bytes);

impl Bytes {
    pub(crate) fn none() -> Self {
        Bytes(sys::lis_bytes { len: 0, bytes: [0; sys::LIS_LIMIT_FRAME_BYTES as usize] })
    }

    pub(crate) fn get(&mut self) -> *mut sys::lis_bytes {
        &mut self.0
    }
}

impl Deref for Bytes {
    type Target = [u8];
    fn deref(&self) -> &[u8] {
        &self.0.bytes[..self.0.len]
    }
}

impl std::fmt::Debug for Bytes {
    fn fmt(&self, f: &mut std::fmt::Formatter<'_>) -> std::fmt::Result {
        self.deref().fmt(f)
    }
}

/// The bytes of a frame with this number and text; `last` if it ends its message.
///
/// ```
/// let bytes = lislink::frame(1, true, b"H|\\^&\r").unwrap();
/// assert_eq!(&bytes[..], b"\x021H|\\^&\r\x03E5\r\n");
/// ```
///
/// # Errors
///
/// The text is too long, or has a byte that no text may hold; or the number is over 7.
pub fn frame(number: u8, last: bool, text: &[u8]) -> Result<Bytes, Error> {
    let (mut out, mut place) = (Bytes::none(), 0);
    let status = unsafe {
        sys::lis_frame_write(number, last, text.as_ptr(), text.len(), out.get(), &mut place)
    };
    Error::at_byte(status, place)?;
    Ok(out)
}

/// Which byte is at fault in a text that was added with this status.
pub(crate) fn place_at_fault(status: sys::lis_status, text: &[u8]) -> usize {
    let mut place = 0;
    if status == sys::LIS_STATUS_FORBIDDEN {
        unsafe { sys::lis_text_check(text.as_ptr(), text.len(), &mut place) };
    }
    place
}

/// The most bytes of a frame's text.
#[derive(Clone, Copy, Debug, PartialEq, Eq)]
pub enum FrameLimit {
    /// 240, as the standard has it.
    Usual,
    /// 63,993. A sender or a station then needs a stack of a megabyte.
    Long,
}

impl FrameLimit {
    pub(crate) fn bytes(self) -> usize {
        match self {
            FrameLimit::Usual => sys::LIS_LIMIT_FRAME_TEXT as usize,
            FrameLimit::Long => sys::LIS_LIMIT_LONG_FRAME_TEXT as usize,
        }
    }
}

/// As [`frame`], for a text of up to 63,993 bytes.
///
/// # Errors
///
/// Those of [`frame`].
pub fn long_frame(number: u8, last: bool, text: &[u8]) -> Result<Vec<u8>, Error> {
    let mut out = vec![0; text.len() + 7];
    let (mut size, mut place) = (0, 0);
    let (to, room) = (out.as_mut_ptr(), out.len());
    let status = unsafe {
        sys::lis_long_frame_write(
            number,
            last,
            text.as_ptr(),
            text.len(),
            to,
            room,
            &mut size,
            &mut place,
        )
    };
    Error::at_byte(status, place)?;
    Ok(out)
}

/// What a scanner reads.
#[derive(Clone, Debug, PartialEq, Eq)]
pub enum Signal {
    /// ENQ.
    Enq,
    /// EOT.
    Eot,
    /// A good frame.
    Frame {
        /// Its number.
        number: u8,
        /// Whether it ends its message.
        last: bool,
        /// Its text.
        text: Vec<u8>,
    },
    /// A bad frame: what is wrong with it, and the byte of its text that no text may hold.
    BadFrame(Fault, usize),
}

/// Reads bytes of the link.
pub struct Scanner(Block<sys::lis_scanner>);

impl Default for Scanner {
    fn default() -> Self {
        Self::new()
    }
}

impl Scanner {
    /// A scanner that has read nothing.
    #[must_use]
    pub fn new() -> Self {
        Scanner(Block::new())
    }

    /// A scanner of frames whose texts have at most so many bytes.
    ///
    /// # Errors
    ///
    /// There is no memory for the long limit.
    pub fn with_frame_limit(limit: FrameLimit) -> Result<Self, Error> {
        let mut scanner = Self::new();
        let status = unsafe { sys::lis_scanner_set_limit(scanner.0.get(), limit.bytes()) };
        Error::of(status)?;
        Ok(scanner)
    }

    /// The text of a long frame that was read last.
    fn text(&mut self) -> Vec<u8> {
        let scanner = self.0.get();
        let mut text = vec![0; unsafe { sys::lis_scanner_text_len(scanner) }];
        unsafe { sys::lis_scanner_text(scanner, text.as_mut_ptr(), text.len()) };
        text
    }

    /// The signals that these bytes complete. Bytes that the iterator isn't asked for are not read.
    pub fn feed<'a>(&'a mut self, bytes: &'a [u8]) -> impl Iterator<Item = Signal> + 'a {
        let mut rest = bytes;
        std::iter::from_fn(move || {
            while !rest.is_empty() {
                let mut out = MaybeUninit::<sys::lis_signal>::zeroed();
                let scanner = self.0.get();
                let read = unsafe {
                    sys::lis_scanner_feed(scanner, rest.as_ptr(), rest.len(), out.as_mut_ptr())
                };
                rest = &rest[read..];
                let found = unsafe { &*out.as_ptr() };
                if found.kind == sys::LIS_SIGNAL_LONG_FRAME {
                    let text = self.text();
                    return Some(Signal::Frame { number: found.number, last: found.last, text });
                }
                if let Some(signal) = signal_of(found) {
                    return Some(signal);
                }
            }
            None
        })
    }
}

fn signal_of(found: &sys::lis_signal) -> Option<Signal> {
    match found.kind {
        sys::LIS_SIGNAL_ENQ => Some(Signal::Enq),
        sys::LIS_SIGNAL_EOT => Some(Signal::Eot),
        sys::LIS_SIGNAL_FRAME => Some(Signal::Frame {
            number: found.number,
            last: found.last,
            text: found.text[..found.len].to_vec(),
        }),
        sys::LIS_SIGNAL_BAD_FRAME => Some(Signal::BadFrame(Fault::of(found.fault), found.place)),
        _ => None,
    }
}
