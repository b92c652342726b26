//! The sender, and the connection that it uses.
use crate::frame::place_at_fault;
use crate::{block::Block, Bytes, Error, FrameLimit, Outcome, Phase};
use lislink_sys as sys;
use std::marker::PhantomData;
use std::time::Duration;

/// A connection of a sender, by its number: bytes of an earlier one are dropped.
#[derive(Clone, Copy, Debug, PartialEq, Eq)]
pub struct Connection(u64);

/// A text that stays with its owner.
#[repr(transparent)]
#[derive(Clone, Copy)]
pub struct Text<'t>(sys::lis_text, PhantomData<&'t [u8]>);

unsafe impl Send for Text<'_> {}
unsafe impl Sync for Text<'_> {}

impl<'t> Text<'t> {
    /// A text that stays with its owner, also in a constant.
    #[must_use]
    pub const fn new(text: &'t [u8]) -> Self {
        Text(sys::lis_text { bytes: text.as_ptr(), bytes_len: text.len() }, PhantomData)
    }
}

impl<'t> From<&'t [u8]> for Text<'t> {
    fn from(text: &'t [u8]) -> Self {
        Text::new(text)
    }
}

/// Sends texts. The bytes that a call returns are to be sent; there may be none.
///
/// ```
/// let mut sender = lislink::Sender::new();
/// let connection = sender.connected();
/// sender.add(b"H|\\^&\r").unwrap();
/// assert_eq!(&sender.start().unwrap()[..], b"\x05");
/// assert_eq!(sender.reply(connection, 6), b"\x021H|\\^&\r\x03E5\r\n"); // ENQ was acknowledged
/// assert_eq!(sender.reply(connection, 6), b"\x04"); // and so was the frame
/// assert_eq!(sender.outcome(), lislink::Outcome::Done);
/// ```
pub struct Sender<'t> {
    line: sys::lis_line,
    _block: Block<sys::lis_sender>,
    limit: FrameLimit,
    sent: Vec<u8>,
    texts: PhantomData<&'t [u8]>,
}

// The line has the handle of the block, which is used by it alone.
unsafe impl Send for Sender<'_> {}

impl Default for Sender<'_> {
    fn default() -> Self {
        Self::new()
    }
}

impl<'t> Sender<'t> {
    /// A sender without a connection.
    #[must_use]
    pub fn new() -> Self {
        let block = Block::new();
        let sender = block.handle();
        let mut line = sys::lis_line { sender, connection: 0, spent: true };
        unsafe { sys::lis_line_init(&mut line, sender) };
        let limit = FrameLimit::Usual;
        Sender { line, _block: block, limit, sent: Vec::new(), texts: PhantomData }
    }

    /// A sender of frames whose texts have at most so many bytes. With the long limit its calls need a thread with a
    /// stack of a megabyte.
    ///
    /// # Errors
    ///
    /// There is no memory for the long limit.
    pub fn with_frame_limit(limit: FrameLimit) -> Result<Self, Error> {
        let mut sender = Self::new();
        let status = unsafe { sys::lis_sender_set_limit(&mut sender.line.sender, limit.bytes()) };
        Error::of(status)?;
        sender.limit = limit;
        Ok(sender)
    }

    /// Call it when a new connection was made; on a serial line, when you have waited longer than the computer takes to
    /// answer, and dropped what came. A session that goes on is restarted.
    pub fn connected(&mut self) -> Connection {
        Connection(unsafe { sys::lis_line_connected(&mut self.line) })
    }

    /// Adds a copy of a text to the next session.
    ///
    /// # Errors
    ///
    /// No session takes a text as long, or with such a byte, which the error names; or one more text; or there is no
    /// memory.
    pub fn add(&mut self, text: &[u8]) -> Result<(), Error> {
        let status =
            unsafe { sys::lis_sender_add_text(&mut self.line.sender, text.as_ptr(), text.len()) };
        Error::at_byte(status, place_at_fault(status, text))
    }

    /// Drops the texts of the next session.
    pub fn clear(&mut self) {
        unsafe { sys::lis_sender_clear(&mut self.line.sender) };
    }

    /// Starts a session with the texts that were added: ENQ, to be sent. Once a session is over, its texts are gone,
    /// however it ended.
    ///
    /// # Errors
    ///
    /// A session goes on, or there is no text.
    /// [`Status::OldLine`](crate::Status::OldLine) before [`connected`](Self::connected), and, from when a session
    /// timed out or was restarted, until `connected` is called again.
    pub fn start(&mut self) -> Result<Bytes, Error> {
        let (mut out, mut fault) = (Bytes::none(), sys::lis_place { index: 0, place: 0 });
        let status = unsafe { sys::lis_line_start(&mut self.line, out.get(), &mut fault) };
        Error::at_text(status, fault)?;
        Ok(out)
    }

    /// Starts a session with texts that stay with their owner, and takes no memory.
    ///
    /// # Errors
    ///
    /// Those of [`start`](Self::start); there are more texts than a session takes; or which text, and which byte of it,
    /// no session takes.
    pub fn start_lent(&mut self, texts: &'t [Text<'t>]) -> Result<Bytes, Error> {
        let (mut out, mut fault) = (Bytes::none(), sys::lis_place { index: 0, place: 0 });
        let (line, first) = (&mut self.line, texts.as_ptr().cast());
        let status =
            unsafe { sys::lis_line_start_lent(line, first, texts.len(), out.get(), &mut fault) };
        Error::at_text(status, fault)?;
        Ok(out)
    }

    /// A byte came over a connection: what is to be sent.
    #[must_use = "these bytes are to be sent"]
    pub fn reply(&mut self, from: Connection, byte: u8) -> &[u8] {
        let mut out = Bytes::none();
        unsafe { sys::lis_line_reply(&mut self.line, from.0, byte, out.get()) };
        self.sent.clear();
        self.sent.extend_from_slice(&out);
        // `Bytes` has no room for a long frame.
        if out.is_empty() && self.limit == FrameLimit::Long {
            self.sent.resize(sys::LIS_LIMIT_LONG_FRAME_BYTES as usize, 0);
            let (to, room, mut size) = (self.sent.as_mut_ptr(), self.sent.len(), 0);
            unsafe { sys::lis_line_frame(&self.line, from.0, to, room, &mut size) };
            self.sent.truncate(size);
        }
        &self.sent
    }

    /// The time of [`patience`](Self::patience) is over: what is to be sent.
    #[must_use = "these bytes are to be sent"]
    pub fn timer(&mut self) -> Bytes {
        let mut out = Bytes::none();
        unsafe { sys::lis_line_timer(&mut self.line, out.get()) };
        out
    }

    /// Gives up the session that goes on.
    pub fn restart(&mut self) {
        unsafe { sys::lis_line_restart(&mut self.line) };
    }

    /// What the sender waits for.
    #[must_use]
    pub fn phase(&self) -> Phase {
        Phase::of(unsafe { sys::lis_sender_phase(&self.handle()) })
    }

    /// How the last session ended.
    #[must_use]
    pub fn outcome(&self) -> Outcome {
        Outcome::of(unsafe { sys::lis_sender_outcome(&self.handle()) })
    }

    /// How many frames of the session are acknowledged.
    #[must_use]
    pub fn acknowledged(&self) -> u64 {
        unsafe { sys::lis_sender_acknowledged(&self.handle()) }
    }

    /// How long the phase lasts before its timer runs out; none if no timer runs.
    #[must_use]
    pub fn patience(&self) -> Option<Duration> {
        let mut seconds = 0;
        let runs = unsafe { sys::lis_sender_timer_seconds(&self.handle(), &mut seconds) };
        runs.then(|| Duration::from_secs(seconds.into()))
    }

    /// A copy of the handle, for calls that change nothing.
    fn handle(&self) -> sys::lis_sender {
        self.line.sender
    }
}
