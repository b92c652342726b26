//! The receiver.
use crate::{block::Block, Error, FrameLimit, Note, Ready};
use lislink_sys as sys;
use std::time::{Duration, Instant};

/// What a byte or the timer meant.
#[derive(Clone, Copy, Debug, PartialEq, Eq)]
pub struct Step {
    /// What it meant.
    pub note: Note,
    /// The frame's number, or the number of its fault ([`Fault::of`](crate::Fault::of)).
    pub detail: u8,
    /// The byte of a bad frame's text that no text may hold, from 0.
    pub place: usize,
}

/// How hearing went.
#[derive(Clone, Copy, Debug, PartialEq, Eq)]
#[must_use]
pub enum Heard {
    /// Each text was kept, and each reply sent.
    All,
    /// A text was not kept or a reply not sent: the receiver restarted, and the bytes after it were dropped.
    GaveUp,
}

/// Receives texts: keeps each, and then replies.
///
/// ```
/// let (mut kept, mut replies) = (Vec::new(), Vec::new());
/// let keep = |text: &[u8]| {
///     kept.push(text.to_vec());
///     true // it is where it lasts: only then the reply goes out
/// };
/// let send = |reply| {
///     replies.push(reply);
///     true
/// };
/// let mut receiver = lislink::Receiver::new();
/// let heard = receiver.hear(b"\x05\x021H|\\^&\r\x03E5\r\n\x04", keep, send);
/// assert_eq!((heard, replies), (lislink::Heard::All, vec![6, 6]));
/// assert_eq!(kept, [b"H|\\^&\r"]);
/// ```
pub struct Receiver {
    block: Block<sys::lis_receiver>,
    text: Vec<u8>,
}

impl Default for Receiver {
    fn default() -> Self {
        Self::new()
    }
}

/// A step that is answered later: keep its text, send its reply, and call [`sent`](Self::sent). If that isn't called,
/// no reply may go out, and the receiver restarts when this is dropped: an error in between acknowledges nothing.
#[must_use = "keep the text, send the reply, and then call `sent`; else the receiver restarts"]
pub struct Answer<'a> {
    receiver: &'a mut Receiver,
    step: Step,
    has_text: bool,
    reply: Option<u8>,
    is_due: bool,
}

impl Answer<'_> {
    /// What the bytes meant.
    #[must_use]
    pub fn step(&self) -> Step {
        self.step
    }

    /// The text that is complete, to be kept before the reply is sent.
    #[must_use]
    pub fn text(&self) -> Option<&[u8]> {
        self.has_text.then_some(&self.receiver.text[..])
    }

    /// The byte that is to be sent.
    #[must_use]
    pub fn reply(&self) -> Option<u8> {
        self.reply
    }

    /// Call it when the text was kept and the reply was sent.
    pub fn sent(mut self) {
        self.is_due = false;
    }
}

impl Drop for Answer<'_> {
    fn drop(&mut self) {
        if self.is_due {
            self.receiver.restart();
        }
    }
}

/// Restarts the receiver unless all went well; so it does if a closure panics.
struct Guard<'a> {
    receiver: &'a mut Receiver,
    good: bool,
}

impl Drop for Guard<'_> {
    fn drop(&mut self) {
        if !self.good {
            self.receiver.restart();
        }
    }
}

impl Receiver {
    /// A receiver that is ready, on a line that isn't open.
    #[must_use]
    pub fn new() -> Self {
        Receiver { block: Block::new(), text: Vec::new() }
    }

    /// A receiver of frames whose texts have at most so many bytes.
    ///
    /// # Errors
    ///
    /// There is no memory for the long limit.
    pub fn with_frame_limit(limit: FrameLimit) -> Result<Self, Error> {
        let mut receiver = Self::new();
        let status = unsafe { sys::lis_receiver_set_limit(receiver.block.get(), limit.bytes()) };
        Error::of(status)?;
        Ok(receiver)
    }

    /// Hears bytes: calls `keep` with each text that is complete, and only if that returns true `send`, with the reply.
    /// If either returns false, no reply is sent and the receiver restarts: the sender still has its texts, and sends
    /// them again.
    pub fn hear(
        &mut self,
        bytes: &[u8],
        keep: impl FnMut(&[u8]) -> bool,
        send: impl FnMut(u8) -> bool,
    ) -> Heard {
        self.hear_each(bytes, keep, send, |_| ())
    }

    /// As [`hear`](Self::hear), for bytes that came after `since`, when the line was last seen empty: a reply that
    /// could come after the sender's timer is not sent, which is one that is due more than two thirds of that timer
    /// after `since`.
    pub fn hear_since(
        &mut self,
        since: Instant,
        bytes: &[u8],
        keep: impl FnMut(&[u8]) -> bool,
        mut send: impl FnMut(u8) -> bool,
    ) -> Heard {
        let patience = Duration::from_secs(sys::LIS_SECONDS_REPLY * 2 / 3);
        self.hear(bytes, keep, |reply| since.elapsed() <= patience && send(reply))
    }

    /// As [`hear`](Self::hear); `each` is called first, with each step that means something.
    pub fn hear_each(
        &mut self,
        bytes: &[u8],
        mut keep: impl FnMut(&[u8]) -> bool,
        mut send: impl FnMut(u8) -> bool,
        mut each: impl FnMut(Step),
    ) -> Heard {
        let mut rest = bytes;
        while !rest.is_empty() {
            let mut step = no_step();
            let receiver = self.block.get();
            let heard =
                unsafe { sys::lis_receiver_hear(receiver, rest.as_ptr(), rest.len(), &mut step) };
            rest = &rest[heard..];
            if step.note != sys::LIS_NOTE_QUIET {
                each(step_of(&step));
            }
            let mut guard = Guard { receiver: self, good: false };
            guard.good = (!step.has_text || guard.receiver.keeps(&mut keep))
                && (step.reply == 0 || send(step.reply));
            if !guard.good {
                return Heard::GaveUp;
            }
        }
        Heard::All
    }

    /// Hears bytes up to the first step that means something, or all of them if none does, and takes them from the
    /// front of `bytes`. Its reply may be sent later, as after an `await`; until then the receiver hears nothing more.
    /// If there is no memory for a text, the receiver restarts, and the note says so.
    pub fn next_step(&mut self, bytes: &mut &[u8]) -> Answer<'_> {
        let mut step = no_step();
        if !bytes.is_empty() {
            let receiver = self.block.get();
            let heard =
                unsafe { sys::lis_receiver_hear(receiver, bytes.as_ptr(), bytes.len(), &mut step) };
            *bytes = &bytes[heard..];
        }
        if step.has_text && !self.copy_text() {
            self.restart();
            step = sys::lis_step { note: sys::LIS_NOTE_OUT_OF_MEMORY, ..no_step() };
        }
        let reply = Some(step.reply).filter(|&byte| byte != 0);
        let is_due = reply.is_some() || step.has_text;
        Answer { receiver: self, step: step_of(&step), has_text: step.has_text, reply, is_due }
    }

    /// Whether the text that is complete is kept.
    fn keeps(&mut self, keep: &mut impl FnMut(&[u8]) -> bool) -> bool {
        self.copy_text() && keep(&self.text)
    }

    /// Copies the text that is complete; whether there is memory for it.
    fn copy_text(&mut self) -> bool {
        let receiver = self.block.get();
        let len = unsafe { sys::lis_receiver_text_len(receiver) };
        if !has_room(&mut self.text, len) {
            return false;
        }
        self.text.resize(len, 0);
        let status = unsafe { sys::lis_receiver_text(receiver, self.text.as_mut_ptr(), len) };
        status == sys::LIS_STATUS_OK
    }

    /// The receiver's timer ran out, 30 seconds after the last step that meant something.
    pub fn timer(&mut self) -> Step {
        let mut step = no_step();
        unsafe { sys::lis_receiver_timer(self.block.get(), &mut step) };
        step_of(&step)
    }

    /// Ends what is open: call it when a connection was lost, before the first byte of the next one.
    pub fn restart(&mut self) {
        unsafe { sys::lis_receiver_restart(self.block.get()) };
    }

    /// Says whether there is room for another frame from now on; without it a new frame is answered NAK.
    pub fn set_room(&mut self, room: bool) {
        unsafe { sys::lis_receiver_set_room(self.block.get(), room) };
    }

    /// Says whether it hears carefully from now on: then one damaged byte of a frame acknowledges nothing. An ENQ on an
    /// open line ends the session with no reply, and an STX inside an unfinished frame begins none.
    pub fn set_careful(&mut self, careful: bool) {
        unsafe { sys::lis_receiver_set_careful(self.block.get(), careful) };
    }

    /// How many of these ENQ and STX it has heard carefully.
    #[must_use]
    pub fn noise(&self) -> u64 {
        unsafe { sys::lis_receiver_noise(&self.block.handle()) }
    }

    /// Says how ENQ is answered from now on.
    ///
    /// # Errors
    ///
    /// None of these answers is rejected.
    pub fn set_ready(&mut self, ready: Ready) -> Result<(), Error> {
        let status = unsafe { sys::lis_receiver_set_ready(self.block.get(), ready.number()) };
        Error::of(status)
    }

    /// Makes room for so many more bytes of text, as much for the text after it, and as much for the copy that is kept:
    /// so while no text is longer, none takes memory.
    ///
    /// # Errors
    ///
    /// No text may have so many bytes, or there is no memory.
    pub fn reserve(&mut self, bytes: u64) -> Result<(), Error> {
        let status = unsafe { sys::lis_receiver_reserve(self.block.get(), bytes) };
        Error::of(status)?;
        let most = self.held() + bytes;
        reserved(&mut self.text, most)
    }

    /// Sets how many bytes a text may have, at most 1,048,576 as it is at first. A frame with which its text would
    /// have more is answered NAK and not taken: [`Note::TooLong`].
    ///
    /// # Errors
    ///
    /// No text may have so many bytes.
    pub fn set_text_limit(&mut self, bytes: usize) -> Result<(), Error> {
        let status = unsafe { sys::lis_receiver_set_text_limit(self.block.get(), bytes) };
        Error::of(status)
    }

    /// Whether the line is open, and so the receiver's timer runs.
    #[must_use]
    pub fn is_open(&self) -> bool {
        unsafe { sys::lis_receiver_is_open(&self.block.handle()) }
    }

    /// How many frames were accepted since the line was opened.
    #[must_use]
    pub fn accepted(&self) -> u64 {
        unsafe { sys::lis_receiver_accepted(&self.block.handle()) }
    }

    /// How many bytes are held of a text that isn't complete.
    #[must_use]
    pub fn held(&self) -> u64 {
        unsafe { sys::lis_receiver_held(&self.block.handle()) }
    }
}

/// Makes room for a text in the place of the one before it; whether there is memory for it. The room stays.
pub(crate) fn has_room(text: &mut Vec<u8>, len: usize) -> bool {
    text.clear();
    if text.capacity() < len {
        *text = Vec::new();
    }
    text.try_reserve_exact(len).is_ok()
}

/// The same for a text of at most so many bytes.
pub(crate) fn reserved(text: &mut Vec<u8>, bytes: u64) -> Result<(), Error> {
    let has_room = has_room(text, bytes.min(sys::LIS_LIMIT_TEXT_BYTES) as usize);
    Error::of(if has_room { sys::LIS_STATUS_OK } else { sys::LIS_STATUS_OUT_OF_MEMORY })
}

pub(crate) fn no_step() -> sys::lis_step {
    sys::lis_step { reply: 0, has_text: false, note: 0, detail: 0, place: 0 }
}

pub(crate) fn step_of(step: &sys::lis_step) -> Step {
    Step { note: Note::of(step.note), detail: step.detail, place: step.place }
}
