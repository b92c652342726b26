//! The station: both ways of one line.
use crate::frame::place_at_fault;
use crate::receiver::{has_room, no_step, reserved, step_of};
use crate::{block::Block, Bytes, Error, FrameLimit, Note, Outcome, Phase, Role, Step, Text};
use lislink_sys as sys;
use std::time::Duration;

/// A side of a line on which both sides send. The bytes that a call returns are to be sent; there may be none.
pub struct Station {
    block: Block<sys::lis_station>,
    limit: FrameLimit,
    // The text that is complete, and the bytes that are to be sent.
    text: Vec<u8>,
    send: Vec<u8>,
    // Whether a late reply may come.
    spent: bool,
}

/// An answer: keep its text, send its bytes, and call [`sent`](Self::sent). If that isn't called, nothing of it may go
/// out: when this is dropped the line is closed, or, if it was for the sender, its session is given up.
#[must_use = "keep the text, send the bytes, and then call `sent`; else the line is closed"]
pub struct StationAnswer<'a> {
    station: &'a mut Station,
    step: Option<Step>,
    has_text: bool,
    is_due: bool,
}

impl StationAnswer<'_> {
    /// What the bytes meant to the receiver; none if they were for the sender.
    #[must_use]
    pub fn step(&self) -> Option<Step> {
        self.step
    }

    /// Whether nothing happened: the timer runs on. After any other answer it starts again.
    #[must_use]
    pub fn is_quiet(&self) -> bool {
        self.step.is_some_and(|step| step.note == Note::Quiet)
    }

    /// The text that is complete, to be kept before anything is sent.
    #[must_use]
    pub fn text(&self) -> Option<&[u8]> {
        self.has_text.then_some(&self.station.text[..])
    }

    /// The bytes that are to be sent.
    #[must_use]
    pub fn send(&self) -> &[u8] {
        &self.station.send
    }

    /// Call it when the text was kept and the bytes were sent.
    pub fn sent(mut self) {
        self.is_due = false;
    }
}

impl Drop for StationAnswer<'_> {
    fn drop(&mut self) {
        match (self.is_due, self.step) {
            (false, _) => (),
            (true, Some(_)) => self.station.close_line(),
            (true, None) => self.station.give_up(),
        }
    }
}

impl Station {
    /// A station without a connection. With the long limit its calls need a thread with a stack of a megabyte.
    ///
    /// # Errors
    ///
    /// There is no memory for the long limit.
    pub fn new(role: Role, limit: FrameLimit) -> Result<Self, Error> {
        let mut block = Block::new();
        let status = unsafe { sys::lis_station_begin(block.get(), role.number(), limit.bytes()) };
        Error::of(status)?;
        Ok(Station { block, limit, text: Vec::new(), send: Vec::new(), spent: true })
    }

    /// Call it when a new connection was made; on a serial line, when you have waited longer than the other side takes
    /// to answer, and dropped what came. The station restarts.
    pub fn connected(&mut self) {
        self.restart();
        self.spent = false;
    }

    /// Asks for the line, to send these texts in one session: ENQ, to be sent. Only [`Outcome::Done`] says that all
    /// texts were acknowledged: keep them until then.
    ///
    /// # Errors
    ///
    /// The station is as before: [`Status::LineOpen`](crate::Status::LineOpen) while the other side has the line;
    /// [`Status::OldLine`](crate::Status::OldLine) before [`connected`](Self::connected) and, from when a session timed
    /// out or was given up, until `connected` is called again; a session goes on; or which text no session takes.
    pub fn start<T: AsRef<[u8]>>(
        &mut self,
        texts: impl IntoIterator<Item = T>,
    ) -> Result<Bytes, Error> {
        if self.spent {
            Error::of(sys::LIS_STATUS_OLD_LINE)?;
        }
        self.clear();
        let started = self.add_all(texts).and_then(|()| self.start_added());
        self.clear();
        started
    }

    /// Whether a late reply could meet the next ENQ, that of a start or the one after a wait: over a line that answers
    /// late, connect it again first.
    #[must_use]
    pub fn needs_new_line(&self) -> bool {
        self.spent || self.phase() != Phase::Neutral
    }

    /// As [`start`](Self::start), with texts that are there as long as the program: it takes no memory.
    ///
    /// # Errors
    ///
    /// Those of [`start`](Self::start), or there are more texts than a session takes.
    pub fn start_lent(&mut self, texts: &'static [Text<'static>]) -> Result<Bytes, Error> {
        if self.spent {
            Error::of(sys::LIS_STATUS_OLD_LINE)?;
        }
        let (mut out, mut fault) = (Bytes::none(), sys::lis_place { index: 0, place: 0 });
        let (station, first) = (self.block.get(), texts.as_ptr().cast());
        let status = unsafe {
            sys::lis_station_start_lent(station, first, texts.len(), out.get(), &mut fault)
        };
        Error::at_text(status, fault)?;
        Ok(out)
    }

    fn add_all<T: AsRef<[u8]>>(&mut self, texts: impl IntoIterator<Item = T>) -> Result<(), Error> {
        texts.into_iter().enumerate().try_for_each(|(index, text)| {
            let (station, text) = (self.block.get(), text.as_ref());
            let status = unsafe { sys::lis_station_add_text(station, text.as_ptr(), text.len()) };
            Error::at_text(status, sys::lis_place { index, place: place_at_fault(status, text) })
        })
    }

    fn start_added(&mut self) -> Result<Bytes, Error> {
        let (mut out, mut fault) = (Bytes::none(), sys::lis_place { index: 0, place: 0 });
        let status = unsafe { sys::lis_station_start(self.block.get(), out.get(), &mut fault) };
        Error::at_text(status, fault)?;
        Ok(out)
    }

    fn clear(&mut self) {
        unsafe { sys::lis_station_clear(self.block.get()) };
    }

    /// Hears bytes up to the first answer, or all of them if there is none, and takes them from the front of `bytes`.
    /// It may be sent later, as after an `await`; until then the station hears nothing more. If there is no memory for
    /// a text, the line is closed, and the note says so.
    pub fn next_answer(&mut self, bytes: &mut &[u8]) -> StationAnswer<'_> {
        let mut out = no_answer();
        if !bytes.is_empty() {
            let station = self.block.get();
            let heard =
                unsafe { sys::lis_station_hear(station, bytes.as_ptr(), bytes.len(), &mut out) };
            *bytes = &bytes[heard..];
        }
        if out.step.has_text && !self.copy_text() {
            self.close_line();
            let step = sys::lis_step { note: sys::LIS_NOTE_OUT_OF_MEMORY, ..no_step() };
            out = sys::lis_answer { step, ..no_answer() };
        }
        self.answer(&out)
    }

    /// The time of [`patience`](Self::patience) is over.
    pub fn timer(&mut self) -> StationAnswer<'_> {
        let (mut out, session) = (no_answer(), self.phase() != Phase::Neutral);
        unsafe { sys::lis_station_timer(self.block.get(), &mut out) };
        self.spent = self.spent || (session && self.outcome() == Outcome::TimedOut);
        self.answer(&out)
    }

    fn answer(&mut self, out: &sys::lis_answer) -> StationAnswer<'_> {
        self.send.clear();
        self.send.extend_from_slice(&out.send.bytes[..out.send.len]);
        // `lis_bytes` has no room for a long frame.
        if !out.is_step && self.send.is_empty() && self.limit == FrameLimit::Long {
            self.copy_frame();
        }
        let step = out.is_step.then(|| step_of(&out.step));
        let is_due = !self.send.is_empty() || out.step.has_text;
        StationAnswer { step, has_text: out.step.has_text, is_due, station: self }
    }

    /// The frame that awaits its reply, if one does.
    fn copy_frame(&mut self) {
        self.send.resize(sys::LIS_LIMIT_LONG_FRAME_BYTES as usize, 0);
        let (to, room, mut size) = (self.send.as_mut_ptr(), self.send.len(), 0);
        unsafe { sys::lis_station_frame(self.block.get(), to, room, &mut size) };
        self.send.truncate(size);
    }

    /// Copies the text that is complete; whether there is memory for it.
    fn copy_text(&mut self) -> bool {
        let station = self.block.get();
        let len = unsafe { sys::lis_station_text_len(station) };
        if !has_room(&mut self.text, len) {
            return false;
        }
        self.text.resize(len, 0);
        let status = unsafe { sys::lis_station_text(station, self.text.as_mut_ptr(), len) };
        status == sys::LIS_STATUS_OK
    }

    /// How long the timer runs before [`timer`](Self::timer) is due; none if no timer runs.
    #[must_use]
    pub fn patience(&self) -> Option<Duration> {
        let mut seconds = 0;
        let runs = unsafe { sys::lis_station_timer_seconds(&self.block.handle(), &mut seconds) };
        runs.then(|| Duration::from_secs(seconds.into()))
    }

    /// How long the line should be left to the other side, which waits for its turn; none if it doesn't wait.
    #[must_use]
    pub fn turn(&self) -> Option<Duration> {
        let seconds = unsafe { sys::lis_station_turn_seconds(&self.block.handle()) };
        (seconds > 0).then(|| Duration::from_secs(seconds.into()))
    }

    /// Whether the other side asked for its turn, by EOT in reply to a frame, and hasn't had it since.
    #[must_use]
    pub fn turn_asked(&self) -> bool {
        unsafe { sys::lis_station_turn_asked(&self.block.handle()) }
    }

    /// While the other side has the line: asks it to let this side send. The next frame that is accepted is answered
    /// EOT.
    pub fn ask_turn(&mut self) {
        unsafe { sys::lis_station_ask_turn(self.block.get()) };
    }

    /// Gives up its own session; nothing is sent.
    pub fn give_up(&mut self) {
        self.spent = self.spent || self.phase() != Phase::Neutral;
        unsafe { sys::lis_station_give_up(self.block.get()) };
    }

    /// Drops the other side's session: it is not heard until it asks for the line again.
    pub fn close_line(&mut self) {
        unsafe { sys::lis_station_close_line(self.block.get()) };
    }

    /// Does both, as when the connection is lost.
    pub fn restart(&mut self) {
        self.give_up();
        unsafe { sys::lis_station_restart(self.block.get()) };
    }

    /// Says whether the other side gets the line from now on: its ENQ is answered ACK, or NAK.
    pub fn set_ready(&mut self, ready: bool) {
        unsafe { sys::lis_station_set_ready(self.block.get(), ready) };
    }

    /// Says whether it hears carefully from now on what is for its receiver, as
    /// [`Receiver::set_careful`](crate::Receiver::set_careful).
    pub fn set_careful(&mut self, careful: bool) {
        unsafe { sys::lis_station_set_careful(self.block.get(), careful) };
    }

    /// As [`Receiver::noise`](crate::Receiver::noise).
    #[must_use]
    pub fn noise(&self) -> u64 {
        unsafe { sys::lis_station_noise(&self.block.handle()) }
    }

    /// As [`Receiver::reserve`](crate::Receiver::reserve).
    ///
    /// # Errors
    ///
    /// No text may have so many bytes, or there is no memory.
    pub fn reserve(&mut self, bytes: u64) -> Result<(), Error> {
        let status = unsafe { sys::lis_station_reserve(self.block.get(), bytes) };
        Error::of(status)?;
        let most = self.held() + bytes;
        reserved(&mut self.text, most)
    }

    /// Whether the next byte is a reply to its own ENQ or frame.
    #[must_use]
    pub fn awaits_reply(&self) -> bool {
        unsafe { sys::lis_station_awaits_reply(&self.block.handle()) }
    }

    /// What its sender waits for; neutral if no session of its own goes on.
    #[must_use]
    pub fn phase(&self) -> Phase {
        Phase::of(unsafe { sys::lis_station_phase(&self.block.handle()) })
    }

    /// How its own last session ended.
    #[must_use]
    pub fn outcome(&self) -> Outcome {
        Outcome::of(unsafe { sys::lis_station_outcome(&self.block.handle()) })
    }

    /// How many frames of its own session are acknowledged.
    #[must_use]
    pub fn acknowledged(&self) -> u64 {
        unsafe { sys::lis_station_acknowledged(&self.block.handle()) }
    }

    /// Whether the other side has the line.
    #[must_use]
    pub fn is_open(&self) -> bool {
        unsafe { sys::lis_station_is_open(&self.block.handle()) }
    }

    /// How many frames were accepted since the other side got the line.
    #[must_use]
    pub fn accepted(&self) -> u64 {
        unsafe { sys::lis_station_accepted(&self.block.handle()) }
    }

    /// How many bytes are held of a text that isn't complete.
    #[must_use]
    pub fn held(&self) -> u64 {
        unsafe { sys::lis_station_held(&self.block.handle()) }
    }
}

/// The answer to no byte: the receiver's, quiet.
fn no_answer() -> sys::lis_answer {
    let send = sys::lis_bytes { len: 0, bytes: [0; 247] };
    sys::lis_answer { is_step: true, send, step: no_step() }
}
