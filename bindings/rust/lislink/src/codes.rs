//! The families of constants.
use lislink_sys as sys;
use std::ffi::{c_char, CStr};
use std::fmt;

/// The words of a constant, which the library has for good.
pub(crate) fn words(at: *const c_char) -> &'static str {
    unsafe { CStr::from_ptr(at) }.to_str().unwrap_or("unknown")
}

macro_rules! family {
    ($(#[$doc:meta])* $name:ident, $text:ident: $($(#[$line:meta])* $variant:ident = $constant:ident,)*) => {
        $(#[$doc])*
        #[derive(Clone, Copy, Debug, PartialEq, Eq, Hash)]
        #[non_exhaustive]
        pub enum $name {
            $(#[doc = concat!("`", stringify!($constant), "`:")] $(#[$line])* $variant,)*
            /// A number that a later library has.
            Other(u8),
        }

        impl $name {
            /// The constant of this number.
            pub fn of(number: u8) -> Self {
                match number {
                    $(sys::$constant => Self::$variant,)*
                    number => Self::Other(number),
                }
            }

            /// The number of the C constant.
            pub fn number(self) -> u8 {
                match self {
                    $(Self::$variant => sys::$constant,)*
                    Self::Other(number) => number,
                }
            }
        }

        impl fmt::Display for $name {
            fn fmt(&self, f: &mut fmt::Formatter<'_>) -> fmt::Result {
                f.write_str(words(unsafe { sys::$text(self.number()) }))
            }
        }
    };
}

// From here on made by tools/codes.

family! {
    /// What a call that may fail returns.
    Status, lis_status_text:
    /// The call did what it is for.
    Ok = LIS_STATUS_OK,
    /// A session is going on.
    InSession = LIS_STATUS_IN_SESSION,
    /// There is no text to send.
    NoText = LIS_STATUS_NO_TEXT,
    /// There are more bytes than the limit allows.
    TooLong = LIS_STATUS_TOO_LONG,
    /// The text has a byte that no text may hold: in a frame and a session 1 to 6, 10 and 16 to 23; in a
    /// record any below 32 but 7, 9, 11 and 12, 127 and 255.
    Forbidden = LIS_STATUS_FORBIDDEN,
    /// There are as many texts as a session may have.
    Full = LIS_STATUS_FULL,
    /// There is no memory for it.
    OutOfMemory = LIS_STATUS_OUT_OF_MEMORY,
    /// The number is not one of those that are known.
    BadNumber = LIS_STATUS_BAD_NUMBER,
    /// The buffer is too short.
    TooShort = LIS_STATUS_TOO_SHORT,
    /// The text has no byte; or no record is begun, or none was found last.
    NoRecord = LIS_STATUS_NO_RECORD,
    /// The byte is no letter of such a record, or no field delimiter follows it.
    BadLetter = LIS_STATUS_BAD_LETTER,
    /// The bytes are no four delimiters.
    BadDelimiters = LIS_STATUS_BAD_DELIMITERS,
    /// There is no such part, frame or text.
    Absent = LIS_STATUS_ABSENT,
    /// A message, a record or a field isn't ended; or a fault came before.
    Unfinished = LIS_STATUS_UNFINISHED,
    /// Outside a message a header comes first.
    PutNotHeader = LIS_STATUS_PUT_NOT_HEADER,
    /// An order belongs under a patient, a result under an order.
    PutNoParent = LIS_STATUS_PUT_NO_PARENT,
    /// The message already has its header.
    PutSecondHeader = LIS_STATUS_PUT_SECOND_HEADER,
    /// A session was started without a connection, or on one where a session failed.
    OldLine = LIS_STATUS_OLD_LINE,
    /// A session of a station was started while the other side has the line.
    LineOpen = LIS_STATUS_LINE_OPEN,
}

family! {
    /// What is wrong with a frame: the first that applies.
    Fault, lis_fault_text:
    /// Nothing.
    None = LIS_FAULT_NONE,
    /// It has more bytes than a frame may have.
    TooLong = LIS_FAULT_TOO_LONG,
    /// There are no end byte, checksum, CR and LF in their places.
    Shape = LIS_FAULT_SHAPE,
    /// Its number is no digit from 0 to 7.
    Number = LIS_FAULT_NUMBER,
    /// Its text has a byte that no text may hold.
    Forbidden = LIS_FAULT_FORBIDDEN,
    /// Its checksum does not match.
    Sum = LIS_FAULT_SUM,
}

family! {
    /// What a sender waits for, and the timer that runs meanwhile.
    Phase, lis_phase_text:
    /// Nothing: no session goes on, and no timer runs.
    Neutral = LIS_PHASE_NEUTRAL,
    /// ENQ was sent, and its reply is awaited for LIS_SECONDS_REPLY.
    AwaitLine = LIS_PHASE_AWAIT_LINE,
    /// The computer is busy; ENQ is sent again after LIS_SECONDS_BUSY.
    Busy = LIS_PHASE_BUSY,
    /// The computer sent ENQ too; ENQ is sent again after LIS_SECONDS_CONTENTION.
    Contention = LIS_PHASE_CONTENTION,
    /// A frame was sent, and its reply is awaited for LIS_SECONDS_REPLY.
    AwaitReply = LIS_PHASE_AWAIT_REPLY,
}

family! {
    /// How a session ended. Only [`Outcome::Done`] says that all texts were acknowledged.
    Outcome, lis_outcome_text:
    /// There was no session yet, or one is going on.
    None = LIS_OUTCOME_NONE,
    /// Each text was acknowledged.
    Done = LIS_OUTCOME_DONE,
    /// No reply came in time.
    TimedOut = LIS_OUTCOME_TIMED_OUT,
    /// A frame was answered otherwise than by ACK or EOT six times.
    SixTries = LIS_OUTCOME_SIX_TRIES,
    /// It was restarted, for example by `Sender::restart`.
    Restarted = LIS_OUTCOME_RESTARTED,
}

family! {
    /// What a byte or the timer meant.
    Note, lis_note_text:
    /// Nothing yet.
    Quiet = LIS_NOTE_QUIET,
    /// ENQ: a session begins, and what was held of an earlier text is dropped.
    Opened = LIS_NOTE_OPENED,
    /// ENQ came, and was answered as `Receiver::set_ready` set.
    NotReady = LIS_NOTE_NOT_READY,
    /// EOT: the session is over.
    Ended = LIS_NOTE_ENDED,
    /// A frame was taken; detail: its number.
    Accepted = LIS_NOTE_ACCEPTED,
    /// A frame came again that was taken before; detail: its number.
    Duplicate = LIS_NOTE_DUPLICATE,
    /// A frame came that isn't the next one; detail: its number.
    OutOfTurn = LIS_NOTE_OUT_OF_TURN,
    /// A bad frame; detail: a [`Fault`]; place: the forbidden byte's.
    Refused = LIS_NOTE_REFUSED,
    /// There is no room for a frame, as set by `Receiver::set_room`.
    NoRoom = LIS_NOTE_NO_ROOM,
    /// The text would have over LIS_LIMIT_TEXT_BYTES, or over the receiver's limit.
    TooLong = LIS_NOTE_TOO_LONG,
    /// 4,294,967,295 frames were accepted in this session.
    TooMany = LIS_NOTE_TOO_MANY,
    /// The frame is answered NAK and not taken.
    OutOfMemory = LIS_NOTE_OUT_OF_MEMORY,
    /// The line is closed, and what was held is dropped.
    TimedOut = LIS_NOTE_TIMED_OUT,
}

family! {
    /// How ENQ is answered.
    Ready, lis_ready_text:
    /// ACK.
    Yes = LIS_READY_YES,
    /// NAK.
    Busy = LIS_READY_BUSY,
    /// ENQ, as a computer does that wants to send first.
    Contending = LIS_READY_CONTENDING,
}

family! {
    /// Which side a station is. If both sides ask for the line at once, the computer waits for the analyzer's
    /// session.
    Role, lis_role_text:
    /// The analyzer's.
    Analyzer = LIS_ROLE_ANALYZER,
    /// The computer's.
    Computer = LIS_ROLE_COMPUTER,
}

family! {
    /// Why a record can't be read.
    Reason, lis_reason_text:
    /// It can be read.
    None = LIS_REASON_NONE,
    /// Its text is no record; detail: a [`Status`]; place: the forbidden byte's.
    BadRecord = LIS_REASON_BAD_RECORD,
    /// Outside a message a header comes first.
    NotHeader = LIS_REASON_NOT_HEADER,
    /// It has no parent in the message; detail: its letter.
    NoParent = LIS_REASON_NO_PARENT,
    /// The message already has its header.
    SecondHeader = LIS_REASON_SECOND_HEADER,
    /// The stream ended before the message or the record did.
    Unfinished = LIS_REASON_UNFINISHED,
    /// It has over LIS_LIMIT_RECORD_BYTES.
    TooLong = LIS_REASON_TOO_LONG,
    /// There was no memory for bytes that are held.
    OutOfMemory = LIS_REASON_OUT_OF_MEMORY,
}
