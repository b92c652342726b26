//! Both ends, analyzer and host, of the laboratory link of CLSI LIS01-A2 (ASTM E1381), and the records of CLSI
//! LIS02-A2 (ASTM E1394), over the C calls of liblislink. The C calls are proved; this crate is tested and not proved.
//!
//! - A [`Receiver`] hears bytes. [`Receiver::hear`] has each text stored before it gives the reply that acknowledges it.
//! - A [`Sender`] sends texts. A session starts only on a [`Connection`] on which no late reply can come.
//! - A [`Station`] does both, on a line on which both sides send.
//! - A [`Reader`] reads the records of a stream, a [`Writer`] writes them, a [`Scanner`] reads only frames.
//! - A [`Message`] has the records of a message where they are in its text, each with the one that it is under.
//!
//! Nothing here does input or output or has a clock: the caller moves the bytes and runs the timers. Each of these is
//! `Send` and not `Sync`: one thread at a time uses it.
//!
//! A loop that receives stores each text before the reply goes out:
//!
//! ```
//! use lislink::{Heard, Receiver};
//! use std::io::{Read, Write};
//!
//! fn receive(mut line: impl Read + Write, mut store: impl Write) -> std::io::Result<()> {
//!     let mut receiver = Receiver::new();
//!     receiver.set_careful(true); // one damaged byte acknowledges nothing
//!     let mut bytes = [0; 512];
//!     loop {
//!         let got = line.read(&mut bytes)?;
//!         if got == 0 {
//!             return Ok(());
//!         }
//!         let keep = |text: &[u8]| store.write_all(text).and_then(|()| store.flush()).is_ok();
//!         let send = |reply| line.write_all(&[reply]).is_ok();
//!         if receiver.hear(&bytes[..got], keep, send) == Heard::GaveUp {
//!             eprintln!("no reply was sent: the analyzer sends this session again");
//!         }
//!     }
//! }
//! ```
//!
//! [`Receiver::hear_since`] does the same and sends no reply that could be late. A program also calls
//! [`Receiver::timer`] when the line is open and no note but quiet came for 30 seconds.
#![deny(missing_docs)]
#![warn(missing_debug_implementations)]
#![warn(clippy::missing_errors_doc, clippy::must_use_candidate)]

mod block;
mod codes;
mod frame;
mod message;
mod reader;
mod receiver;
mod sender;
mod station;
mod writer;

pub use codes::{Fault, Note, Outcome, Phase, Ready, Reason, Role, Status};
pub use frame::{frame, long_frame, Bytes, FrameLimit, Scanner, Signal};
pub use message::{Entry, Message, ResultEntry};
pub use reader::{MessageError, Part, Reader, Record, Records};
pub use receiver::{Answer, Heard, Receiver, Step};
pub use sender::{Connection, Sender, Text};
pub use station::{Station, StationAnswer};
pub use writer::{Delimiters, Writer};

use std::fmt;

/// `Debug` prints the name of an owner alone: what it has are patients' texts.
macro_rules! opaque {
    ($($name:literal: $type:ty),*) => {
        $(impl fmt::Debug for $type {
            fn fmt(&self, f: &mut fmt::Formatter<'_>) -> fmt::Result {
                f.debug_struct($name).finish_non_exhaustive()
            }
        })*
    };
}

opaque!("Scanner": Scanner, "Sender": Sender<'_>, "Receiver": Receiver, "Station": Station);
opaque!("Reader": Reader, "Writer": Writer, "Records": Records<'_>, "Text": Text<'_>);
opaque!("Answer": Answer<'_>, "StationAnswer": StationAnswer<'_>);

/// Why a call did nothing: its status, and which text, field or byte is at fault (0 if none is). It prints the status
/// in words and, if the call has it, the place.
#[derive(Clone, Copy, Debug, PartialEq, Eq)]
pub struct Error {
    /// What the C call returned.
    pub status: Status,
    /// The text of a session, from 0, or the field of a record.
    pub index: usize,
    /// The byte of the text that no text may hold, from 0.
    pub place: usize,
    at: At,
}

/// What a call has the place of.
#[derive(Clone, Copy, Debug, PartialEq, Eq)]
enum At {
    Nothing,
    Byte,
    Text,
    Field,
}

impl Error {
    fn of(status: u8) -> Result<(), Error> {
        Error::at(At::Nothing, status, 0, 0)
    }

    /// Of a call on one text.
    fn at_byte(status: u8, place: usize) -> Result<(), Error> {
        Error::at(At::Byte, status, 0, place)
    }

    /// Of the start of a session.
    fn at_text(status: u8, fault: lislink_sys::lis_place) -> Result<(), Error> {
        Error::at(At::Text, status, fault.index, fault.place)
    }

    /// Of a record that is put.
    fn at_field(status: u8, field: usize) -> Result<(), Error> {
        Error::at(At::Field, status, field, 0)
    }

    fn at(at: At, status: u8, index: usize, place: usize) -> Result<(), Error> {
        match Status::of(status) {
            Status::Ok => Ok(()),
            status => Err(Error { status, index, place, at }),
        }
    }
}

impl fmt::Display for Error {
    fn fmt(&self, f: &mut fmt::Formatter<'_>) -> fmt::Result {
        let Error { status, index, place, at } = *self;
        status.fmt(f)?;
        match (at, status) {
            (At::Byte, Status::Forbidden) => write!(f, ", byte {place} from 0"),
            (At::Text, Status::Forbidden) => write!(f, ", text {index}, byte {place} from 0"),
            (At::Text, Status::TooLong) => write!(f, ", text {index} from 0"),
            (At::Field, _) if index > 0 => write!(f, ", field {index}"),
            _ => Ok(()),
        }
    }
}

impl std::error::Error for Error {}

/// The release of the library.
#[must_use]
pub fn version() -> &'static str {
    codes::words(unsafe { lislink_sys::lis_version() })
}
