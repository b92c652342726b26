//! How a sample that receives opens its port, of this machine alone, and its file, and how it reads.

use std::fs::{File, OpenOptions};
use std::io::{self, ErrorKind, Read, Write};
use std::net::{TcpListener, TcpStream};
use std::os::unix::fs::{FileExt, OpenOptionsExt};
use std::time::{Duration, Instant};

/// How long a read waits: a line that is idle is looked at so often.
pub const PAUSE: Duration = Duration::from_secs(1);

/// The most bytes of a text.
const LONGEST: u64 = 1 << 20;

/// A file of texts, each with its CR, which one program at a time writes. Half of a text doesn't stay in it, since the
/// next text would be read as its rest: `^^^GLU|1` and `H|\^&` are a glucose of 1H.
pub struct TextFile {
    file: File,
    /// Where its last whole text ends.
    end: u64,
}

impl TextFile {
    /// Opens the file, and cuts off half a text that a power failure left after its last CR. An error if another
    /// program writes the file, or a line feed is there: then it is no file of texts.
    pub fn open(path: &str) -> io::Result<Self> {
        let mut how = OpenOptions::new();
        let file = how.read(true).append(true).create(true).mode(0o600).open(path)?;
        file.try_lock()?;
        let size = file.metadata()?.len();
        let begin = size.saturating_sub(LONGEST);
        let mut last = vec![0; (size - begin) as usize];
        file.read_exact_at(&mut last, begin)?;
        let half = last.rsplit(|byte| *byte == b'\r').next().unwrap_or_default();
        if half.contains(&b'\n') || half.len() as u64 == LONGEST {
            return Err(io::Error::other(format!("{path} is no file of texts")));
        }
        if !half.is_empty() {
            eprintln!("{path}: half a text of {} bytes is cut off", half.len());
        }
        let kept = TextFile { end: size - half.len() as u64, file };
        kept.cut_back()?;
        Ok(kept)
    }

    /// Drops what follows the last whole text.
    fn cut_back(&self) -> io::Result<()> {
        if self.file.metadata()?.len() == self.end {
            return Ok(());
        }
        self.file.set_len(self.end)?;
        self.file.sync_all()
    }

    /// Appends a text, with a CR if it has none, and returns once it is on the disk. After an error the file is as it
    /// was, or nothing is kept in it until it can be cut back.
    pub fn keep(&mut self, text: &[u8]) -> io::Result<()> {
        self.cut_back()?;
        let whole = with_cr(text);
        match self.file.write_all(&whole).and_then(|()| self.file.sync_all()) {
            Ok(()) => {
                self.end += whole.len() as u64;
                Ok(())
            }
            Err(fault) => self.cut_back().and(Err(fault)),
        }
    }
}

/// A text with its CR, which ends a record; an empty one has none.
pub fn with_cr(text: &[u8]) -> Vec<u8> {
    let mut whole = text.to_vec();
    if text.last().is_some_and(|byte| *byte != b'\r') {
        whole.push(b'\r');
    }
    whole
}

/// Reads what came, nothing at the end. It came after `empty`, when the line was last seen empty; what the next read
/// gives came after the time that is answered.
#[allow(dead_code)] // later.rs and answer_query.rs read in another way
pub fn read_some(
    line: &mut TcpStream,
    bytes: &mut [u8],
    empty: &mut Instant,
) -> io::Result<(usize, Instant)> {
    loop {
        let before = Instant::now();
        match line.read(bytes) {
            Ok(got) if got < bytes.len() => return Ok((got, before)),
            Ok(got) => return Ok((got, *empty)), // a full buffer may have left some
            Err(fault) => match fault.kind() {
                ErrorKind::WouldBlock | ErrorKind::TimedOut => *empty = before, // there was nothing yet
                ErrorKind::Interrupted => (),
                _ => return Err(fault),
            },
        }
    }
}

/// The line of the first analyzer that connects, and the file for its texts, by the program's words: NAME PORT FILE.
/// PORT 0 is one that is free, and is printed.
pub fn line_and_store(name: &str) -> io::Result<(TcpStream, TextFile)> {
    let words: Vec<String> = std::env::args().collect();
    let [_, port, path] = words.as_slice() else {
        return Err(io::Error::other(format!("usage: {name} PORT FILE")));
    };
    let port: u16 = port.parse().map_err(io::Error::other)?;
    let store = TextFile::open(path)?;
    let server = TcpListener::bind(("127.0.0.1", port))?;
    if port == 0 {
        println!("port {}", server.local_addr()?.port());
    }
    let (line, _) = server.accept()?;
    line.set_read_timeout(Some(PAUSE))?;
    Ok((line, store))
}
