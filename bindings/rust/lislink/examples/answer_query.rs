//! A computer that answers queries on a TCP port: appends each text to a file before it is acknowledged, and sends the
//! orders for the samples that an analyzer asked for (Q), in a session of its own. answer_query PORT FILE; PORT 0 is
//! one that is free, and is printed.
//!
//! The line is given up, for a new connection, where a session of its own failed or a reply would be late.

mod port;

use lislink::{FrameLimit, Note, Outcome, Phase, Reader, Role, Station, StationAnswer, Writer};
use port::{TextFile, PAUSE};
use std::io::{self, ErrorKind, Read, Write};
use std::net::TcpStream;
use std::time::{Duration, Instant};

/// A reply that goes out later could come after the analyzer's timer, which is 15 seconds.
const LATE: Duration = Duration::from_secs(10);

/// The samples that the queries of a session are for, up to a record that can't be read.
fn asked_for(texts: &[u8]) -> Vec<Vec<u8>> {
    let mut reader = Reader::new();
    let records = reader.feed(texts).map_while(Result::ok);
    let queries = records.filter(|record| record.letter() == 'Q');
    let samples = queries.filter_map(|record| record.part(3, 0, 1).map(|it| it.into_owned()));
    samples.filter(|sample| !sample.is_empty()).collect()
}

/// The texts of a message with an order of glucose for each sample.
fn orders(samples: &[Vec<u8>]) -> Result<Vec<Vec<u8>>, lislink::Error> {
    let mut writer = Writer::new();
    writer.record(b'H')?.put()?;
    for (number, sample) in (1..).zip(samples) {
        writer.record(b'P')?.field(format!("{number}").as_bytes())?.put()?;
        let order = writer.record(b'O')?.field(b"1")?.field(sample)?.field(b"")?;
        order.component(b"")?.component(b"")?.component(b"")?.field(b"GLU")?.put()?;
    }
    writer.record(b'L')?.field(b"1")?.field(b"F")?.put()?;
    Ok(writer.texts().collect())
}

/// The computer's side of one line.
struct Computer {
    line: TcpStream,
    store: TextFile,
    texts: Vec<u8>,
    samples: Vec<Vec<u8>>,
    is_sending: bool,
    due: Option<Instant>,
    free_at: Option<Instant>,
}

impl Computer {
    /// Keeps an answer's text, and then sends its bytes.
    fn take(&mut self, answer: StationAnswer<'_>) -> io::Result<()> {
        if let Some(text) = answer.text() {
            self.store.keep(text)?; // keep, then send: after an error nothing goes out
            self.texts.extend_from_slice(text);
        }
        self.line.write_all(answer.send())?;
        match answer.step().map(|step| step.note) {
            Some(Note::Opened) => self.texts.clear(), // a session that failed comes again, whole
            Some(Note::Ended) => self.samples.extend(asked_for(&self.texts)),
            _ => (),
        }
        answer.sent();
        Ok(())
    }

    /// Hears what came after a time; whether the line can be used on.
    fn hear(
        &mut self,
        station: &mut Station,
        mut bytes: &[u8],
        since: Instant,
    ) -> io::Result<bool> {
        while !bytes.is_empty() {
            let answer = station.next_answer(&mut bytes);
            if since.elapsed() > LATE {
                return Ok(false);
            }
            let is_quiet = answer.is_quiet();
            self.take(answer)?;
            if !is_quiet {
                self.run_timer(station);
            }
        }
        Ok(true)
    }

    fn run_timer(&mut self, station: &Station) {
        self.due = station.patience().map(|seconds| Instant::now() + seconds);
    }

    /// Looks how a session of its own ended; whether the line can be used on.
    fn settle(&mut self, station: &Station) -> bool {
        if !self.is_sending || station.phase() != Phase::Neutral {
            return true;
        }
        self.is_sending = false;
        self.free_at = station.turn().map(|seconds| Instant::now() + seconds);
        station.outcome() == Outcome::Done
    }

    /// Sends the orders, if there are any, the line is free, and the analyzer doesn't wait for its turn.
    fn start(&mut self, station: &mut Station) -> io::Result<()> {
        let free_at = self.free_at.filter(|_| station.turn().is_some());
        let is_free = free_at.is_none_or(|at| Instant::now() >= at) && !station.is_open();
        if self.samples.is_empty() || self.is_sending || !is_free {
            return Ok(());
        }
        let texts = orders(&self.samples).map_err(io::Error::other)?;
        let enq = station.start(&texts).map_err(io::Error::other)?;
        self.line.write_all(&enq)?;
        self.samples.clear();
        self.is_sending = true;
        self.run_timer(station);
        Ok(())
    }

    /// How many bytes came; none if nothing came for a while.
    fn read(&mut self, bytes: &mut [u8]) -> io::Result<Option<usize>> {
        let left = self.due.map(|due| due.saturating_duration_since(Instant::now()));
        let wait = left.unwrap_or(PAUSE).clamp(Duration::from_millis(1), PAUSE);
        self.line.set_read_timeout(Some(wait))?;
        match self.line.read(bytes) {
            Ok(got) => Ok(Some(got)),
            Err(fault) => match fault.kind() {
                ErrorKind::WouldBlock | ErrorKind::TimedOut | ErrorKind::Interrupted => Ok(None),
                _ => Err(fault),
            },
        }
    }

    /// Hears and sends until the line is closed or given up.
    fn run(&mut self, station: &mut Station) -> io::Result<()> {
        let (mut room, mut seen_empty) = ([0; 4096], Instant::now()); // bytes came after this
        while self.settle(station) {
            self.start(station)?;
            let before = Instant::now();
            let came = self.read(&mut room)?;
            let got = came.unwrap_or(0);
            if came == Some(0) || !self.hear(station, &room[..got], seen_empty)? {
                return Ok(());
            }
            if got < room.len() {
                seen_empty = before;
            }
            if self.due.is_some_and(|due| Instant::now() >= due) {
                self.take(station.timer())?;
                self.run_timer(station);
            }
        }
        Ok(())
    }
}

fn main() -> io::Result<()> {
    let (line, store) = port::line_and_store("answer_query")?;
    let (texts, samples) = (Vec::new(), Vec::new());
    let mut computer =
        Computer { line, store, texts, samples, is_sending: false, due: None, free_at: None };
    let mut station = Station::new(Role::Computer, FrameLimit::Usual).map_err(io::Error::other)?;
    station.set_careful(true); // a damaged byte acknowledges nothing
    station.connected();
    computer.run(&mut station)
}
