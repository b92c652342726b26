//! Receives in an `async` function: keeping a text and sending its reply are both awaited. later PORT FILE; PORT 0 is
//! one that is free, and is printed. An error between the two drops the answer, so the receiver restarts, and no reply
//! goes out.
//!
//! The futures here are ready at once. With a runtime as tokio, `read` is `timeout(PAUSE, line.read(bytes))`, `send`
//! is `line.write_all`, and `keep` is what `spawn_blocking` runs; `receive` stays as it is.

mod port;

use lislink::Receiver;
use port::TextFile;
use std::future::Future;
use std::io::{self, ErrorKind, Read, Write};
use std::net::TcpStream;
use std::pin::pin;
use std::task::{Context, Poll, Waker};
use std::time::{Duration, Instant};

/// A reply that goes out later could come after the analyzer's timer, which is 15 seconds.
const LATE: Duration = Duration::from_secs(10);

/// A line of some runtime.
trait Line {
    /// How many bytes came; none if nothing came for a while.
    async fn read(&mut self, bytes: &mut [u8]) -> io::Result<Option<usize>>;
    async fn send(&mut self, reply: u8) -> io::Result<()>;
}

impl Line for TcpStream {
    async fn read(&mut self, bytes: &mut [u8]) -> io::Result<Option<usize>> {
        match Read::read(self, bytes) {
            Ok(got) => Ok(Some(got)),
            Err(fault) => match fault.kind() {
                ErrorKind::WouldBlock | ErrorKind::TimedOut | ErrorKind::Interrupted => Ok(None),
                _ => Err(fault),
            },
        }
    }

    async fn send(&mut self, reply: u8) -> io::Result<()> {
        self.write_all(&[reply])
    }
}

async fn keep(store: &mut TextFile, text: &[u8]) -> io::Result<()> {
    store.keep(text)
}

/// Keeps each text and replies, until the line is closed.
async fn receive(line: &mut impl Line, store: &mut TextFile) -> io::Result<()> {
    let (mut receiver, mut room) = (Receiver::new(), [0; 4096]);
    receiver.set_careful(true); // a damaged byte acknowledges nothing
    let mut seen_empty = Instant::now(); // bytes came after this
    loop {
        let before = Instant::now();
        let Some(got) = line.read(&mut room).await? else {
            seen_empty = before;
            continue;
        };
        if got == 0 {
            return Ok(());
        }
        let mut bytes = &room[..got];
        while !bytes.is_empty() {
            let answer = receiver.next_step(&mut bytes);
            if let Some(text) = answer.text() {
                keep(store, text).await?;
            }
            match answer.reply() {
                Some(_) if seen_empty.elapsed() > LATE => break, // the analyzer sends this session again
                Some(reply) => line.send(reply).await?,
                None => (),
            }
            answer.sent();
        }
        if got < room.len() {
            seen_empty = before;
        }
    }
}

/// Runs a future to its end: a runtime's part.
fn block_on<T>(future: impl Future<Output = T>) -> T {
    let (mut future, mut context) = (pin!(future), Context::from_waker(Waker::noop()));
    loop {
        if let Poll::Ready(done) = future.as_mut().poll(&mut context) {
            return done;
        }
    }
}

fn main() -> io::Result<()> {
    let (mut line, mut store) = port::line_and_store("later")?;
    block_on(receive(&mut line, &mut store))
}
