//! Sends the records of a file to a host in one session: send HOST:PORT FILE. It fails unless the host acknowledged
//! each of them. The connection is new, so no late reply can come over it; another try makes another one.

use lislink::{Outcome, Phase, Sender};
use std::io::{self, ErrorKind, Read, Write};
use std::net::TcpStream;
use std::process::ExitCode;
use std::time::{Duration, Instant};

/// How often ENQ is sent to a computer that is busy.
const MOST_TRIES: usize = 3;

/// Waits for a byte; none if none came in time.
fn byte_until(line: &mut TcpStream, due: Instant) -> io::Result<Option<u8>> {
    let (mut byte, left) = ([0], due.saturating_duration_since(Instant::now()));
    line.set_read_timeout(Some(left.max(Duration::from_millis(1))))?;
    match line.read(&mut byte) {
        Ok(0) => Err(ErrorKind::UnexpectedEof.into()),
        Ok(_) => Ok(Some(byte[0])),
        Err(fault) => match fault.kind() {
            ErrorKind::WouldBlock | ErrorKind::TimedOut | ErrorKind::Interrupted => Ok(None),
            _ => Err(fault),
        },
    }
}

/// Sends what is due, and hears the replies, until the session is over.
fn run(line: &mut TcpStream, sender: &mut Sender) -> io::Result<()> {
    let connection = sender.connected();
    let mut out = sender.start().map_err(io::Error::other)?.to_vec();
    let mut tries = 1;
    loop {
        line.write_all(&out)?;
        let Some(patience) = sender.patience() else {
            return Ok(()); // the session is over
        };
        let (due, phase) = (Instant::now() + patience, sender.phase());
        out.clear();
        while out.is_empty() && sender.phase() == phase {
            out = match byte_until(line, due)? {
                Some(byte) => sender.reply(connection, byte).to_vec(),
                None if Instant::now() < due => continue,
                None => sender.timer().to_vec(),
            };
        }
        tries += usize::from(phase == Phase::Busy);
        if tries > MOST_TRIES {
            return Err(io::Error::other("the computer is busy"));
        }
    }
}

/// Sends a file; whether all of it was acknowledged.
fn send(place: &str, path: &str) -> io::Result<bool> {
    let mut sender = Sender::new();
    for record in std::fs::read(path)?.split_inclusive(|byte| *byte == b'\r') {
        sender.add(record).map_err(io::Error::other)?;
    }
    run(&mut TcpStream::connect(place)?, &mut sender)?;
    println!("{}, frames: {}", sender.outcome(), sender.acknowledged());
    Ok(sender.outcome() == Outcome::Done)
}

fn main() -> ExitCode {
    let words: Vec<String> = std::env::args().collect();
    let [_, place, path] = words.as_slice() else {
        eprintln!("usage: send HOST:PORT FILE");
        return ExitCode::from(2);
    };
    match send(place, path) {
        Ok(true) => ExitCode::SUCCESS,
        Ok(false) => ExitCode::FAILURE,
        Err(fault) => {
            eprintln!("send: {fault}");
            ExitCode::FAILURE
        }
    }
}
