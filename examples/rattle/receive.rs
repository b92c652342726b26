//! Receives from an analyzer whose line is standard input and output: receive FILE. Each text is in the file before it
//! is acknowledged. It is Rattle, the main.rt of a crate; no timer runs here.
#![tactic(auto)]

use lis_link::{Receiver, Step};
use std::alloc::Global;
use std::env;
use std::fs::File;
use std::io::{self, Read, Write};
use std::mem::drop;

const CR: u8 = 0x0d;

const LF: u8 = 0x0a;

fn main(rt: HostRuntime) -> io::Result<()> {
    let Some(path) = env::args(&rt)?.nth(1) else {
        return eprintln!(rt; "usage: receive FILE");
    };
    let mut store = File::options()
        .read(true)
        .append(true)
        .create(true)
        .open(&rt, path.as_str())?;
    cut_back(rt.alloc(), &mut store)?;
    let mut receiver = Receiver::new(rt.alloc());
    let mut line = rt.reader();
    let mut replies = io::writer(&rt);
    let mut buffer = [0u8; 256];
    for _ in 0..u64::MAX {
        let taken = line.read(&mut buffer)?;
        if taken == 0 {
            break;
        }
        for byte in &buffer[..taken] {
            if let Some(reply) = heard(&mut receiver, *byte, &mut store)? {
                replies.write_all(&[reply])?;
            }
        }
    }
    drop(receiver);
    Ok(())
}

/// Hears a byte, and keeps the text that it completes; the reply that is to be sent.
fn heard(receiver: &mut Receiver, byte: u8, store: &mut File) -> io::Result<Option<u8>> {
    let Step { reply, message, .. } = receiver.byte(byte);
    let Some(text) = message else {
        return Ok(reply);
    };
    if keep(store, text.as_slice())? {
        return Ok(reply);
    }
    receiver.restart(); // no reply: the analyzer still has the text, and sends it again
    Ok(None)
}

/// Cuts off half a text that a power failure left after the last CR.
fn cut_back(alloc: Global, store: &mut File) -> io::Result<()> {
    if store.metadata()?.len() == 0 {
        return Ok(());
    }
    let mut kept = Vec::new(alloc);
    store.read_to_end(&mut kept)?;
    let end = match kept.iter().rposition(|byte| *byte == CR) {
        Some(place) => place + 1,
        None => 0,
    };
    if kept[end..].contains(&LF) {
        return Err(io::ErrorKind::InvalidData.into()); // it is no file of texts
    }
    if end < kept.len() {
        store.set_len(end as u64)?;
    }
    Ok(())
}

/// Appends a text to a file, or leaves the file as it was; whether it is on the disk.
fn keep(store: &mut File, text: &[u8]) -> io::Result<bool> {
    let before = store.metadata()?.len();
    if store.write_all(text).is_ok() && store.sync_all().is_ok() {
        return Ok(true);
    }
    if store.metadata()?.len() > before {
        store.set_len(before)?; // half a text would stay, and the next one follow it
    }
    Ok(false)
}
