//! Receives from an analyzer that connects to a TCP port of this machine, stores each text in a file before it is
//! acknowledged, and prints the results of a session at its end: receive PORT FILE. PORT 0 is one that is free, and is
//! printed. No reply is sent that could come after the analyzer's timer. The receiver's timer does not run here.

mod port;

use lislink::{Heard, Message, Receiver};
use std::io::{self, Write};
use std::time::Instant;

/// Prints the patient, the sample, the test and the value of each result, each as one component with its escapes decoded.
/// Fields have the standard's numbers; repeats and components count from 0. A message that broke off is dropped.
fn print(mut texts: &[u8]) {
    let words =
        |part: Option<Vec<u8>>| String::from_utf8_lossy(&part.unwrap_or_default()).into_owned();
    while !texts.is_empty() {
        if let Ok(Some((message, rest))) = Message::read(texts) {
            for it in message.results() {
                let (patient, order) = (it.patient.part(4, 0, 0), it.order.part(3, 0, 0));
                let (test, value) = (it.result.part(3, 0, 3), it.result.part(4, 0, 0));
                println!("{} {} {} {}", words(patient), words(order), words(test), words(value));
            }
            texts = rest;
        } else {
            texts = Message::skip(texts);
        }
    }
}

fn main() -> io::Result<()> {
    let (mut line, mut store) = port::line_and_store("receive")?;
    let mut receiver = Receiver::new();
    receiver.set_careful(true); // a damaged byte acknowledges nothing
    let mut session = Vec::new(); // the texts of the session
    let mut bytes = [0; 4096];
    let mut empty = Instant::now(); // when the line was last seen empty
    loop {
        let (got, next) = port::read_some(&mut line, &mut bytes, &mut empty)?;
        let keep =
            |text: &[u8]| store.keep(text).map(|()| session.extend(port::with_cr(text))).is_ok();
        let send = |reply| line.write_all(&[reply]).is_ok();
        if receiver.hear_since(empty, &bytes[..got], keep, send) == Heard::GaveUp {
            eprintln!("no reply was sent: the analyzer sends this session again");
        }
        empty = next;
        if got == 0 || !receiver.is_open() {
            print(&std::mem::take(&mut session)); // the session is over
        }
        if got == 0 {
            return Ok(());
        }
    }
}
