//! What the scripted session doesn't show: threads, texts that stay, panics, contention.
use lislink::{
    long_frame, Connection, FrameLimit, Heard, Message, Note, Outcome, Phase, Reader, Ready,
    Receiver, Role, Sender, Station, Status, Text, Writer,
};
use std::panic::{catch_unwind, AssertUnwindSafe};
use std::thread;
use std::time::{Duration, Instant};

const HEADER: &[u8] = b"\x021H|\\^&\r\x03E5\r\n";

fn is_send<T: Send>() {}

/// What an error prints.
fn said<T, E: std::fmt::Display>(result: Result<T, E>) -> String {
    result.err().expect("an error").to_string()
}

#[test]
fn an_error_prints_its_place() {
    let words = "the text has a byte that no text may hold";
    assert_eq!(said(long_frame(1, true, b"a\x02")), format!("{words}, byte 1 from 0"));
    let mut sender = Sender::new();
    let _ = sender.connected();
    sender.add(b"good\r").unwrap();
    assert_eq!(said(sender.add(b"bad\x02\r")), format!("{words}, byte 3 from 0"));
    sender.clear();
    assert_eq!(said(sender.start()), "there is no text to send");
    let long = "there are more bytes than the limit allows";
    assert_eq!(said(sender.add(&vec![b'a'; 1_048_577])), long);
    sender.add(&vec![b'a'; 1_048_576]).unwrap();
    assert_eq!(&sender.start().unwrap()[..], b"\x05");
    sender.restart();
    let _ = sender.connected();
    let text = vec![b'a'; 1_048_577];
    let texts = [Text::from(&text[..])];
    let mut lent = Sender::new();
    let _ = lent.connected();
    assert_eq!(said(lent.start_lent(&texts)), format!("{long}, text 0 from 0"));
    let mut writer = Writer::new();
    writer.record(b'H').unwrap().put().unwrap();
    writer.record(b'P').unwrap().field(b"1").unwrap().field(b"a\n").unwrap();
    assert_eq!(said(writer.put()), format!("{words}, field 3"));
    assert_eq!(
        said(Receiver::new().reserve(1_048_577)),
        "there are more bytes than the limit allows"
    );
}

#[test]
fn a_record_that_cant_be_read_prints_its_number_and_why() {
    let refused = |bytes: &[u8]| said(Reader::new().feed(bytes).last().expect("a record"));
    let words = "record 2: the text is not a record: ";
    assert_eq!(
        refused(b"H|\\^&\rP|1\n\r"),
        format!("{words}the text has a byte that no text may hold, byte 3 from 0")
    );
    let letter = "no letter of such a record, or no field delimiter after it";
    assert_eq!(refused(b"H|\\^&\rX|1\r"), format!("{words}{letter}"));
    assert_eq!(refused(b"H|\\^&\rR|1\r"), "record 2: the record has no parent in the message, R");
    assert_eq!(refused(b"P|1\r"), "record 1: outside a message a header comes first");
}

#[test]
fn a_reader_goes_on_after_a_message_that_broke_off() {
    let parts: [&[u8]; 5] = [
        b"H|\\^&\rP|1\rL|1\r",
        b"H|\\^&\rP|2\rO|1\r",
        b"H|\\^&\rP|3\rL|1\r",
        b"H|\\^&\rX|1\rL|1\r",
        b"H|\\^&\rL|4\r",
    ];
    let stream = parts.concat();
    for size in 1..=stream.len() {
        let (mut reader, mut letters) = (Reader::new(), String::new());
        for piece in stream.chunks(size) {
            let mut records = reader.feed(piece);
            while let Some(record) = records.next() {
                match record {
                    Ok(record) => letters.push(record.letter()),
                    Err(_) => {
                        letters.push('!');
                        assert!(records.next().is_none());
                        records.resume();
                    }
                }
            }
        }
        assert_eq!((letters.as_str(), reader.read()), ("HPLHPO!HPLH!HL", stream.len() as u64));
        assert_eq!(reader.finish(), Ok(()));
    }
    let mut reader = Reader::new();
    assert_eq!(reader.feed(&stream).filter(|record| record.is_err()).count(), 1);
    assert_eq!(reader.read(), (parts[0].len() + parts[1].len()) as u64);
    let (mut rest, mut read) = (&stream[..], Vec::new());
    while !rest.is_empty() {
        rest = match Message::read(rest) {
            Ok(Some((message, following))) => {
                read.push(message.text());
                following
            }
            _ => Message::skip(rest),
        };
    }
    assert_eq!(read, [parts[0], parts[2], parts[4]]);
}

#[test]
fn a_message_has_its_records_under_each_other() {
    let text = b"H|\\^&\rP|1\rO|1|S7\rR|1|^^^GLU|5&F&\rC|1\rR|2\rL|1\rH|";
    let (message, following) = Message::read(text).unwrap().unwrap();
    assert_eq!((message.text(), following), (&text[..text.len() - 2], &b"H|"[..]));
    assert_eq!(message.entries().map(|entry| entry.letter()).collect::<String>(), "HPORCRL");
    let parents: Vec<usize> = message.entries().map(|entry| entry.parent().index()).collect();
    assert_eq!(parents, [0, 0, 1, 2, 3, 2, 0]);
    let results: Vec<_> = message.results().collect();
    let first = &results[0];
    assert_eq!((results.len(), first.patient.text(), first.order.index()), (2, &b"P|1"[..], 2));
    assert_eq!(first.result.part(3, 0, 3).unwrap(), b"GLU");
    assert_eq!(first.result.part(4, 0, 0).unwrap(), b"5|");
    assert_eq!(first.result.part(9, 0, 0), None);
    let below: Vec<usize> = first.order.below().map(|entry| entry.index()).collect();
    assert_eq!(below, [3, 5]);
    assert_eq!(said(Message::read(following)), "record 1: the message or the record isn't ended");
    assert!(Message::read(b"").unwrap().is_none());
    let many = [b"H|\\^&\r", b"P|1\r".repeat(100).as_slice(), b"L|1\r"].concat();
    assert_eq!(Message::read(&many).unwrap().unwrap().0.entries().len(), 102);
}

#[test]
fn a_field_may_have_repeats() {
    let mut writer = Writer::new();
    writer.record(b'H').unwrap().put().unwrap();
    writer.record(b'P').unwrap().component(b"").unwrap().repeat(b"GLU").unwrap();
    assert_eq!(writer.put().err().unwrap().status, Status::Unfinished);
    writer.field(b"K\\").unwrap().put().unwrap();
    assert_eq!(writer.text(1).unwrap(), b"P|^GLU\\K&R&\r");
}

#[test]
fn each_may_move_to_another_thread() {
    is_send::<Sender<'_>>();
    is_send::<lislink::Reader>();
    is_send::<Writer>();
    is_send::<lislink::Scanner>();
    is_send::<Station>();
    let mut receiver = Receiver::new();
    let mut kept = Vec::new();
    for bytes in [b"\x05", &HEADER[..4], &HEADER[4..], b"\x04"] {
        (receiver, kept) = thread::spawn(move || {
            let heard = receiver.hear(
                bytes,
                |text| {
                    kept.push(text.to_vec());
                    true
                },
                |_| true,
            );
            assert_eq!(heard, Heard::All);
            (receiver, kept)
        })
        .join()
        .unwrap();
    }
    assert_eq!(kept, [b"H|\\^&\r"]);
}

fn done(sender: &mut Sender, line: Connection) {
    assert_eq!(sender.reply(line, 6), HEADER);
    assert_eq!(sender.reply(line, 6), b"\x04");
    assert_eq!(sender.outcome(), Outcome::Done);
}

#[test]
fn texts_may_stay_with_their_owner() {
    let texts = [Text::from(&b"H|\\^&\r"[..])];
    let mut sender = Sender::new();
    assert_eq!(sender.start_lent(&texts).err().map(|it| it.status), Some(Status::OldLine));
    let line = sender.connected();
    assert_eq!(&sender.start_lent(&texts).unwrap()[..], b"\x05");
    assert_eq!(sender.start_lent(&texts).err().map(|it| it.status), Some(Status::InSession));
    done(&mut sender, line);
}

#[test]
fn a_reply_of_an_earlier_connection_is_dropped() {
    let mut sender = Sender::new();
    sender.add(b"H|\\^&\r").unwrap();
    let old = sender.connected();
    sender.start().unwrap();
    assert_eq!(&sender.timer()[..], b"\x04");
    sender.add(b"H|\\^&\r").unwrap();
    let new = sender.connected();
    assert_ne!(old, new);
    sender.start().unwrap();
    assert!(sender.reply(old, 6).is_empty());
    assert_eq!(sender.phase(), Phase::AwaitLine);
    done(&mut sender, new);
}

#[test]
fn a_sender_of_long_frames_sends_them() {
    let texts = [vec![b'a'; 5000], vec![b'b'; 240]];
    let mut sender = Sender::with_frame_limit(FrameLimit::Long).unwrap();
    let (old, line) = (sender.connected(), sender.connected());
    for text in &texts {
        sender.add(text).unwrap();
    }
    assert_eq!(&sender.start().unwrap()[..], b"\x05");
    assert_eq!(sender.reply(line, 21), b"");
    assert_eq!((sender.phase(), &sender.timer()[..]), (Phase::Busy, &b"\x05"[..]));
    let frames = [1, 2].map(|number| long_frame(number, true, &texts[usize::from(number) - 1]));
    let [first, second] = frames.map(Result::unwrap);
    assert_eq!(sender.reply(line, 6), first);
    assert_eq!(sender.reply(old, 6), b"");
    assert_eq!(sender.reply(line, 21), first);
    assert_eq!(sender.reply(line, 21), first);
    assert_eq!(sender.reply(line, 6), second);
    assert_eq!(sender.reply(line, 6), b"\x04");
    assert_eq!((sender.outcome(), sender.acknowledged()), (Outcome::Done, 2));
    assert_eq!(sender.reply(line, 6), b"");
}

#[test]
fn a_sender_of_usual_frames_cuts_a_long_text() {
    let mut sender = Sender::with_frame_limit(FrameLimit::Usual).unwrap();
    sender.add(&[b'a'; 5000]).unwrap();
    let line = sender.connected();
    sender.start().unwrap();
    let first = long_frame(1, false, &[b'a'; 240]).unwrap();
    assert_eq!(sender.reply(line, 6), first);
    assert_eq!(sender.reply(line, 21), first);
}

#[test]
fn a_record_in_pieces_has_its_text_and_parts() {
    let stream = b"H*!+-*a+b*-F-\rp*\x20*1!2\rl\r";
    for size in [1, 3, stream.len()] {
        let mut reader = Reader::new();
        let mut records = Vec::new();
        for piece in stream.chunks(size) {
            records.extend(reader.feed(piece).map(Result::unwrap));
        }
        let texts: Vec<_> = records.iter().map(|it| (it.letter(), it.text())).collect();
        assert_eq!(texts, [('H', &b"H*!+-*a+b*-F-"[..]), ('P', b"p*\x20*1!2"), ('L', b"l")]);
        let [header, patient, last] = &records[..] else { panic!("three records") };
        assert_eq!(header.part(3, 0, 1).as_deref(), Some(&b"b"[..]));
        assert_eq!(header.part(4, 0, 0).as_deref(), Some(&b"*"[..]));
        assert_eq!(patient.part(3, 1, 0).as_deref(), Some(&b"2"[..]));
        assert_eq!(patient.delimiters(), header.delimiters());
        assert_eq!((header.parts().len(), patient.parts().len(), last.parts().len()), (3, 3, 0));
        assert_eq!((patient.fields(), last.fields()), (2, 0));
    }
}

/// How long all parts of a record of 65,536 bytes take.
fn time_of_a_long_record() -> Duration {
    let mut reader = Reader::new();
    let text = [b"P".as_slice(), &[b'|'; 65535]].concat();
    assert_eq!(reader.feed(b"H|\\^&\r").count(), 1);
    assert_eq!(reader.feed(&text).count(), 0);
    let begun = Instant::now();
    let record = reader.feed(b"\r").next().unwrap().unwrap();
    assert_eq!((record.text(), record.parts().len()), (&text[..], 65535));
    assert!(record.parts().last().is_some_and(|it| it.field == 65536 && it.raw.is_empty()));
    begun.elapsed()
}

/// One after another from the record's beginning they would take seconds. A machine that is busy gets several tries.
#[test]
fn all_parts_of_a_long_record_take_milliseconds() {
    assert!((0..50).any(|_| time_of_a_long_record() < Duration::from_millis(250)));
}

#[test]
fn a_panic_in_keep_sends_no_reply() {
    let mut receiver = Receiver::new();
    let mut replies = Vec::new();
    let stream = [b"\x05", HEADER].concat();
    let ran = catch_unwind(AssertUnwindSafe(|| {
        receiver.hear(
            &stream,
            |_| panic!("the store"),
            |byte| {
                replies.push(byte);
                true
            },
        )
    }));
    assert!(ran.is_err());
    assert_eq!((replies, receiver.is_open()), (vec![6], false));
}

#[test]
fn a_reply_that_is_not_sent_ends_the_session() {
    let mut receiver = Receiver::new();
    assert_eq!(receiver.hear(b"\x05", |_| true, |_| false), Heard::GaveUp);
    assert!(!receiver.is_open());
}

#[test]
fn a_late_reply_is_not_sent() {
    let (mut receiver, now) = (Receiver::new(), Instant::now());
    assert_eq!(receiver.hear_since(now, b"\x05", |_| true, |reply| reply == 6), Heard::All);
    let past = now.checked_sub(Duration::from_secs(11)).unwrap();
    assert_eq!(
        receiver.hear_since(past, HEADER, |_| true, |_| panic!("it is late")),
        Heard::GaveUp
    );
    assert!(!receiver.is_open());
}

#[test]
fn a_receiver_says_what_it_heard() {
    let mut receiver = Receiver::new();
    let mut notes = Vec::new();
    receiver.set_ready(Ready::Contending).unwrap();
    assert_eq!(
        receiver.set_ready(Ready::Other(3)).err().map(|it| it.status),
        Some(Status::BadNumber)
    );
    let heard = receiver.hear_each(b"\x05\x05", |_| true, |_| true, |step| notes.push(step.note));
    assert_eq!((heard, notes), (Heard::All, vec![Note::NotReady, Note::Opened]));
    receiver.set_room(false);
    assert_eq!(receiver.set_text_limit(1_048_577).err().map(|it| it.status), Some(Status::TooLong));
    receiver.set_text_limit(5).unwrap();
    let mut told = Vec::new();
    let _ = receiver.hear_each(HEADER, |_| true, |_| true, |step| told.push(step.note));
    assert_eq!(told, [Note::TooLong]);
    receiver.reserve(1_000_000).unwrap();
    assert_eq!(receiver.reserve(1_048_577).err().map(|it| it.status), Some(Status::TooLong));
    assert_eq!((receiver.accepted(), receiver.held()), (0, 0));
    assert_eq!((receiver.timer().note, receiver.timer().note), (Note::TimedOut, Note::Quiet));
}

/// What a loop does that answers later: it keeps the text, and sends the reply, unless one of these fails.
fn answered(
    receiver: &mut Receiver,
    mut bytes: &[u8],
    store: &mut Vec<u8>,
    mut send: impl FnMut(u8) -> std::io::Result<()>,
) -> std::io::Result<()> {
    while !bytes.is_empty() {
        let answer = receiver.next_step(&mut bytes);
        if let Some(text) = answer.text() {
            store.extend_from_slice(text);
        }
        if let Some(reply) = answer.reply() {
            send(reply)?;
        }
        answer.sent();
    }
    Ok(())
}

#[test]
fn a_reply_may_be_sent_later() {
    let (mut receiver, mut store, mut replies) = (Receiver::new(), Vec::new(), Vec::new());
    let stream = [b"\x05", HEADER, b"\x04"].concat();
    let send = |reply| {
        replies.push(reply);
        Ok(())
    };
    answered(&mut receiver, &stream, &mut store, send).unwrap();
    assert_eq!((&store[..], &replies[..]), (&b"H|\\^&\r"[..], &b"\x06\x06"[..]));
    assert!(!receiver.is_open());
}

#[test]
fn a_reply_that_is_not_said_to_be_sent_ends_the_session() {
    let (mut receiver, mut store, mut count) = (Receiver::new(), Vec::new(), 0);
    let stream = [b"\x05", HEADER].concat();
    let send = |_| {
        count += 1;
        if count < 2 {
            Ok(())
        } else {
            Err(std::io::Error::other("the line is gone"))
        }
    };
    let fault = answered(&mut receiver, &stream, &mut store, send).unwrap_err();
    assert_eq!((fault.to_string(), receiver.is_open()), ("the line is gone".to_string(), false));
    let mut enq: &[u8] = b"\x05";
    receiver.next_step(&mut enq).sent();
    assert!(receiver.is_open() && enq.is_empty());
    let mut bytes = HEADER;
    let note = receiver.next_step(&mut bytes).step().note;
    assert_eq!((note, receiver.is_open(), bytes.len()), (Note::Accepted, false, 0));
    assert_eq!(receiver.next_step(&mut bytes).reply(), None);
}

/// What a station sends in answer to bytes.
fn sent(station: &mut Station, mut bytes: &[u8]) -> Vec<u8> {
    let mut all = Vec::new();
    while !bytes.is_empty() {
        let answer = station.next_answer(&mut bytes);
        all.extend_from_slice(answer.send());
        answer.sent();
    }
    all
}

#[test]
fn a_station_sends_and_receives() {
    let mut station = Station::new(Role::Analyzer, FrameLimit::Usual).unwrap();
    let status =
        |started: Result<lislink::Bytes, lislink::Error>| started.err().map(|it| it.status);
    assert_eq!(status(station.start([b"a"])), Some(Status::OldLine));
    assert!(station.needs_new_line());
    station.connected();
    assert!(!station.needs_new_line());
    let refused = station.start([&b"a"[..], b"a\n"]).err().unwrap();
    assert_eq!((refused.status, refused.index, refused.place), (Status::Forbidden, 1, 1));
    assert_eq!(sent(&mut station, b"\x05"), b"\x06");
    assert_eq!(status(station.start([b"a"])), Some(Status::LineOpen));
    assert_eq!(station.patience(), Some(Duration::from_secs(30)));
    station.ask_turn();
    assert_eq!(sent(&mut station, &[HEADER, b"\x04"].concat()), b"\x04");
    assert_eq!((station.accepted(), station.held(), station.is_open()), (1, 0, false));
    assert_eq!(&station.start([b"H|\\^&\r"]).unwrap()[..], b"\x05");
    assert_eq!(sent(&mut station, b"\x05"), b"");
    assert_eq!(
        (station.phase(), station.patience()),
        (Phase::Contention, Some(Duration::from_secs(1)))
    );
    assert_eq!((station.turn(), station.turn_asked()), (Some(Duration::from_secs(15)), false));
    assert!(station.needs_new_line());
    let answer = station.timer();
    assert_eq!((answer.send(), answer.step()), (&b"\x05"[..], None));
    answer.sent();
    assert_eq!(sent(&mut station, b"\x06\x06"), [HEADER, b"\x04"].concat());
    assert_eq!((station.outcome(), station.acknowledged()), (Outcome::Done, 1));
    assert!(!station.needs_new_line());
    static LENT: [Text<'static>; 1] = [Text::new(b"H|\\^&\r")];
    assert_eq!(&station.start_lent(&LENT).unwrap()[..], b"\x05");
    assert_eq!(status(station.start_lent(&LENT)), Some(Status::InSession));
    assert_eq!(sent(&mut station, b"\x06\x06"), [HEADER, b"\x04"].concat());
    station.set_ready(false);
    assert_eq!(sent(&mut station, b"\x05"), b"\x15");
    assert_eq!(station.reserve(1_048_577).err().map(|it| it.status), Some(Status::TooLong));
}

#[test]
fn an_answer_that_is_not_sent_ends_its_session() {
    let mut station = Station::new(Role::Computer, FrameLimit::Long).unwrap();
    station.connected();
    assert_eq!(sent(&mut station, b"\x05"), b"\x06");
    let mut bytes = HEADER;
    assert_eq!(station.next_answer(&mut bytes).text(), Some(&b"H|\\^&\r"[..]));
    assert!(!station.is_open() && bytes.is_empty());
    let text = vec![b'a'; 63_993];
    station.start([&text]).unwrap();
    let mut ack: &[u8] = b"\x06";
    assert_eq!(station.next_answer(&mut ack).send(), long_frame(1, true, &text).unwrap());
    assert_eq!((station.phase(), station.outcome()), (Phase::Neutral, Outcome::Restarted));
    assert_eq!(station.start([&text]).err().map(|it| it.status), Some(Status::OldLine));
}
