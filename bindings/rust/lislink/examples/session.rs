//! The scripted session over the crate: a message is written, sent, heard, kept and read back, with each call that is
//! rejected on the way. Prints what tests/ffi/session.txt has.
use lislink::{
    frame, long_frame, Connection, Error, Fault, FrameLimit, Heard, Outcome, Phase, Reader, Reason,
    Receiver, Scanner, Sender, Signal,
};
use lislink::{Status, Writer};

fn texts_of(writer: &mut Writer) -> Result<Vec<Vec<u8>>, Error> {
    assert_eq!(writer.record(b'x').err().map(|it| it.status), Some(Status::BadLetter));
    assert_eq!(writer.put().err().map(|it| it.status), Some(Status::NoRecord));
    writer.record(b'H')?.field(b"")?.field(b"")?.field(b"Ana|yzer")?.put()?;
    writer.record(b'P')?.field(b"1")?.put()?;
    let refused = writer.record(b'R')?.field(b"1")?.put().err().expect("a result without an order");
    println!("refused: {refused}");
    writer.record(b'O')?.field(b"1")?.field(b"S7")?.put()?;
    writer.record(b'R')?.field(b"1")?;
    writer
        .component(b"")?
        .component(b"")?
        .component(b"")?
        .field(b"GLU")?
        .field(b"5.4")?
        .field(b"mmol/L")?
        .put()?;
    let refused = writer.record(b'R')?.field(b"1")?.field(b"a\nb")?.put().err().expect("LF");
    println!("refused: {refused}");
    writer.record(b'L')?.field(b"1")?.field(b"N")?.put()?;
    let count = writer.texts_len();
    assert_eq!(writer.text(count), None);
    Ok(writer.texts().collect())
}

/// Carries a session between a sender and a receiver; what can't be kept ends it.
fn carry(
    sender: &mut Sender,
    receiver: &mut Receiver,
    mut keep: impl FnMut(&[u8]) -> bool,
) -> Connection {
    let line = sender.connected();
    let mut out = sender.start().expect("a session").to_vec();
    for _ in 0..100 {
        if sender.phase() == Phase::Neutral {
            break;
        }
        let mut replies = Vec::new();
        let _ = receiver.hear(&out, &mut keep, |byte| {
            replies.push(byte);
            true
        });
        out = match replies.is_empty() {
            true => sender.timer().to_vec(),
            false => replies.iter().flat_map(|byte| sender.reply(line, *byte).to_vec()).collect(),
        };
    }
    println!("outcome: {}, {} acknowledged", sender.outcome(), sender.acknowledged());
    line
}

fn add(sender: &mut Sender, texts: &[Vec<u8>]) {
    texts.iter().for_each(|text| sender.add(text).expect("memory"));
}

/// What is not kept is not acknowledged; and no session starts on a connection where one failed.
fn fail_to_keep(sender: &mut Sender, receiver: &mut Receiver, texts: &[Vec<u8>]) {
    let mut kept = 0;
    add(sender, texts);
    let old = carry(sender, receiver, |_| {
        kept += 1;
        kept < 3
    });
    assert_eq!((sender.acknowledged(), receiver.is_open()), (2, false));
    add(sender, texts);
    assert_eq!(sender.start().err().map(|it| it.status), Some(Status::OldLine));
    assert!(sender.reply(old, 6).is_empty());
    sender.clear();
}

fn read_back(stream: &[u8]) {
    let mut reader = Reader::new();
    for piece in stream.chunks(7) {
        for record in reader.feed(piece) {
            let record = record.expect("a record");
            print!("{} {}", record.letter(), record.fields());
            let words = |field, component| {
                String::from_utf8(record.part(field, 0, component).unwrap().into_owned()).unwrap()
            };
            match record.letter() {
                'H' => print!(" {}", words(5, 0)),
                'R' => print!(" {} {}", words(3, 3), words(4, 0)),
                _ => {}
            }
            assert_eq!((record.part(30, 0, 0), record.part(2, 1, 0)), (None, None));
            println!();
        }
    }
    reader.finish().expect("the end of a message");
    let refused =
        reader.feed(b"R|1\r").next().expect("a fault").expect_err("a result outside a message");
    println!("refused: {refused}");
    let again = reader.feed(b"H|\\^&\r").next().expect("a fault").expect_err("the same fault");
    assert_eq!(again.reason, Reason::NotHeader);
}

fn of_frames() {
    let text = b"H|\\^&\r".to_vec();
    let bytes = frame(1, true, &text).expect("a frame");
    let stream = [b"\x05", &bytes[..], b"\x021\n\x04"].concat();
    let signals: Vec<Signal> = Scanner::new().feed(&stream).collect();
    let good = Signal::Frame { number: 1, last: true, text };
    assert_eq!(signals, [Signal::Enq, good, Signal::BadFrame(Fault::Shape, 0), Signal::Eot]);
    let refused = frame(1, true, b"a\x02").err().expect("STX");
    assert_eq!((refused.status, refused.place), (Status::Forbidden, 1));
    assert_eq!(frame(1, true, b"").map(|it| it.len()), Ok(7));
}

/// Frames of over 240 bytes of text, with the limit that takes them and with the usual one.
fn of_long_frames() {
    let text = vec![b'a'; 5000];
    let bytes = long_frame(1, true, &text).expect("a frame");
    assert_eq!(long_frame(1, true, b"P|1\r"), frame(1, true, b"P|1\r").map(|it| it.to_vec()));
    assert_eq!(long_frame(8, true, b"").err().map(|it| it.status), Some(Status::BadNumber));
    let stream = [b"\x05", &bytes[..]].concat();
    let refused: Vec<Signal> = Scanner::new().feed(&bytes).collect();
    assert_eq!(refused, [Signal::BadFrame(Fault::TooLong, 0)]);
    let mut scanner = Scanner::with_frame_limit(FrameLimit::Long).expect("memory");
    let signals: Vec<Signal> = scanner.feed(&bytes).collect();
    assert_eq!(signals, [Signal::Frame { number: 1, last: true, text: text.clone() }]);
    let mut receiver = Receiver::with_frame_limit(FrameLimit::Long).expect("memory");
    let mut kept = Vec::new();
    let keep = |text: &[u8]| {
        kept.extend_from_slice(text);
        true
    };
    assert_eq!(receiver.hear(&stream, keep, |reply| reply == 6), Heard::All);
    assert_eq!(kept, text);
    let mut sender = Sender::with_frame_limit(FrameLimit::Long).expect("the long limit");
    let line = sender.connected();
    sender.add(&text).expect("memory");
    assert_eq!(&sender.start().expect("a session")[..], b"\x05");
    assert_eq!(sender.reply(line, 6), bytes);
    assert_eq!(sender.reply(line, 6), b"\x04");
}

fn main() {
    of_frames();
    of_long_frames();
    let texts = texts_of(&mut Writer::new()).expect("a message");
    let (mut sender, mut receiver) = (Sender::new(), Receiver::new());
    fail_to_keep(&mut sender, &mut receiver, &texts);
    let mut store = Vec::new();
    add(&mut sender, &texts);
    carry(&mut sender, &mut receiver, |text| {
        store.extend_from_slice(text);
        true
    });
    assert_eq!((sender.outcome(), sender.patience()), (Outcome::Done, None));
    assert_eq!(receiver.hear(b"", |_| false, |_| false), Heard::All);
    read_back(&store);
}
