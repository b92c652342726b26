//! One damaged byte of a frame, at each place and to each byte: as the profile has it, 40 of 10,200 are acknowledged
//! and not taken; heard carefully, none is.
use lislink::{FrameLimit, Receiver, Role, Station};
use std::cell::Cell;

const TEXT: &[u8] = b"R|1|^^^GLU|5.4|mmol/L||N||F||||E\r";

fn frame() -> Vec<u8> {
    let inner = [b"1", TEXT, b"\x03"].concat();
    let sum = inner.iter().fold(0_u8, |sum, byte| sum.wrapping_add(*byte));
    [b"\x02", &inner[..], format!("{sum:02X}\r\n").as_bytes()].concat()
}

/// How many changes are acknowledged, by the replies and the texts that these bytes give after an ENQ.
fn lost(mut hear: impl FnMut(&[u8]) -> (bool, bool)) -> usize {
    let good = frame();
    let mut lost = 0;
    for at in 0..good.len() {
        for byte in (0..=255).filter(|&byte| byte != good[at]) {
            let mut changed = good.clone();
            changed[at] = byte;
            let (is_acknowledged, is_kept) = hear(&changed);
            lost += usize::from(is_acknowledged && !is_kept);
        }
    }
    lost
}

fn of_receiver(receiver: &mut Receiver, bytes: &[u8]) -> (bool, bool) {
    let (is_acknowledged, is_kept) = (Cell::new(false), Cell::new(false));
    receiver.restart();
    let _ = receiver.hear(b"\x05", |_| true, |_| true);
    let keep = |text: &[u8]| {
        is_kept.set(text == TEXT);
        true
    };
    let send = |reply| {
        is_acknowledged.set(is_acknowledged.get() || reply == 6);
        true
    };
    let _ = receiver.hear(bytes, keep, send);
    (is_acknowledged.get(), is_kept.get())
}

fn of_station(station: &mut Station, mut bytes: &[u8]) -> (bool, bool) {
    let (mut is_acknowledged, mut is_kept) = (false, false);
    station.restart();
    station.next_answer(&mut &b"\x05"[..]).sent();
    while !bytes.is_empty() {
        let answer = station.next_answer(&mut bytes);
        is_acknowledged |= answer.send() == b"\x06";
        is_kept |= answer.text() == Some(TEXT);
        answer.sent();
    }
    (is_acknowledged, is_kept)
}

#[test]
fn a_careful_receiver_acknowledges_no_damaged_byte() {
    let mut receiver = Receiver::new();
    assert_eq!(lost(|bytes| of_receiver(&mut receiver, bytes)), 40);
    assert_eq!(receiver.noise(), 0);
    receiver.set_careful(true);
    assert_eq!(lost(|bytes| of_receiver(&mut receiver, bytes)), 0);
    assert!(receiver.noise() > 40);
}

#[test]
fn a_careful_station_acknowledges_no_damaged_byte() {
    let mut station = Station::new(Role::Computer, FrameLimit::Usual).unwrap();
    assert_eq!(lost(|bytes| of_station(&mut station, bytes)), 40);
    assert_eq!(station.noise(), 0);
    station.set_careful(true);
    assert_eq!(lost(|bytes| of_station(&mut station, bytes)), 0);
    assert!(station.noise() > 40);
}
