//! The C calls of `lislink.h`, which says what each takes, returns and asks of its caller. Made from it by
//! `bindings/rust/generate`.
#![no_std]
#![allow(non_camel_case_types)]
use core::ffi::{c_char, c_void};

pub type lis_status = u8;
pub const LIS_STATUS_OK: lis_status = 0;
pub const LIS_STATUS_IN_SESSION: lis_status = 1;
pub const LIS_STATUS_NO_TEXT: lis_status = 2;
pub const LIS_STATUS_TOO_LONG: lis_status = 3;
pub const LIS_STATUS_FORBIDDEN: lis_status = 4;
pub const LIS_STATUS_FULL: lis_status = 5;
pub const LIS_STATUS_OUT_OF_MEMORY: lis_status = 6;
pub const LIS_STATUS_BAD_NUMBER: lis_status = 7;
pub const LIS_STATUS_TOO_SHORT: lis_status = 8;
pub const LIS_STATUS_NO_RECORD: lis_status = 9;
pub const LIS_STATUS_BAD_LETTER: lis_status = 10;
pub const LIS_STATUS_BAD_DELIMITERS: lis_status = 11;
pub const LIS_STATUS_ABSENT: lis_status = 12;
pub const LIS_STATUS_UNFINISHED: lis_status = 13;
pub const LIS_STATUS_PUT_NOT_HEADER: lis_status = 14;
pub const LIS_STATUS_PUT_NO_PARENT: lis_status = 15;
pub const LIS_STATUS_PUT_SECOND_HEADER: lis_status = 16;
pub const LIS_STATUS_OLD_LINE: lis_status = 17;
pub const LIS_STATUS_LINE_OPEN: lis_status = 18;

pub type lis_signal_kind = u8;
pub const LIS_SIGNAL_NONE: lis_signal_kind = 0;
pub const LIS_SIGNAL_ENQ: lis_signal_kind = 1;
pub const LIS_SIGNAL_EOT: lis_signal_kind = 2;
pub const LIS_SIGNAL_FRAME: lis_signal_kind = 3;
pub const LIS_SIGNAL_BAD_FRAME: lis_signal_kind = 4;
pub const LIS_SIGNAL_LONG_FRAME: lis_signal_kind = 5;

pub type lis_fault = u8;
pub const LIS_FAULT_NONE: lis_fault = 0;
pub const LIS_FAULT_TOO_LONG: lis_fault = 1;
pub const LIS_FAULT_SHAPE: lis_fault = 2;
pub const LIS_FAULT_NUMBER: lis_fault = 3;
pub const LIS_FAULT_FORBIDDEN: lis_fault = 4;
pub const LIS_FAULT_SUM: lis_fault = 5;

pub type lis_phase = u8;
pub const LIS_PHASE_NEUTRAL: lis_phase = 0;
pub const LIS_PHASE_AWAIT_LINE: lis_phase = 1;
pub const LIS_PHASE_BUSY: lis_phase = 2;
pub const LIS_PHASE_CONTENTION: lis_phase = 3;
pub const LIS_PHASE_AWAIT_REPLY: lis_phase = 4;

pub type lis_outcome = u8;
pub const LIS_OUTCOME_NONE: lis_outcome = 0;
pub const LIS_OUTCOME_DONE: lis_outcome = 1;
pub const LIS_OUTCOME_TIMED_OUT: lis_outcome = 2;
pub const LIS_OUTCOME_SIX_TRIES: lis_outcome = 3;
pub const LIS_OUTCOME_RESTARTED: lis_outcome = 4;

pub type lis_note = u8;
pub const LIS_NOTE_QUIET: lis_note = 0;
pub const LIS_NOTE_OPENED: lis_note = 1;
pub const LIS_NOTE_NOT_READY: lis_note = 2;
pub const LIS_NOTE_ENDED: lis_note = 3;
pub const LIS_NOTE_ACCEPTED: lis_note = 4;
pub const LIS_NOTE_DUPLICATE: lis_note = 5;
pub const LIS_NOTE_OUT_OF_TURN: lis_note = 6;
pub const LIS_NOTE_REFUSED: lis_note = 7;
pub const LIS_NOTE_NO_ROOM: lis_note = 8;
pub const LIS_NOTE_TOO_LONG: lis_note = 9;
pub const LIS_NOTE_TOO_MANY: lis_note = 10;
pub const LIS_NOTE_OUT_OF_MEMORY: lis_note = 11;
pub const LIS_NOTE_TIMED_OUT: lis_note = 12;

pub type lis_ready = u8;
pub const LIS_READY_YES: lis_ready = 0;
pub const LIS_READY_BUSY: lis_ready = 1;
pub const LIS_READY_CONTENDING: lis_ready = 2;

pub type lis_role = u8;
pub const LIS_ROLE_ANALYZER: lis_role = 0;
pub const LIS_ROLE_COMPUTER: lis_role = 1;

pub type lis_found_kind = u8;
pub const LIS_FOUND_NOTHING: lis_found_kind = 0;
pub const LIS_FOUND_RECORD: lis_found_kind = 1;
pub const LIS_FOUND_REFUSED: lis_found_kind = 2;

pub type lis_reason = u8;
pub const LIS_REASON_NONE: lis_reason = 0;
pub const LIS_REASON_BAD_RECORD: lis_reason = 1;
pub const LIS_REASON_NOT_HEADER: lis_reason = 2;
pub const LIS_REASON_NO_PARENT: lis_reason = 3;
pub const LIS_REASON_SECOND_HEADER: lis_reason = 4;
pub const LIS_REASON_UNFINISHED: lis_reason = 5;
pub const LIS_REASON_TOO_LONG: lis_reason = 6;
pub const LIS_REASON_OUT_OF_MEMORY: lis_reason = 7;

pub const LIS_SECONDS_REPLY: u64 = 15;
pub const LIS_SECONDS_BUSY: u64 = 10;
pub const LIS_SECONDS_CONTENTION: u64 = 1;
pub const LIS_SECONDS_RECEIVER: u64 = 30;

pub const LIS_LIMIT_FRAME_TEXT: u64 = 240;
pub const LIS_LIMIT_FRAME_BYTES: u64 = 247;
pub const LIS_LIMIT_LONG_FRAME_TEXT: u64 = 63993;
pub const LIS_LIMIT_LONG_FRAME_BYTES: u64 = 64000;
pub const LIS_LIMIT_TEXTS: u64 = 65536;
pub const LIS_LIMIT_TEXT_BYTES: u64 = 1048576;
pub const LIS_LIMIT_RECORD_BYTES: u64 = 65536;

pub const LIS_SCANNER_BLOCK: u64 = 512;
pub const LIS_SENDER_BLOCK: u64 = 256;
pub const LIS_RECEIVER_BLOCK: u64 = 640;
pub const LIS_STATION_BLOCK: u64 = 896;
pub const LIS_READER_BLOCK: u64 = 256;
pub const LIS_WRITER_BLOCK: u64 = 384;
pub const LIS_BLOCK_ALIGN: u64 = 16;

pub const LIS_PART_ESCAPED: u64 = 1;

#[repr(C)]
#[derive(Clone, Copy, Debug)]
pub struct lis_bytes {
    pub len: usize,
    pub bytes: [u8; 247],
}

#[repr(C)]
#[derive(Clone, Copy, Debug)]
pub struct lis_place {
    pub index: usize,
    pub place: usize,
}

#[repr(C)]
#[derive(Clone, Copy, Debug)]
pub struct lis_signal {
    pub kind: lis_signal_kind,
    pub number: u8,
    pub last: bool,
    pub fault: lis_fault,
    pub place: usize,
    pub len: usize,
    pub text: [u8; 240],
}

#[repr(C)]
#[derive(Clone, Copy, Debug)]
pub struct lis_scanner {
    pub at: *mut c_void,
}

#[repr(C)]
#[derive(Clone, Copy, Debug)]
pub struct lis_text {
    pub bytes: *const u8,
    pub bytes_len: usize,
}

#[repr(C)]
#[derive(Clone, Copy, Debug)]
pub struct lis_sender {
    pub at: *mut c_void,
}

#[repr(C)]
#[derive(Clone, Copy, Debug)]
pub struct lis_line {
    pub sender: lis_sender,
    pub connection: u64,
    pub spent: bool,
}

#[repr(C)]
#[derive(Clone, Copy, Debug)]
pub struct lis_step {
    pub reply: u8,
    pub has_text: bool,
    pub note: lis_note,
    pub detail: u8,
    pub place: usize,
}

#[repr(C)]
#[derive(Clone, Copy, Debug)]
pub struct lis_receiver {
    pub at: *mut c_void,
}

#[repr(C)]
#[derive(Clone, Copy, Debug)]
pub struct lis_answer {
    pub is_step: bool,
    pub send: lis_bytes,
    pub step: lis_step,
}

#[repr(C)]
#[derive(Clone, Copy, Debug)]
pub struct lis_station {
    pub at: *mut c_void,
}

#[repr(C)]
#[derive(Clone, Copy, Debug)]
pub struct lis_station_line {
    pub station: lis_station,
    pub is_new: bool,
}

#[repr(C)]
#[derive(Clone, Copy, Debug)]
pub struct lis_delimiters {
    pub field: u8,
    pub repeat: u8,
    pub component: u8,
    pub escape: u8,
}

#[repr(C)]
#[derive(Clone, Copy, Debug)]
pub struct lis_record {
    pub letter: u8,
    pub fields: usize,
    pub place: usize,
}

#[repr(C)]
#[derive(Clone, Copy, Debug)]
pub struct lis_part {
    pub offset: u32,
    pub len: u32,
    pub field: u32,
    pub repeat: u32,
    pub component: u32,
    pub flags: u32,
}

#[repr(C)]
#[derive(Clone, Copy, Debug)]
pub struct lis_found {
    pub kind: lis_found_kind,
    pub letter: u8,
    pub reason: lis_reason,
    pub detail: u8,
    pub fields: usize,
    pub place: usize,
    pub number: u64,
}

#[repr(C)]
#[derive(Clone, Copy, Debug)]
pub struct lis_reader {
    pub at: *mut c_void,
}

#[repr(C)]
#[derive(Clone, Copy, Debug)]
pub struct lis_table {
    pub count: usize,
    pub len: usize,
    pub delimiters: lis_delimiters,
}

#[repr(C)]
#[derive(Clone, Copy, Debug)]
pub struct lis_entry {
    pub offset: usize,
    pub part: usize,
    pub fields: usize,
    pub table: lis_table,
    pub letter: u8,
}

#[repr(C)]
#[derive(Clone, Copy, Debug)]
pub struct lis_column {
    pub field: u32,
    pub repeat: u32,
    pub component: u32,
}

#[repr(C)]
#[derive(Clone, Copy, Debug)]
pub struct lis_record_place {
    pub start: usize,
    pub parent: usize,
    pub len: u32,
    pub letter: u8,
}

#[repr(C)]
#[derive(Clone, Copy, Debug)]
pub struct lis_message {
    pub count: usize,
    pub len: usize,
    pub delimiters: lis_delimiters,
}

#[repr(C)]
#[derive(Clone, Copy, Debug)]
pub struct lis_writer {
    pub at: *mut c_void,
}

extern "C" {
    pub fn lis_scanner_size() -> usize;
    pub fn lis_scanner_align() -> usize;
    pub fn lis_scanner_init(at: *mut c_void);
    pub fn lis_scanner_end(s: lis_scanner);
    pub fn lis_scanner_set_limit(s: *mut lis_scanner, limit: usize) -> lis_status;
    pub fn lis_scanner_push(s: *mut lis_scanner, byte: u8, out: *mut lis_signal);
    pub fn lis_scanner_feed(
        s: *mut lis_scanner,
        bytes: *const u8,
        bytes_len: usize,
        out: *mut lis_signal,
    ) -> usize;
    pub fn lis_scanner_text_len(s: *const lis_scanner) -> usize;
    pub fn lis_scanner_text(s: *const lis_scanner, out: *mut u8, out_len: usize) -> lis_status;
    pub fn lis_frame_write(
        number: u8,
        last: bool,
        text: *const u8,
        text_len: usize,
        out: *mut lis_bytes,
        place: *mut usize,
    ) -> lis_status;
    pub fn lis_long_frame_write(
        number: u8,
        last: bool,
        text: *const u8,
        text_len: usize,
        out: *mut u8,
        out_len: usize,
        size: *mut usize,
        place: *mut usize,
    ) -> lis_status;
    pub fn lis_sender_size() -> usize;
    pub fn lis_sender_align() -> usize;
    pub fn lis_sender_init(at: *mut c_void);
    pub fn lis_sender_end(s: lis_sender);
    pub fn lis_sender_set_limit(s: *mut lis_sender, limit: usize) -> lis_status;
    pub fn lis_text_check(text: *const u8, text_len: usize, place: *mut usize) -> lis_status;
    pub fn lis_sender_add_text(s: *mut lis_sender, text: *const u8, text_len: usize) -> lis_status;
    pub fn lis_sender_clear(s: *mut lis_sender);
    pub fn lis_sender_start(
        s: *mut lis_sender,
        out: *mut lis_bytes,
        fault: *mut lis_place,
    ) -> lis_status;
    pub fn lis_sender_start_lent(
        s: *mut lis_sender,
        texts: *const lis_text,
        texts_len: usize,
        out: *mut lis_bytes,
        fault: *mut lis_place,
    ) -> lis_status;
    pub fn lis_sender_reply(s: *mut lis_sender, byte: u8, out: *mut lis_bytes);
    pub fn lis_sender_frame(
        s: *const lis_sender,
        out: *mut u8,
        out_len: usize,
        size: *mut usize,
    ) -> lis_status;
    pub fn lis_sender_timer(s: *mut lis_sender, out: *mut lis_bytes);
    pub fn lis_sender_restart(s: *mut lis_sender);
    pub fn lis_sender_phase(s: *const lis_sender) -> lis_phase;
    pub fn lis_sender_outcome(s: *const lis_sender) -> lis_outcome;
    pub fn lis_sender_acknowledged(s: *const lis_sender) -> u64;
    pub fn lis_line_init(line: *mut lis_line, sender: lis_sender);
    pub fn lis_line_connected(line: *mut lis_line) -> u64;
    pub fn lis_line_start(
        line: *mut lis_line,
        out: *mut lis_bytes,
        fault: *mut lis_place,
    ) -> lis_status;
    pub fn lis_line_start_lent(
        line: *mut lis_line,
        texts: *const lis_text,
        texts_len: usize,
        out: *mut lis_bytes,
        fault: *mut lis_place,
    ) -> lis_status;
    pub fn lis_line_reply(line: *mut lis_line, connection: u64, byte: u8, out: *mut lis_bytes);
    pub fn lis_line_frame(
        line: *const lis_line,
        connection: u64,
        out: *mut u8,
        out_len: usize,
        size: *mut usize,
    ) -> lis_status;
    pub fn lis_line_timer(line: *mut lis_line, out: *mut lis_bytes);
    pub fn lis_line_restart(line: *mut lis_line);
    pub fn lis_sender_timer_seconds(s: *const lis_sender, seconds: *mut u32) -> bool;
    pub fn lis_receiver_size() -> usize;
    pub fn lis_receiver_align() -> usize;
    pub fn lis_receiver_init(at: *mut c_void);
    pub fn lis_receiver_end(s: lis_receiver);
    pub fn lis_receiver_set_limit(s: *mut lis_receiver, limit: usize) -> lis_status;
    pub fn lis_receiver_byte(s: *mut lis_receiver, byte: u8, out: *mut lis_step);
    pub fn lis_receiver_hear(
        s: *mut lis_receiver,
        bytes: *const u8,
        bytes_len: usize,
        out: *mut lis_step,
    ) -> usize;
    pub fn lis_receiver_timer(s: *mut lis_receiver, out: *mut lis_step);
    pub fn lis_receiver_restart(s: *mut lis_receiver);
    pub fn lis_receiver_set_room(s: *mut lis_receiver, room: bool);
    pub fn lis_receiver_set_ready(s: *mut lis_receiver, readiness: lis_ready) -> lis_status;
    pub fn lis_receiver_reserve(s: *mut lis_receiver, bytes: u64) -> lis_status;
    pub fn lis_receiver_lend(
        s: *mut lis_receiver,
        buffer: *mut u8,
        buffer_len: usize,
    ) -> lis_status;
    pub fn lis_receiver_set_text_limit(s: *mut lis_receiver, bytes: usize) -> lis_status;
    pub fn lis_receiver_set_careful(s: *mut lis_receiver, careful: bool);
    pub fn lis_receiver_noise(s: *const lis_receiver) -> u64;
    pub fn lis_receiver_is_open(s: *const lis_receiver) -> bool;
    pub fn lis_receiver_timer_seconds(s: *const lis_receiver, seconds: *mut u32) -> bool;
    pub fn lis_receiver_accepted(s: *const lis_receiver) -> u64;
    pub fn lis_receiver_held(s: *const lis_receiver) -> u64;
    pub fn lis_receiver_text_len(s: *const lis_receiver) -> usize;
    pub fn lis_receiver_text(s: *const lis_receiver, out: *mut u8, out_len: usize) -> lis_status;
    pub fn lis_station_size() -> usize;
    pub fn lis_station_align() -> usize;
    pub fn lis_station_init(at: *mut c_void);
    pub fn lis_station_end(s: lis_station);
    pub fn lis_station_begin(s: *mut lis_station, role: lis_role, limit: usize) -> lis_status;
    pub fn lis_station_add_text(
        s: *mut lis_station,
        text: *const u8,
        text_len: usize,
    ) -> lis_status;
    pub fn lis_station_clear(s: *mut lis_station);
    pub fn lis_station_start(
        s: *mut lis_station,
        out: *mut lis_bytes,
        fault: *mut lis_place,
    ) -> lis_status;
    pub fn lis_station_start_lent(
        s: *mut lis_station,
        texts: *const lis_text,
        texts_len: usize,
        out: *mut lis_bytes,
        fault: *mut lis_place,
    ) -> lis_status;
    pub fn lis_station_byte(s: *mut lis_station, byte: u8, out: *mut lis_answer);
    pub fn lis_station_hear(
        s: *mut lis_station,
        bytes: *const u8,
        bytes_len: usize,
        out: *mut lis_answer,
    ) -> usize;
    pub fn lis_station_timer(s: *mut lis_station, out: *mut lis_answer);
    pub fn lis_station_timer_seconds(s: *const lis_station, seconds: *mut u32) -> bool;
    pub fn lis_station_frame(
        s: *const lis_station,
        out: *mut u8,
        out_len: usize,
        size: *mut usize,
    ) -> lis_status;
    pub fn lis_station_give_up(s: *mut lis_station);
    pub fn lis_station_close_line(s: *mut lis_station);
    pub fn lis_station_restart(s: *mut lis_station);
    pub fn lis_station_set_ready(s: *mut lis_station, ready: bool);
    pub fn lis_station_ask_turn(s: *mut lis_station);
    pub fn lis_station_turn_asked(s: *const lis_station) -> bool;
    pub fn lis_station_turn_seconds(s: *const lis_station) -> u32;
    pub fn lis_station_set_careful(s: *mut lis_station, careful: bool);
    pub fn lis_station_noise(s: *const lis_station) -> u64;
    pub fn lis_station_awaits_reply(s: *const lis_station) -> bool;
    pub fn lis_station_reserve(s: *mut lis_station, bytes: u64) -> lis_status;
    pub fn lis_station_lend(
        s: *mut lis_station,
        role: lis_role,
        buffer: *mut u8,
        buffer_len: usize,
    ) -> lis_status;
    pub fn lis_station_phase(s: *const lis_station) -> lis_phase;
    pub fn lis_station_outcome(s: *const lis_station) -> lis_outcome;
    pub fn lis_station_acknowledged(s: *const lis_station) -> u64;
    pub fn lis_station_is_open(s: *const lis_station) -> bool;
    pub fn lis_station_accepted(s: *const lis_station) -> u64;
    pub fn lis_station_held(s: *const lis_station) -> u64;
    pub fn lis_station_text_len(s: *const lis_station) -> usize;
    pub fn lis_station_text(s: *const lis_station, out: *mut u8, out_len: usize) -> lis_status;
    pub fn lis_station_line_init(line: *mut lis_station_line, station: lis_station);
    pub fn lis_station_line_connected(line: *mut lis_station_line);
    pub fn lis_station_line_start(
        line: *mut lis_station_line,
        out: *mut lis_bytes,
        fault: *mut lis_place,
    ) -> lis_status;
    pub fn lis_station_line_start_lent(
        line: *mut lis_station_line,
        texts: *const lis_text,
        texts_len: usize,
        out: *mut lis_bytes,
        fault: *mut lis_place,
    ) -> lis_status;
    pub fn lis_station_line_needs_new(line: *const lis_station_line) -> bool;
    pub fn lis_header_read(
        text: *const u8,
        text_len: usize,
        delimiters: *mut lis_delimiters,
        out: *mut lis_record,
    ) -> lis_status;
    pub fn lis_record_read(
        delimiters: *const lis_delimiters,
        text: *const u8,
        text_len: usize,
        out: *mut lis_record,
    ) -> lis_status;
    pub fn lis_header_part(
        text: *const u8,
        text_len: usize,
        field: usize,
        repeat: usize,
        component: usize,
        out: *mut u8,
        out_len: usize,
        size: *mut usize,
    ) -> lis_status;
    pub fn lis_record_part(
        delimiters: *const lis_delimiters,
        text: *const u8,
        text_len: usize,
        field: usize,
        repeat: usize,
        component: usize,
        out: *mut u8,
        out_len: usize,
        size: *mut usize,
    ) -> lis_status;
    pub fn lis_header_parts(
        text: *const u8,
        text_len: usize,
        out: *mut lis_part,
        out_len: usize,
        count: *mut usize,
    ) -> lis_status;
    pub fn lis_record_parts(
        delimiters: *const lis_delimiters,
        text: *const u8,
        text_len: usize,
        out: *mut lis_part,
        out_len: usize,
        count: *mut usize,
    ) -> lis_status;
    pub fn lis_part_decode(
        delimiters: *const lis_delimiters,
        part: *const u8,
        part_len: usize,
        out: *mut u8,
        out_len: usize,
        size: *mut usize,
    ) -> lis_status;
    pub fn lis_reader_size() -> usize;
    pub fn lis_reader_align() -> usize;
    pub fn lis_reader_init(at: *mut c_void);
    pub fn lis_reader_end(s: lis_reader);
    pub fn lis_reader_read(
        s: *mut lis_reader,
        bytes: *const u8,
        bytes_len: usize,
        out: *mut lis_found,
    ) -> usize;
    pub fn lis_reader_part(
        s: *const lis_reader,
        field: usize,
        repeat: usize,
        component: usize,
        out: *mut u8,
        out_len: usize,
        size: *mut usize,
    ) -> lis_status;
    pub fn lis_reader_parts(
        s: *const lis_reader,
        out: *mut lis_part,
        out_len: usize,
        table: *mut lis_table,
    ) -> lis_status;
    pub fn lis_reader_text(
        s: *const lis_reader,
        out: *mut u8,
        out_len: usize,
        size: *mut usize,
    ) -> lis_status;
    pub fn lis_reader_next(
        s: *mut lis_reader,
        bytes: *const u8,
        bytes_len: usize,
        out: *mut lis_found,
        parts: *mut lis_part,
        parts_len: usize,
        table: *mut lis_table,
    ) -> usize;
    pub fn lis_reader_records(
        s: *mut lis_reader,
        bytes: *const u8,
        bytes_len: usize,
        entries: *mut lis_entry,
        entries_len: usize,
        parts: *mut lis_part,
        parts_len: usize,
        count: *mut usize,
    ) -> usize;
    pub fn lis_reader_columns(
        s: *mut lis_reader,
        bytes: *const u8,
        bytes_len: usize,
        letter: u8,
        columns: *const lis_column,
        columns_len: usize,
        parts: *mut lis_part,
        parts_len: usize,
        out: *mut u8,
        out_len: usize,
        size: *mut usize,
        count: *mut usize,
    ) -> usize;
    pub fn lis_reader_finish(s: *const lis_reader, out: *mut lis_found) -> lis_status;
    pub fn lis_reader_resume(s: *mut lis_reader) -> bool;
    pub fn lis_header_find(bytes: *const u8, bytes_len: usize, begins: *mut bool) -> usize;
    pub fn lis_message_places(
        text: *const u8,
        text_len: usize,
        out: *mut lis_record_place,
        out_len: usize,
        message: *mut lis_message,
        found: *mut lis_found,
    ) -> lis_status;
    pub fn lis_writer_size() -> usize;
    pub fn lis_writer_align() -> usize;
    pub fn lis_writer_init(at: *mut c_void);
    pub fn lis_writer_end(s: lis_writer);
    pub fn lis_writer_start(s: *mut lis_writer, delimiters: *const lis_delimiters) -> lis_status;
    pub fn lis_writer_record(s: *mut lis_writer, letter: u8) -> lis_status;
    pub fn lis_writer_component(
        s: *mut lis_writer,
        bytes: *const u8,
        bytes_len: usize,
    ) -> lis_status;
    pub fn lis_writer_repeat(s: *mut lis_writer, bytes: *const u8, bytes_len: usize) -> lis_status;
    pub fn lis_writer_field(s: *mut lis_writer, bytes: *const u8, bytes_len: usize) -> lis_status;
    pub fn lis_writer_put(s: *mut lis_writer, field: *mut usize) -> lis_status;
    pub fn lis_writer_texts(s: *const lis_writer) -> usize;
    pub fn lis_writer_text_len(s: *const lis_writer, place: usize) -> usize;
    pub fn lis_writer_text(
        s: *const lis_writer,
        place: usize,
        out: *mut u8,
        out_len: usize,
        size: *mut usize,
    ) -> lis_status;
    pub fn lis_version() -> *const c_char;
    pub fn lis_status_text(status: lis_status) -> *const c_char;
    pub fn lis_signal_text(kind: lis_signal_kind) -> *const c_char;
    pub fn lis_fault_text(fault: lis_fault) -> *const c_char;
    pub fn lis_phase_text(phase: lis_phase) -> *const c_char;
    pub fn lis_outcome_text(outcome: lis_outcome) -> *const c_char;
    pub fn lis_note_text(note: lis_note) -> *const c_char;
    pub fn lis_ready_text(readiness: lis_ready) -> *const c_char;
    pub fn lis_role_text(role: lis_role) -> *const c_char;
    pub fn lis_found_text(kind: lis_found_kind) -> *const c_char;
    pub fn lis_reason_text(reason: lis_reason) -> *const c_char;
}
