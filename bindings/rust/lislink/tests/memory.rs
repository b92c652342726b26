//! A text that there is no memory for: no reply is due, and the receiver restarts. With room reserved it takes none.
use lislink::{Note, Receiver, Status};
use std::alloc::{GlobalAlloc, Layout, System};
use std::cell::Cell;

thread_local! {
    /// Whether this thread has no memory.
    static REFUSES: Cell<bool> = const { Cell::new(false) };
}

/// The system's heap, unless the thread has no memory.
struct Refusing;

unsafe impl GlobalAlloc for Refusing {
    unsafe fn alloc(&self, layout: Layout) -> *mut u8 {
        if REFUSES.get() {
            std::ptr::null_mut()
        } else {
            unsafe { System.alloc(layout) }
        }
    }

    unsafe fn dealloc(&self, at: *mut u8, layout: Layout) {
        unsafe { System.dealloc(at, layout) }
    }
}

#[global_allocator]
static HEAP: Refusing = Refusing;

#[test]
fn no_reply_is_due_for_a_text_that_there_is_no_memory_for() {
    let mut receiver = Receiver::new();
    for refuses in [true, false] {
        let mut bytes: &[u8] = b"\x05\x021H|\\^&\r\x03E5\r\n\x04";
        receiver.next_step(&mut bytes).sent();
        assert!(receiver.is_open());
        REFUSES.set(refuses);
        let answer = receiver.next_step(&mut bytes);
        REFUSES.set(false);
        let note = if refuses { Note::OutOfMemory } else { Note::Accepted };
        assert_eq!((answer.step().note, answer.text().is_none()), (note, refuses));
        assert_eq!((answer.reply().is_none(), bytes), (refuses, &b"\x04"[..]));
        answer.sent();
        assert_eq!(receiver.is_open(), !refuses);
        receiver.restart();
    }
}

#[test]
fn room_that_was_reserved_needs_no_memory() {
    let bytes: &[u8] = b"\x05\x021H|\\^&\r\x03E5\r\n\x04";
    let mut receiver = Receiver::new();
    receiver.reserve(6).unwrap();
    let (mut texts, mut rest) = (0, bytes);
    REFUSES.set(true);
    while !rest.is_empty() {
        let answer = receiver.next_step(&mut rest);
        texts += usize::from(answer.text().is_some());
        answer.sent();
    }
    let refused = receiver.reserve(1_000_000).err().map(|it| it.status);
    REFUSES.set(false);
    assert_eq!((texts, refused), (1, Some(Status::OutOfMemory)));
}
