//! The block of a handle.
use lislink_sys as sys;
use std::alloc::{alloc, dealloc, handle_alloc_error, Layout};

/// A handle of the library.
pub(crate) trait Handle: Copy {
    fn layout() -> Layout;
    unsafe fn begin(at: *mut u8) -> Self;
    unsafe fn end(self);
    fn at(self) -> *mut u8;
}

macro_rules! handle {
    ($name:ident, $size:ident, $align:ident, $init:ident, $end:ident) => {
        impl Handle for sys::$name {
            fn layout() -> Layout {
                let (size, align) = unsafe { (sys::$size(), sys::$align()) };
                Layout::from_size_align(size, align).expect("the size and the alignment of a block")
            }
            unsafe fn begin(at: *mut u8) -> Self {
                sys::$init(at.cast());
                Self { at: at.cast() }
            }
            unsafe fn end(self) {
                sys::$end(self);
            }
            fn at(self) -> *mut u8 {
                self.at.cast()
            }
        }
    };
}

handle!(lis_scanner, lis_scanner_size, lis_scanner_align, lis_scanner_init, lis_scanner_end);
handle!(lis_sender, lis_sender_size, lis_sender_align, lis_sender_init, lis_sender_end);
handle!(lis_receiver, lis_receiver_size, lis_receiver_align, lis_receiver_init, lis_receiver_end);
handle!(lis_station, lis_station_size, lis_station_align, lis_station_init, lis_station_end);
handle!(lis_reader, lis_reader_size, lis_reader_align, lis_reader_init, lis_reader_end);
handle!(lis_writer, lis_writer_size, lis_writer_align, lis_writer_init, lis_writer_end);

/// A block with the one handle that it has.
pub(crate) struct Block<H: Handle>(H);

// The library has no variable of its own, and its heap is malloc: a block may be used by one thread after another.
unsafe impl<H: Handle> Send for Block<H> {}

impl<H: Handle> Block<H> {
    pub(crate) fn new() -> Self {
        let layout = H::layout();
        let at = unsafe { alloc(layout) };
        if at.is_null() {
            handle_alloc_error(layout);
        }
        Block(unsafe { H::begin(at) })
    }

    pub(crate) fn get(&mut self) -> &mut H {
        &mut self.0
    }

    /// A copy of the handle, for what is owned with the block, and for calls that change nothing.
    pub(crate) fn handle(&self) -> H {
        self.0
    }
}

impl<H: Handle> Drop for Block<H> {
    fn drop(&mut self) {
        unsafe {
            self.0.end();
            dealloc(self.0.at(), H::layout());
        }
    }
}
