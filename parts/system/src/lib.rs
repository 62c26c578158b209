//! What parts needs of the system and the standard library does not give everywhere: an end with a sentence where memory runs
//! out, temporary files that a signal removes, whether standard output is lost (closed from the start, or when it is closed),
//! and which file is open.
//!
//! The calls are those of the libraries that the standard library links. Every unsafe line of parts is in this crate.

#[cfg_attr(unix, path = "unix.rs")]
#[cfg_attr(windows, path = "windows.rs")]
mod calls;

use std::alloc::{GlobalAlloc, Layout, System};

pub use calls::{
    close_standard_output, identity_of, new_file, parted, standard_input, standard_output, standard_output_is_open,
    Removed,
};

const REFUSED: i32 = 1;
const OUT_OF_MEMORY: &[u8] = b"there is not enough memory for this; close other programs, or split the file\n";

/// Memory from the system. Where there is none left, the program says so and ends with 1, and not by a signal.
pub struct OrEnd;

// Safety: each call is handed on to the system's allocator as it is, and no null pointer comes back.
unsafe impl GlobalAlloc for OrEnd {
    unsafe fn alloc(&self, layout: Layout) -> *mut u8 {
        or_end(System.alloc(layout))
    }

    unsafe fn alloc_zeroed(&self, layout: Layout) -> *mut u8 {
        or_end(System.alloc_zeroed(layout))
    }

    unsafe fn realloc(&self, memory: *mut u8, layout: Layout, size: usize) -> *mut u8 {
        or_end(System.realloc(memory, layout, size))
    }

    unsafe fn dealloc(&self, memory: *mut u8, layout: Layout) {
        System.dealloc(memory, layout);
    }
}

fn or_end(memory: *mut u8) -> *mut u8 {
    if memory.is_null() {
        calls::end(OUT_OF_MEMORY, REFUSED);
    }
    memory
}

/// Which file it is, whatever path or link leads to it: the device, and the number of the file there.
#[derive(Clone, Copy, PartialEq, Eq, Debug)]
pub struct Identity(u64, u64);
