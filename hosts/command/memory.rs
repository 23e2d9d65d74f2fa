//! Memory that cannot be had ends the command with a message and status 3, and not with a signal.
use crate::system;
use std::alloc::{GlobalAlloc, Layout, System};
use std::io::Write;
use std::{io, process};

#[global_allocator]
static MEMORY: Memory = Memory;

struct Memory;

// SAFETY: what the system's allocator gives is passed on, and never a NULL.
unsafe impl GlobalAlloc for Memory {
    unsafe fn alloc(&self, layout: Layout) -> *mut u8 {
        had(System.alloc(layout))
    }

    unsafe fn alloc_zeroed(&self, layout: Layout) -> *mut u8 {
        had(System.alloc_zeroed(layout))
    }

    unsafe fn realloc(&self, place: *mut u8, layout: Layout, size: usize) -> *mut u8 {
        had(System.realloc(place, layout, size))
    }

    unsafe fn dealloc(&self, place: *mut u8, layout: Layout) {
        System.dealloc(place, layout)
    }
}

fn had(place: *mut u8) -> *mut u8 {
    if place.is_null() {
        system::remove_temporary();
        let _ = io::stderr().write_all(b"srci: there is not enough memory\n");
        process::exit(3);
    }
    place
}
