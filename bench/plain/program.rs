//! The whole program, as `main` of `mdvsp_main` says. It says of itself that no proof went before it.
#![allow(dead_code, unused)]

#[macro_use]
mod macros;
mod prelude;
mod standard;

mod atomic_table;
mod csv;
mod indexmap;
mod itoa;
mod strsim;

// CRATES

use std::alloc::{GlobalAlloc, Layout, System};
use std::io::IsTerminal;
use std::process::{ExitCode, exit};

/// What is said of this program.
const UNPROVED: &str = "mdvsp-quick: plain Rust, from the same sources as mdvsp, built without its proof";

/// The status of out of memory.
const NO_MEMORY: i32 = 6;

/// The system's memory. Where it has no more, the program ends: in the calls of plain Rust no error would come back.
struct Ends;

#[global_allocator]
static MEMORY: Ends = Ends;

fn found(place: *mut u8) -> *mut u8 {
    if place.is_null() {
        exit(NO_MEMORY);
    }
    place
}

// Each call hands on to the system's what it is given, so its caller keeps that one's conditions.
unsafe impl GlobalAlloc for Ends {
    unsafe fn alloc(&self, layout: Layout) -> *mut u8 {
        found(unsafe { System.alloc(layout) })
    }

    unsafe fn alloc_zeroed(&self, layout: Layout) -> *mut u8 {
        found(unsafe { System.alloc_zeroed(layout) })
    }

    unsafe fn realloc(&self, place: *mut u8, layout: Layout, size: usize) -> *mut u8 {
        found(unsafe { System.realloc(place, layout, size) })
    }

    unsafe fn dealloc(&self, place: *mut u8, layout: Layout) {
        unsafe { System.dealloc(place, layout) }
    }
}

fn main() -> ExitCode {
    let asked = std::env::args_os().skip(1).eq(["--version"]);
    let quiet = std::env::args_os().nth(1).is_some_and(|word| word == "--quiet");
    if !asked && !quiet && std::io::stderr().is_terminal() {
        std::eprintln!("{UNPROVED}");
    }
    let ended = mdvsp_main::main(standard::rt::HostRuntime);
    if asked {
        std::println!("{UNPROVED}");
    }
    ended
}
