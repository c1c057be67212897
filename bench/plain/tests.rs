//! The crates with their tests, for `rustc --test`. Nothing is proved here.
#![allow(dead_code, unused)]

#[macro_use]
mod macros;
mod prelude;
mod standard;

mod atomic_table;
mod csv;
mod indexmap;
mod itoa;
mod strsim;

// CRATES
