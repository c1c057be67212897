//! Numbers in decimal.

use std::fmt::{Display, Write};

/// The types of numbers that are written.
pub trait Integer: Copy + Display {}

impl Integer for u8 {}
impl Integer for u16 {}
impl Integer for u32 {}
impl Integer for u64 {}
impl Integer for usize {}
impl Integer for i32 {}
impl Integer for i64 {}
impl Integer for i128 {}

pub struct Buffer(std::string::String);

impl Buffer {
    pub fn new() -> Buffer {
        Buffer(std::string::String::new())
    }

    pub fn format<I: Integer>(&mut self, n: I) -> &str {
        self.0.clear();
        write!(self.0, "{n}").expect("memory");
        &self.0
    }
}
