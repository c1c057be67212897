//! The reader of records: as RFC 4180 says, with what real files have besides. A record ends at `\r`, `\n` or both,
//! empty lines are none, a quote within a field is a byte like others, and what stands behind a closing quote belongs to
//! the field. A byte order mark at the beginning is skipped.

use std::vec::Vec;

type Global = ();

/// The fields of a record, of any bytes.
pub struct ByteRecord {
    bytes: Vec<u8>,
    ends: Vec<usize>,
}

impl ByteRecord {
    pub fn new(_: Global) -> ByteRecord {
        ByteRecord { bytes: Vec::new(), ends: Vec::new() }
    }

    pub fn len(&self) -> usize {
        self.ends.len()
    }

    pub fn is_empty(&self) -> bool {
        self.ends.is_empty()
    }

    pub fn get(&self, k: usize) -> Option<&[u8]> {
        let end = *self.ends.get(k)?;
        let start = if k == 0 { 0 } else { self.ends[k - 1] };
        Some(&self.bytes[start..end])
    }

    fn clear(&mut self) {
        self.bytes.clear();
        self.ends.clear();
    }

    fn end_field(&mut self) {
        self.ends.push(self.bytes.len());
    }
}

/// How records are read. Only what the sources ask for is there: no header, and records of any length.
pub struct ReaderBuilder;

impl ReaderBuilder {
    pub fn new() -> ReaderBuilder {
        ReaderBuilder
    }

    pub fn has_headers(&mut self, yes: bool) -> &mut ReaderBuilder {
        std::assert!(!yes);
        self
    }

    pub fn flexible(&mut self, yes: bool) -> &mut ReaderBuilder {
        std::assert!(yes);
        self
    }

    pub fn from_reader<'t>(&self, _: Global, text: &'t [u8]) -> Reader<&'t [u8]> {
        Reader { left: text.strip_prefix(b"\xef\xbb\xbf").unwrap_or(text) }
    }
}

/// Where a byte stands.
#[derive(Clone, Copy, PartialEq)]
enum At {
    FieldStart,
    Field,
    Quoted,
    BehindQuote,
}

pub struct Reader<T> {
    left: T,
}

impl<'t> Reader<&'t [u8]> {
    /// Reads the next record, and answers whether there was one.
    pub fn read_byte_record(&mut self, row: &mut ByteRecord) -> Result<bool, ()> {
        row.clear();
        while let [b'\r' | b'\n', rest @ ..] = self.left {
            self.left = rest;
        }
        if self.left.is_empty() {
            return Ok(false);
        }
        let mut at = At::FieldStart;
        while let [byte, rest @ ..] = self.left {
            self.left = rest;
            at = match (at, *byte) {
                (At::Quoted, b'"') => At::BehindQuote,
                (At::FieldStart, b'"') => At::Quoted,
                (At::BehindQuote, b'"') | (At::Quoted, _) => {
                    row.bytes.push(*byte);
                    At::Quoted
                }
                (_, b'\r' | b'\n') => {
                    row.end_field();
                    return Ok(true);
                }
                (_, b',') => {
                    row.end_field();
                    At::FieldStart
                }
                _ => {
                    row.bytes.push(*byte);
                    At::Field
                }
            };
        }
        row.end_field();
        Ok(true)
    }
}
