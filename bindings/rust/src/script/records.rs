//! The records of a script, as the archive writes them: tables of words of 64 bits
//! (`crates/wast_script_records/src/lib.rt` has the layout).

use super::Span;
use std::ops::Range;

/// What is written for a number or a string that is absent.
const NONE: u64 = u64::MAX;

/// The bytes of all records.
pub(super) struct Records(Vec<u8>);

impl Records {
    /// Records that the archive wrote.
    pub(super) fn new(bytes: Vec<u8>) -> Records {
        let records = Records(bytes);
        assert_eq!(records.word(0), 2, "librigyomad.a writes another layout of records");
        records
    }

    /// The word after so many bytes.
    fn word(&self, at: usize) -> u64 {
        let bytes = self.0[at..at + 8].try_into().expect("8 bytes");
        u64::from_le_bytes(bytes)
    }

    /// A word of the header.
    fn header(&self, number: usize) -> usize {
        self.word(8 * number) as usize
    }

    /// The record of a number, in the table whose offset and count are two words of the header.
    fn record(&self, table: usize, words: usize, number: usize) -> Record<'_> {
        assert!(number < self.header(table + 1), "librigyomad.a has no record {number}");
        Record { records: self, at: self.header(table) + 8 * words * number }
    }

    /// How many commands there are.
    pub(super) fn commands(&self) -> usize {
        self.header(2)
    }

    pub(super) fn command(&self, number: usize) -> Record<'_> {
        self.record(1, 14, number)
    }

    pub(super) fn module(&self, number: usize) -> Record<'_> {
        self.record(3, 20, number)
    }

    pub(super) fn action(&self, number: usize) -> Record<'_> {
        self.record(5, 10, number)
    }

    pub(super) fn value(&self, number: usize) -> Record<'_> {
        self.record(7, 4, number)
    }

    pub(super) fn lane(&self, number: usize) -> Record<'_> {
        self.record(9, 2, number)
    }
}

/// A record.
#[derive(Clone, Copy)]
pub(super) struct Record<'s> {
    records: &'s Records,
    at: usize,
}

impl<'s> Record<'s> {
    /// A word of the record.
    pub(super) fn word(self, number: usize) -> u64 {
        self.records.word(self.at + 8 * number)
    }

    /// A word that is a size or an offset.
    pub(super) fn size(self, number: usize) -> usize {
        self.word(number) as usize
    }

    /// A word that is the number of a record, if there is one.
    pub(super) fn index(self, number: usize) -> Option<usize> {
        Some(self.word(number)).filter(|word| *word != NONE).map(|word| word as usize)
    }

    /// Two words that are a part of a list: its start, and how many elements it has.
    pub(super) fn range(self, number: usize) -> Range<usize> {
        let start = self.size(number);
        start..start + self.size(number + 1)
    }

    /// Two words that are a string, if there is one.
    pub(super) fn bytes(self, number: usize) -> Option<&'s [u8]> {
        let start = self.index(number)? + self.records.header(11);
        Some(&self.records.0[start..start + self.size(number + 1)])
    }

    /// Two words that are a text, if there is one.
    pub(super) fn text(self, number: usize) -> Option<&'s str> {
        self.bytes(number).map(|bytes| std::str::from_utf8(bytes).expect("a text is UTF-8"))
    }

    /// Three words that are a place.
    pub(super) fn span(self, number: usize) -> Span {
        let (offset, line) = (self.size(number), self.size(number + 1));
        Span { offset, line, column: self.size(number + 2) }
    }
}
