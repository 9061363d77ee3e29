//! The lent page table, seen as records.

use std::ops::Range;

use crate::page::{Record, RECORD};

/// Why the bytes of one record can always be taken as a record.
const WHOLE: &str = "a record's bytes are a whole record";

/// Whole records that lie one after another in lent bytes: the page table, or
/// the part of it that is handed on to be written.
pub(crate) struct Records<'t>(&'t mut [u8]);

impl<'t> Records<'t> {
    /// The records of a table; there are none if bytes are left over.
    pub fn new(table: &'t mut [u8]) -> Option<Self> {
        (table.len() % RECORD == 0).then_some(Records(table))
    }

    /// How many records there are.
    pub fn len(&self) -> usize {
        self.0.len() / RECORD
    }

    /// The record at an index, if there is one.
    pub fn get(&self, index: usize) -> Option<&Record> {
        self.0.chunks_exact(RECORD).nth(index)?.try_into().ok()
    }

    /// The record at an index where there is one, to be written.
    pub fn at_mut(&mut self, index: usize) -> &mut Record {
        let record = &mut self.0[bytes(index..index + 1)];
        record.try_into().expect(WHOLE)
    }

    pub fn iter(&self) -> impl DoubleEndedIterator<Item = &Record> + ExactSizeIterator {
        self.part(0..self.len())
    }

    pub fn iter_mut(&mut self) -> impl Iterator<Item = &mut Record> {
        self.0
            .chunks_exact_mut(RECORD)
            .map(|record| record.try_into().expect(WHOLE))
    }

    /// The records at these indices.
    pub fn part(
        &self,
        indices: Range<usize>,
    ) -> impl DoubleEndedIterator<Item = &Record> + ExactSizeIterator {
        self.0[bytes(indices)]
            .chunks_exact(RECORD)
            .map(|record| record.try_into().expect(WHOLE))
    }

    /// The records at these indices, to be written.
    pub fn part_mut(&mut self, indices: Range<usize>) -> Records<'_> {
        Records(&mut self.0[bytes(indices)])
    }

    pub fn fill(&mut self, record: Record) {
        for place in self.iter_mut() {
            *place = record;
        }
    }
}

/// Where the bytes of the records at these indices are.
fn bytes(indices: Range<usize>) -> Range<usize> {
    RECORD * indices.start..RECORD * indices.end
}
