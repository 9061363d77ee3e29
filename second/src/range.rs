//! Addresses, units and ranges. Everything here is reckoned without wrapping:
//! byte addresses are turned into page numbers and compared by subtraction, so
//! that no sum can pass 2^64.

use crate::page::Record;
use crate::records::Records;
use crate::refusal::Refusal;

/// Bytes in a page.
pub const PAGE: u64 = 4_096;
/// Pages in a large page.
pub const LARGE: u64 = 512;
/// The address of the first page.
pub const MEMORY: u64 = 0x8000_0000;
/// Memory is at most this many pages, and so is the range of one call.
pub const MAX_PAGES: usize = 4_096;
/// Guest addresses are below 2^32.
const GUEST_PAGES: u64 = (1 << 32) / PAGE;

/// The unit of a mapping.
#[derive(Clone, Copy, Debug, PartialEq, Eq)]
pub enum Size {
    /// Type 0, 4 KiB.
    Small,
    /// Type 1, 2 MiB.
    Large,
}

impl Size {
    /// The size that a type argument names; above 1 it names none (4).
    pub(crate) fn of_type(number: u64) -> Result<Size, Refusal> {
        match number {
            0 => Ok(Size::Small),
            1 => Ok(Size::Large),
            _ => Err(Refusal::Argument),
        }
    }

    pub const fn pages(self) -> u64 {
        match self {
            Size::Small => 1,
            Size::Large => LARGE,
        }
    }

    pub const fn bytes(self) -> u64 {
        self.pages() * PAGE
    }

    /// The pages in a count of these units, 1 to 4,096 of them (4). "Range above
    /// 4,096 pages" is in pages of 4 KiB for both types, so 8 large units are
    /// the most. The count is held to the limit before it is multiplied.
    pub(crate) fn count(self, units: u64) -> Result<u64, Refusal> {
        if units == 0 || units > MAX_PAGES as u64 / self.pages() {
            return Err(Refusal::Argument);
        }
        Ok(units * self.pages())
    }
}

/// The pages in a byte length, which is neither 0 nor broken (4). The limit of
/// 4,096 pages is not looked at here, because regions are free of it.
pub(crate) fn whole_pages(length: u64) -> Result<u64, Refusal> {
    if length == 0 || length % PAGE != 0 {
        return Err(Refusal::Argument);
    }
    Ok(length / PAGE)
}

/// Refuses an address that is not on a multiple of `step` (5).
fn aligned(address: u64, step: u64) -> Result<u64, Refusal> {
    if address % step != 0 {
        return Err(Refusal::Address);
    }
    Ok(address)
}

/// A range of memory's pages, by index into the page table.
#[derive(Clone, Copy, Debug, PartialEq, Eq)]
pub struct PageRange {
    first: usize,
    count: usize,
}

impl PageRange {
    /// The `pages` (at least 1) from an address on, which must be a multiple
    /// of `step` and lie in a memory of `memory` pages (5).
    pub(crate) fn new(
        base: u64,
        pages: u64,
        step: u64,
        memory: usize,
    ) -> Result<PageRange, Refusal> {
        let offset = aligned(base, step)?
            .checked_sub(MEMORY)
            .ok_or(Refusal::Address)?;
        let first = offset / PAGE;
        if pages > (memory as u64).saturating_sub(first) {
            return Err(Refusal::Address);
        }
        Ok(PageRange {
            first: first as usize,
            count: pages as usize,
        })
    }

    pub(crate) fn contains(self, other: PageRange) -> bool {
        self.first <= other.first && other.end() <= self.end()
    }

    fn end(self) -> usize {
        self.first + self.count
    }

    /// The named part of the table.
    #[inline]
    pub(crate) fn of<'r>(self, records: &'r Records) -> impl Iterator<Item = &'r Record> {
        records.part(self.first..self.end())
    }

    /// The named part of the table, to be written.
    #[inline]
    pub(crate) fn of_mut<'r>(self, records: &'r mut Records) -> Records<'r> {
        records.part_mut(self.first..self.end())
    }
}

/// A range of guest pages, by guest page number; it ends by 2^20.
#[derive(Clone, Copy, Debug, PartialEq, Eq)]
pub struct GuestRange {
    first: u32,
    count: u32,
}

impl GuestRange {
    /// The `pages` (at least 1) from a guest address on, which must be on a
    /// boundary of `size`; they may not end past 2^32 (5).
    pub(crate) fn new(guest: u64, pages: u64, size: Size) -> Result<GuestRange, Refusal> {
        let first = aligned(guest, size.bytes())? / PAGE;
        if pages > GUEST_PAGES.saturating_sub(first) {
            return Err(Refusal::Address);
        }
        Ok(GuestRange {
            first: first as u32,
            count: pages as u32,
        })
    }

    /// What a mapping of this size at a guest page covers: the page itself, or
    /// "the 512 guest pages of the 2 MiB block around it".
    pub(crate) fn around(guest: u32, size: Size) -> GuestRange {
        let count = size.pages() as u32;
        GuestRange {
            first: guest & !(count - 1), // the count is a power of two
            count,
        }
    }

    /// The first guest page.
    pub fn first(self) -> u32 {
        self.first
    }

    /// How many guest pages there are, at least 1.
    pub fn count(self) -> u32 {
        self.count
    }

    /// The first guest page past the range.
    pub fn end(self) -> u32 {
        self.first + self.count
    }

    /// The guest pages in rising order.
    pub fn pages(self) -> impl Iterator<Item = u32> {
        self.first..self.end()
    }

    pub fn contains(self, other: GuestRange) -> bool {
        self.first <= other.first && other.end() <= self.end()
    }

    pub fn overlaps(self, other: GuestRange) -> bool {
        self.first < other.end() && other.first < self.end()
    }

    /// The place of a guest page in the range, if it is there.
    pub fn place_of(self, guest: u32) -> Option<usize> {
        let place = guest.checked_sub(self.first)?;
        (place < self.count).then_some(place as usize)
    }
}
