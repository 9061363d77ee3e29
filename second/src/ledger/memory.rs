//! Pages between the host and the free: convert, reclaim, and what "free" is.

use super::{Ledger, Outcome};
use crate::ids::HartId;
use crate::page::{Page, Record};
use crate::range::{PageRange, Size, PAGE};
use crate::records::Records;
use crate::refusal::Refusal;

impl Ledger {
    /// Call 1.
    pub(super) fn convert(
        &mut self,
        mut records: Records,
        hart: HartId,
        base: u64,
        count: u64,
    ) -> Outcome {
        let range = small_range(&records, base, count)?; // 4, 5
        require_ordinary(range.of(&records))?; // 6
        self.require_outside(hart)?; // 12

        let since = self.global.version();
        range
            .of_mut(&mut records)
            .fill(Page::Converting { since }.record());
        Ok(0)
    }

    /// Call 2.
    pub(super) fn reclaim(
        &mut self,
        mut records: Records,
        hart: HartId,
        base: u64,
        count: u64,
    ) -> Outcome {
        let range = small_range(&records, base, count)?; // 4, 5
        self.require_free(range.of(&records))?; // 6, 7
        self.require_outside(hart)?; // 12

        range.of_mut(&mut records).fill(Page::Ordinary.record());
        Ok(0)
    }

    /// Refuses pages that are not free: any of another kind than 1 or 2 (6),
    /// and only then any of kind 1 whose fence is not done (7).
    pub(super) fn require_free<'r>(
        &self,
        records: impl Iterator<Item = &'r Record>,
    ) -> Result<(), Refusal> {
        let mut all_done = true;
        for record in records {
            match Page::read(record) {
                Some(Page::Free) => {}
                Some(Page::Converting { since }) => all_done &= self.global.is_done(since),
                _ => return Err(Refusal::Kind),
            }
        }
        if all_done {
            Ok(())
        } else {
            Err(Refusal::NotDone)
        }
    }
}

/// Refuses pages that are not the host's (6).
#[inline]
pub(super) fn require_ordinary<'r>(
    records: impl Iterator<Item = &'r Record>,
) -> Result<(), Refusal> {
    for record in records {
        if Page::read(record) != Some(Page::Ordinary) {
            return Err(Refusal::Kind);
        }
    }
    Ok(())
}

/// A range named by base and a count of 4 KiB pages (4, 5).
pub(super) fn small_range(records: &Records, base: u64, count: u64) -> Result<PageRange, Refusal> {
    let pages = Size::Small.count(count)?; // 4
    PageRange::new(base, pages, PAGE, records.len()) // 5
}
