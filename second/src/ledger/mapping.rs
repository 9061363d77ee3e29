//! Guest pages: mapping them (11, 12) and blocking, unblocking and removing
//! them (17 to 19).

use super::memory::require_ordinary;
use super::{Ledger, Outcome};
use crate::ids::{HartId, SlotId};
use crate::page::{claim, Mapping, Page};
use crate::range::{whole_pages, GuestRange, PageRange, Size, MAX_PAGES, PAGE};
use crate::records::Records;
use crate::refusal::Refusal;

/// Stands for the record of a guest page that none claims: past every table.
const UNCLAIMED: u16 = u16::MAX;

/// Pages about to be given to guest pages, page by page.
struct Target {
    size: Size,
    pages: PageRange,
    guest: GuestRange,
}

impl Target {
    /// `pages` from `base` on at guest address `guest`, both on a boundary of
    /// the size (5).
    fn new(
        records: &Records,
        size: Size,
        pages: u64,
        base: u64,
        guest: u64,
    ) -> Result<Target, Refusal> {
        Ok(Target {
            size,
            pages: PageRange::new(base, pages, size.bytes(), records.len())?,
            guest: GuestRange::new(guest, pages, size)?,
        })
    }
}

/// What calls 17 to 19 do to a mapped page.
#[derive(Clone, Copy)]
pub(super) enum Change {
    Invalidate,
    Validate,
    Remove,
}

impl Ledger {
    /// Call 11. The source is as many pages as the dest, but for type 1 too it
    /// need only lie on 4 KiB: the 2 MiB rule names "dest, base and guest".
    pub(super) fn measured(
        &mut self,
        records: Records,
        hart: HartId,
        slot: SlotId,
        [source, dest, kind, count, guest]: [u64; 5],
    ) -> Outcome {
        let size = Size::of_type(kind)?; // 4
        let pages = size.count(count)?; // 4
        let source = PageRange::new(source, pages, PAGE, records.len())?; // 5
        let target = Target::new(&records, size, pages, dest, guest)?; // 5
        require_ordinary(source.of(&records))?; // 6
        self.map(records, hart, slot, target) // 6 and on
    }

    /// Call 12.
    pub(super) fn zero(
        &mut self,
        records: Records,
        hart: HartId,
        slot: SlotId,
        [base, kind, count, guest]: [u64; 4],
    ) -> Outcome {
        let size = Size::of_type(kind)?; // 4
        let pages = size.count(count)?; // 4
        let target = Target::new(&records, size, pages, base, guest)?; // 5
        self.map(records, hart, slot, target) // 6 and on
    }

    /// What 11 and 12 have in common, from the dest's kinds on.
    fn map(&mut self, mut records: Records, hart: HartId, slot: SlotId, target: Target) -> Outcome {
        let Target { size, pages, guest } = target;
        self.require_free(pages.of(&records))?; // 6, 7
        if !self.slot(slot).regions.hold(guest) {
            return Err(Refusal::Region); // 10
        }
        let claims_target = |record| match claim(record, slot) {
            Some(claimed) => guest.place_of(claimed).is_some(),
            None => false,
        };
        if records.iter().any(claims_target) {
            return Err(Refusal::AlreadyMapped); // 11
        }
        self.require_outside(hart)?; // 12

        let slot = slot.byte();
        for (record, guest) in pages.of_mut(&mut records).iter_mut().zip(guest.pages()) {
            let mapping = Mapping { guest, size };
            *record = Page::Present { slot, mapping }.record();
        }
        Ok(0)
    }

    /// Calls 17 to 19. The table is passed once to find the records meant, and
    /// then the range twice, to check and to write.
    pub(super) fn change(
        &mut self,
        mut records: Records,
        hart: HartId,
        slot: SlotId,
        change: Change,
        guest: u64,
        length: u64,
    ) -> Outcome {
        let pages = Size::Small.count(whole_pages(length)?)?; // 4
        let range = GuestRange::new(guest, pages, Size::Small)?; // 5
        let meant = meant(&records, slot, range);
        let meant = &meant[..range.count() as usize];
        let fence = self.slot(slot).fence;
        let mut all_done = true;
        let mut all_inside = true;
        for &index in meant {
            let page = records.get(usize::from(index)).and_then(Page::read);
            let mapping = match (change, page) {
                (Change::Invalidate, Some(Page::Present { mapping, .. })) => mapping,
                (Change::Validate | Change::Remove, Some(Page::Blocked { mapping, since, .. })) => {
                    all_done &= fence.is_done(since);
                    mapping
                }
                _ => return Err(Refusal::Kind), // 6
            };
            all_inside &= range.contains(mapping.extent());
        }
        if !all_done {
            return Err(Refusal::NotDone); // 7
        }
        self.require_outside(hart)?; // 12
        if !all_inside {
            return Err(Refusal::LargeSplit); // 14
        }

        let slot = slot.byte();
        let since = fence.version();
        match change {
            Change::Invalidate => rewrite(&mut records, meant, |mapping| Page::Blocked {
                slot,
                mapping,
                since,
            }),
            Change::Validate => rewrite(&mut records, meant, |mapping| Page::Present {
                slot,
                mapping,
            }),
            Change::Remove => rewrite(&mut records, meant, |_| Page::Free),
        }
        Ok(0)
    }
}

/// Writes the records meant, each as the page that its mapping becomes. A
/// record claims one guest page, so each is meant at most once.
fn rewrite(records: &mut Records, meant: &[u16], page: impl Fn(Mapping) -> Page) {
    for &index in meant {
        let record = records.at_mut(usize::from(index));
        if let Some(Page::Present { mapping, .. } | Page::Blocked { mapping, .. }) =
            Page::read(record)
        {
            *record = page(mapping).record();
        }
    }
}

/// For each guest page of the range, the index of the record meant: "where
/// several records claim one guest page of a slot, the lowest page index is
/// meant". The table is walked from its end, so the lowest is noted last.
///
/// Left open: whether claimants that are not meant count for 6, 7 or 14. Only
/// the meant record says what a guest page is, so they are not looked at, and
/// they are not written.
fn meant(records: &Records, slot: SlotId, range: GuestRange) -> [u16; MAX_PAGES] {
    let mut meant = [UNCLAIMED; MAX_PAGES];
    for (index, record) in records.iter().enumerate().rev() {
        if let Some(place) = claim(record, slot).and_then(|guest| range.place_of(guest)) {
            meant[place] = index as u16; // a table has at most 4,096 records
        }
    }
    meant
}
