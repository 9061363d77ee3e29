//! The life of a TVM: create, finalize, destroy, and what it is given that no
//! guest page maps (regions, pool pages, vCPUs).

use super::memory::small_range;
use super::{Ledger, Outcome};
use crate::ids::{HartId, SlotId, VcpuId};
use crate::page::{Page, Record};
use crate::range::{whole_pages, GuestRange, PageRange, Size, PAGE};
use crate::records::Records;
use crate::refusal::Refusal;
use crate::slot::Phase;

/// A directory is 4 pages, and lies on a multiple of its size (16 KiB).
const DIRECTORY: u64 = 4;

impl Ledger {
    /// Call 5.
    pub(super) fn create(
        &mut self,
        mut records: Records,
        hart: HartId,
        directory: u64,
        state: u64,
    ) -> Outcome {
        let memory = records.len();
        let directory = PageRange::new(directory, DIRECTORY, DIRECTORY * PAGE, memory)?; // 5
        let state = PageRange::new(state, 1, PAGE, memory)?; // 5
        if directory.contains(state) {
            return Err(Refusal::Address); // 5
        }
        // All five pages in one pass, as 6 for the state page comes before 7
        // for the directory.
        self.require_free(directory.of(&records).chain(state.of(&records)))?; // 6, 7
        let slot = SlotId::all()
            .find(|&slot| self.slot(slot).is_vacant())
            .ok_or(Refusal::Full)?; // 9
        self.require_outside(hart)?; // 12

        let owner = slot.byte();
        directory
            .of_mut(&mut records)
            .fill(Page::Directory { slot: owner }.record());
        state
            .of_mut(&mut records)
            .fill(Page::State { slot: owner }.record());
        self.slot_mut(slot).phase = Phase::Initializing;
        Ok(slot.number())
    }

    /// Call 6.
    pub(super) fn finalize(&mut self, hart: HartId, slot: SlotId) -> Outcome {
        self.require_outside(hart)?; // 12

        self.slot_mut(slot).phase = Phase::Runnable;
        Ok(0)
    }

    /// Call 8.
    pub(super) fn destroy(&mut self, mut records: Records, hart: HartId, slot: SlotId) -> Outcome {
        self.require_outside(hart)?; // 12
        if !self.harts_inside(slot).is_empty() {
            return Err(Refusal::Busy); // 12
        }

        let given = |record: &Record| Page::read(record).and_then(Page::slot) == Some(slot.byte());
        for record in records.iter_mut().filter(|record| given(record)) {
            *record = Page::Free.record();
        }
        self.slot_mut(slot).empty();
        Ok(0)
    }

    /// Call 9. "The 4,096-page limit doesn't apply to regions, where a length
    /// that ends past 2^32 is number 5."
    pub(super) fn region(
        &mut self,
        hart: HartId,
        slot: SlotId,
        guest: u64,
        length: u64,
    ) -> Outcome {
        let pages = whole_pages(length)?; // 4
        let range = GuestRange::new(guest, pages, Size::Small)?; // 5
        let regions = &self.slot(slot).regions;
        if regions.is_full() {
            return Err(Refusal::Full); // 9
        }
        if regions.overlap(range) {
            return Err(Refusal::Region); // 10
        }
        self.require_outside(hart)?; // 12

        self.slot_mut(slot).regions.add(range);
        Ok(0)
    }

    /// Call 10.
    pub(super) fn pool(
        &mut self,
        mut records: Records,
        hart: HartId,
        slot: SlotId,
        base: u64,
        count: u64,
    ) -> Outcome {
        let range = small_range(&records, base, count)?; // 4, 5
        self.require_free(range.of(&records))?; // 6, 7
        self.require_outside(hart)?; // 12

        let pool = Page::Pool { slot: slot.byte() };
        range.of_mut(&mut records).fill(pool.record());
        Ok(0)
    }

    /// Call 14.
    pub(super) fn vcpu(
        &mut self,
        mut records: Records,
        hart: HartId,
        slot: SlotId,
        vcpu: u64,
        page: u64,
    ) -> Outcome {
        let vcpu = VcpuId::new(vcpu).ok_or(Refusal::Argument)?; // 4
        let page = PageRange::new(page, 1, PAGE, records.len())?; // 5
        self.require_free(page.of(&records))?; // 6, 7
        self.require_outside(hart)?; // 12
        if self.slot(slot).has_vcpu(vcpu) {
            return Err(Refusal::Busy); // 12
        }

        let state = Page::Vcpu { slot: slot.byte() };
        page.of_mut(&mut records).fill(state.record());
        self.slot_mut(slot).add_vcpu(vcpu);
        Ok(0)
    }
}
