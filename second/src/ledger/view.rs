//! What can be seen of a ledger from outside. Nothing here changes it.

use super::{Ledger, Seat};
use crate::fence::{GlobalVersion, Tracker, TvmVersion};
use crate::ids::{HartId, SlotId, VcpuId};
use crate::page::Page;
use crate::range::GuestRange;
use crate::slot::Phase;

impl Ledger {
    pub fn is_open(&self) -> bool {
        self.sizes.is_some()
    }

    /// How many harts there are; 0 before open.
    pub fn harts(&self) -> usize {
        self.sizes.map_or(0, |sizes| sizes.harts)
    }

    /// How many pages there are; 0 before open.
    pub fn pages(&self) -> usize {
        self.sizes.map_or(0, |sizes| sizes.pages)
    }

    pub fn phase(&self, slot: SlotId) -> Phase {
        self.slot(slot).phase
    }

    /// The regions of a slot's TVM, in the order they were added.
    pub fn regions(&self, slot: SlotId) -> impl Iterator<Item = GuestRange> + '_ {
        self.slot(slot).regions.iter()
    }

    /// Whether a slot's TVM has a vCPU.
    pub fn has_vcpu(&self, slot: SlotId, vcpu: VcpuId) -> bool {
        self.slot(slot).has_vcpu(vcpu)
    }

    /// Where a hart is: `None` outside.
    pub fn seat(&self, hart: HartId) -> Option<Seat> {
        self.harts[hart.index()].seat
    }

    /// The version of a slot at a hart's last flush: `None` is "never".
    pub fn flushed(&self, hart: HartId, slot: SlotId) -> Option<TvmVersion> {
        self.harts[hart.index()].flushed[slot.index()]
    }

    /// The global version and the harts it awaits.
    pub fn global_fence_state(&self) -> Tracker<GlobalVersion> {
        self.global
    }

    /// A slot's version and the harts it awaits.
    pub fn tvm_fence_state(&self, slot: SlotId) -> Tracker<TvmVersion> {
        self.slot(slot).fence
    }

    /// Whether a page is free or *counts as free*.
    pub fn is_free(&self, page: Page) -> bool {
        match page {
            Page::Free => true,
            Page::Converting { since } => self.global.is_done(since),
            _ => false,
        }
    }
}
