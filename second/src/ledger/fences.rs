//! The three fence calls.
//!
//! Left open: which fence 8 and 13 look at. As the two sorts "count different
//! fences", call 3 looks at the global one and call 16 at its own TVM's, and
//! neither minds the other's awaited harts or version.

use super::{Ledger, Outcome};
use crate::fence::{Tracker, Version};
use crate::ids::{HartId, SlotId};
use crate::refusal::Refusal;

impl Ledger {
    /// Call 3: awaits "every hart but the caller".
    pub(super) fn global_fence(&mut self, hart: HartId) -> Outcome {
        require_none_awaited(&self.global)?; // 8
        self.require_outside(hart)?; // 12
        require_version_left(&self.global)?; // 13

        let awaited = self.all_harts().filter(|&other| other != hart).collect();
        Ok(self.global.begin(awaited))
    }

    /// Call 4: strikes the caller out; "lawful when none runs".
    ///
    /// Left open: whether "fence with global version 65,535" (13) also means
    /// this call. It begins no fence and needs no version, and were it refused
    /// the last global fence could never end; so 13 is for calls 3 and 16.
    pub(super) fn local_fence(&mut self, hart: HartId) -> Outcome {
        self.require_outside(hart)?; // 12

        Ok(self.global.strike(hart))
    }

    /// Call 16: awaits "every hart now inside" the TVM.
    pub(super) fn tvm_fence(&mut self, hart: HartId, slot: SlotId) -> Outcome {
        require_none_awaited(&self.slot(slot).fence)?; // 8
        self.require_outside(hart)?; // 12
        require_version_left(&self.slot(slot).fence)?; // 13

        let awaited = self.harts_inside(slot);
        Ok(self.slot_mut(slot).fence.begin(awaited))
    }
}

fn require_none_awaited<V: Version>(fence: &Tracker<V>) -> Result<(), Refusal> {
    if fence.awaited().is_empty() {
        Ok(())
    } else {
        Err(Refusal::Awaited)
    }
}

fn require_version_left<V: Version>(fence: &Tracker<V>) -> Result<(), Refusal> {
    if fence.is_spent() {
        Err(Refusal::VersionsSpent)
    } else {
        Ok(())
    }
}
