//! Harts going into a TVM and out of it.

use super::{Ledger, Outcome, Seat};
use crate::ids::{HartId, SlotId, VcpuId, VCPUS};
use crate::refusal::Refusal;

impl Ledger {
    /// Call 15. The mark kept on the hart decides whether entry flushes (S10).
    pub(super) fn enter(&mut self, hart: HartId, slot: SlotId, vcpu: u64) -> Outcome {
        let vcpu = VcpuId::new(vcpu)
            .filter(|&vcpu| self.slot(slot).has_vcpu(vcpu))
            .ok_or(Refusal::Argument)?; // 4
        self.require_outside(hart)?; // 12
        let seat = Some(Seat { slot, vcpu });
        if self.harts.iter().any(|other| other.seat == seat) {
            return Err(Refusal::Busy); // 12
        }

        let version = Some(self.slot(slot).fence.version());
        let hart = &mut self.harts[hart.index()];
        let flushed = &mut hart.flushed[slot.index()];
        let flush = *flushed != version;
        *flushed = version;
        hart.seat = seat;
        Ok(flush.into())
    }

    /// Call 32.
    pub(super) fn leave(&mut self, hart: HartId) -> Outcome {
        let Seat { slot, vcpu } = self.harts[hart.index()].seat.ok_or(Refusal::Outside)?; // 15

        self.harts[hart.index()].seat = None;
        self.slot_mut(slot).fence.strike(hart);
        Ok(slot.number() * VCPUS as u64 + vcpu.number())
    }
}
