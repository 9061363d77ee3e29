//! The ledger: its state, and the checks that come before each call's own.

mod fences;
mod life;
mod mapping;
mod memory;
mod running;
mod view;

use crate::answer::Answer;
use crate::calls::{Call, MachineCall, TvmCall};
use crate::fence::{GlobalVersion, HartSet, Tracker, TvmVersion};
use crate::ids::{HartId, SlotId, VcpuId, HARTS, SLOTS};
use crate::page::Page;
use crate::range::MAX_PAGES;
use crate::records::Records;
use crate::refusal::Refusal;
use crate::slot::{Phase, Slot};
use mapping::Change;

/// Either the value of an accepted call or the reason for its refusal.
type Outcome = Result<u64, Refusal>;

/// Everything that is remembered from call to call besides the page table,
/// which is lent anew each time.
#[derive(Clone, Debug, Default, PartialEq, Eq)]
pub struct Ledger {
    sizes: Option<Sizes>,
    global: Tracker<GlobalVersion>,
    slots: [Slot; SLOTS],
    harts: [Hart; HARTS],
}

/// What open fixes: 1 to 8 harts and 1 to 4,096 pages.
#[derive(Clone, Copy, Debug, PartialEq, Eq)]
struct Sizes {
    harts: usize,
    pages: usize,
}

/// One hart: where it is, and for each slot the version at its last flush.
#[derive(Clone, Copy, Debug, Default, PartialEq, Eq)]
struct Hart {
    seat: Option<Seat>,
    /// `None` is "never".
    flushed: [Option<TvmVersion>; SLOTS],
}

/// A vCPU that a hart is inside of.
#[derive(Clone, Copy, Debug, PartialEq, Eq)]
pub struct Seat {
    pub slot: SlotId,
    pub vcpu: VcpuId,
}

impl Ledger {
    /// A ledger that is not open yet.
    pub fn new() -> Self {
        Ledger::default()
    }

    /// Decides one call and, if it is accepted, does it. The table may hold
    /// anything and have any length; a refused call changes nothing.
    pub fn call(&mut self, table: &mut [u8], call: u64, hart: u64, args: [u64; 6]) -> Answer {
        self.decide(table, call, hart, args).into()
    }

    fn decide(&mut self, table: &mut [u8], number: u64, hart: u64, args: [u64; 6]) -> Outcome {
        let call = Call::new(number).ok_or(Refusal::UnknownCall)?; // 1
        match call {
            Call::Open => {
                if self.sizes.is_some() {
                    return Err(Refusal::WrongState); // 3
                }
                require_unnamed_zero(call, args)?; // 4
                self.open(table, hart, args)
            }
            Call::Machine(machine) => {
                let records = self.opened_part(table)?; // 3
                let hart = self.caller(hart)?; // 4
                require_unnamed_zero(call, args)?; // 4
                self.machine_call(records, machine, hart, args)
            }
            Call::Tvm(tvm) => {
                // No slot is taken before open, so a call that names a TVM is
                // then refused with 2 and not with 3.
                let slot = self.taken_slot(args[0])?; // 2
                if !tvm.admits(self.slot(slot).phase) {
                    return Err(Refusal::WrongState); // 3
                }
                let records = self.opened_part(table)?; // 3
                let hart = self.caller(hart)?; // 4
                require_unnamed_zero(call, args)?; // 4
                self.tvm_call(records, tvm, hart, slot, args)
            }
        }
    }

    fn machine_call(
        &mut self,
        records: Records,
        call: MachineCall,
        hart: HartId,
        [a0, a1, ..]: [u64; 6],
    ) -> Outcome {
        match call {
            MachineCall::Convert => self.convert(records, hart, a0, a1),
            MachineCall::Reclaim => self.reclaim(records, hart, a0, a1),
            MachineCall::GlobalFence => self.global_fence(hart),
            MachineCall::LocalFence => self.local_fence(hart),
            MachineCall::Create => self.create(records, hart, a0, a1),
            MachineCall::Leave => self.leave(hart),
        }
    }

    fn tvm_call(
        &mut self,
        records: Records,
        call: TvmCall,
        hart: HartId,
        slot: SlotId,
        [_, a1, a2, a3, a4, a5]: [u64; 6],
    ) -> Outcome {
        match call {
            TvmCall::Finalize => self.finalize(hart, slot),
            TvmCall::Destroy => self.destroy(records, hart, slot),
            TvmCall::Region => self.region(hart, slot, a1, a2),
            TvmCall::Pool => self.pool(records, hart, slot, a1, a2),
            TvmCall::Measured => self.measured(records, hart, slot, [a1, a2, a3, a4, a5]),
            TvmCall::Zero => self.zero(records, hart, slot, [a1, a2, a3, a4]),
            TvmCall::Vcpu => self.vcpu(records, hart, slot, a1, a2),
            TvmCall::Enter => self.enter(hart, slot, a1),
            TvmCall::Fence => self.tvm_fence(hart, slot),
            TvmCall::Invalidate => self.change(records, hart, slot, Change::Invalidate, a1, a2),
            TvmCall::Validate => self.change(records, hart, slot, Change::Validate, a1, a2),
            TvmCall::Remove => self.change(records, hart, slot, Change::Remove, a1, a2),
        }
    }

    /// Call 33, on a ledger that is not open. There is no hart count yet and
    /// no opened length, so open has its own form of both checks: hart 0, and
    /// a lent table of as many whole records as a1 says.
    fn open(&mut self, table: &mut [u8], hart: u64, [harts, pages, ..]: [u64; 6]) -> Outcome {
        let mut records = Records::new(table).ok_or(Refusal::Argument)?; // 4
        let lawful = hart == 0
            && (1..=HARTS as u64).contains(&harts)
            && (1..=MAX_PAGES as u64).contains(&pages)
            && pages == records.len() as u64;
        if !lawful {
            return Err(Refusal::Argument); // 4
        }
        // No hart is inside a TVM before open, so 12 cannot hold here.
        *self = Ledger {
            sizes: Some(Sizes {
                harts: harts as usize,
                pages: pages as usize,
            }),
            ..Ledger::new()
        };
        records.fill(Page::Ordinary.record());
        Ok(0)
    }

    /// The lent table as records, if the ledger is open and this is the opened
    /// length; "bytes left over fit no length" (3).
    fn opened_part<'t>(&self, table: &'t mut [u8]) -> Result<Records<'t>, Refusal> {
        let sizes = self.sizes.ok_or(Refusal::WrongState)?;
        Records::new(table)
            .filter(|records| records.len() == sizes.pages)
            .ok_or(Refusal::WrongState)
    }

    /// The slot of a TVM there is (2).
    fn taken_slot(&self, tvm: u64) -> Result<SlotId, Refusal> {
        SlotId::new(tvm)
            .filter(|&slot| self.slot(slot).phase != Phase::Empty)
            .ok_or(Refusal::NoTvm)
    }

    /// The calling hart, if the machine has it (4).
    fn caller(&self, hart: u64) -> Result<HartId, Refusal> {
        HartId::new(hart)
            .filter(|hart| hart.index() < self.harts())
            .ok_or(Refusal::Argument)
    }

    /// Refuses a hart that is inside a TVM (12): all calls but leave.
    fn require_outside(&self, hart: HartId) -> Result<(), Refusal> {
        match self.harts[hart.index()].seat {
            Some(_) => Err(Refusal::Busy),
            None => Ok(()),
        }
    }

    fn slot(&self, slot: SlotId) -> &Slot {
        &self.slots[slot.index()]
    }

    fn slot_mut(&mut self, slot: SlotId) -> &mut Slot {
        &mut self.slots[slot.index()]
    }

    /// Every hart of the machine.
    fn all_harts(&self) -> impl Iterator<Item = HartId> {
        HartId::all().take(self.harts())
    }

    /// Every hart now inside a TVM.
    fn harts_inside(&self, slot: SlotId) -> HartSet {
        self.all_harts()
            .filter(|hart| {
                self.harts[hart.index()]
                    .seat
                    .map_or(false, |seat| seat.slot == slot)
            })
            .collect()
    }
}

/// "Unnamed ones must be 0" (4).
fn require_unnamed_zero(call: Call, args: [u64; 6]) -> Result<(), Refusal> {
    if args[call.named()..].iter().any(|&arg| arg != 0) {
        return Err(Refusal::Argument);
    }
    Ok(())
}
