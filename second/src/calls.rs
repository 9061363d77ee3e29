//! The table of calls: numbers, named arguments and phases.

use crate::slot::Phase;

/// The call numbers: "001's COVH function numbers; 32 and 33 are ours".
pub mod number {
    pub const CONVERT: u64 = 1;
    pub const RECLAIM: u64 = 2;
    pub const GLOBAL_FENCE: u64 = 3;
    pub const LOCAL_FENCE: u64 = 4;
    pub const CREATE: u64 = 5;
    pub const FINALIZE: u64 = 6;
    pub const DESTROY: u64 = 8;
    pub const REGION: u64 = 9;
    pub const POOL: u64 = 10;
    pub const MEASURED: u64 = 11;
    pub const ZERO: u64 = 12;
    pub const VCPU: u64 = 14;
    pub const ENTER: u64 = 15;
    pub const TVM_FENCE: u64 = 16;
    pub const INVALIDATE: u64 = 17;
    pub const VALIDATE: u64 = 18;
    pub const REMOVE: u64 = 19;
    pub const LEAVE: u64 = 32;
    pub const OPEN: u64 = 33;

    /// All nineteen, in rising order.
    pub const ALL: [u64; 19] = [
        CONVERT,
        RECLAIM,
        GLOBAL_FENCE,
        LOCAL_FENCE,
        CREATE,
        FINALIZE,
        DESTROY,
        REGION,
        POOL,
        MEASURED,
        ZERO,
        VCPU,
        ENTER,
        TVM_FENCE,
        INVALIDATE,
        VALIDATE,
        REMOVE,
        LEAVE,
        OPEN,
    ];
}

/// A call, split by what has to be looked at before its own arguments.
#[derive(Clone, Copy, Debug, PartialEq, Eq)]
pub enum Call {
    /// Needs a ledger that is not open.
    Open,
    /// Needs an open ledger and names no TVM.
    Machine(MachineCall),
    /// Needs an open ledger, and a0 names a TVM.
    Tvm(TvmCall),
}

/// The calls on an open ledger that name no TVM.
#[derive(Clone, Copy, Debug, PartialEq, Eq)]
pub enum MachineCall {
    Convert,
    Reclaim,
    GlobalFence,
    LocalFence,
    Create,
    Leave,
}

/// The calls whose a0 is a tvm.
#[derive(Clone, Copy, Debug, PartialEq, Eq)]
pub enum TvmCall {
    Finalize,
    Destroy,
    Region,
    Pool,
    Measured,
    Zero,
    Vcpu,
    Enter,
    Fence,
    Invalidate,
    Validate,
    Remove,
}

impl Call {
    /// The call of a number, if it is in the table of calls.
    pub fn new(number: u64) -> Option<Call> {
        Some(match number {
            number::CONVERT => Call::Machine(MachineCall::Convert),
            number::RECLAIM => Call::Machine(MachineCall::Reclaim),
            number::GLOBAL_FENCE => Call::Machine(MachineCall::GlobalFence),
            number::LOCAL_FENCE => Call::Machine(MachineCall::LocalFence),
            number::CREATE => Call::Machine(MachineCall::Create),
            number::FINALIZE => Call::Tvm(TvmCall::Finalize),
            number::DESTROY => Call::Tvm(TvmCall::Destroy),
            number::REGION => Call::Tvm(TvmCall::Region),
            number::POOL => Call::Tvm(TvmCall::Pool),
            number::MEASURED => Call::Tvm(TvmCall::Measured),
            number::ZERO => Call::Tvm(TvmCall::Zero),
            number::VCPU => Call::Tvm(TvmCall::Vcpu),
            number::ENTER => Call::Tvm(TvmCall::Enter),
            number::TVM_FENCE => Call::Tvm(TvmCall::Fence),
            number::INVALIDATE => Call::Tvm(TvmCall::Invalidate),
            number::VALIDATE => Call::Tvm(TvmCall::Validate),
            number::REMOVE => Call::Tvm(TvmCall::Remove),
            number::LEAVE => Call::Machine(MachineCall::Leave),
            number::OPEN => Call::Open,
            _ => return None,
        })
    }

    /// How many arguments are named, from a0 on; the rest must be 0.
    pub fn named(self) -> usize {
        match self {
            Call::Open => 2,
            Call::Machine(call) => match call {
                MachineCall::GlobalFence | MachineCall::LocalFence | MachineCall::Leave => 0,
                MachineCall::Convert | MachineCall::Reclaim | MachineCall::Create => 2,
            },
            Call::Tvm(call) => match call {
                TvmCall::Finalize | TvmCall::Destroy | TvmCall::Fence => 1,
                TvmCall::Enter => 2,
                TvmCall::Region
                | TvmCall::Pool
                | TvmCall::Vcpu
                | TvmCall::Invalidate
                | TvmCall::Validate
                | TvmCall::Remove => 3,
                TvmCall::Zero => 5,
                TvmCall::Measured => 6,
            },
        }
    }
}

impl TvmCall {
    /// Whether the call is lawful in a phase: the phase column of the table.
    pub fn admits(self, phase: Phase) -> bool {
        match self {
            TvmCall::Finalize | TvmCall::Region | TvmCall::Measured | TvmCall::Vcpu => {
                phase == Phase::Initializing
            }
            TvmCall::Zero
            | TvmCall::Enter
            | TvmCall::Fence
            | TvmCall::Invalidate
            | TvmCall::Validate
            | TvmCall::Remove => phase == Phase::Runnable,
            TvmCall::Destroy | TvmCall::Pool => phase != Phase::Empty,
        }
    }
}
