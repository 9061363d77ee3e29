//! The fifteen refusal numbers and the errors looked up from them.

/// Why a call is refused. The discriminants are document 01's numbers.
#[derive(Clone, Copy, Debug, PartialEq, Eq, PartialOrd, Ord)]
#[repr(u8)]
pub enum Refusal {
    /// The call number is not in the table of calls.
    UnknownCall = 1,
    /// The tvm is above 15, or its slot is empty.
    NoTvm = 2,
    /// Wrong phase; ledger not open, or opened again; wrong table length.
    WrongState = 3,
    /// An argument is wrong whatever memory holds, or the hart is no hart.
    Argument = 4,
    /// An address is not aligned, or a range leaves memory or guest space.
    Address = 5,
    /// A page isn't of the kind wanted, or a guest page not mapped as wanted.
    Kind = 6,
    /// A page's recorded fence is not done.
    NotDone = 7,
    /// A fence is begun while a hart is still awaited.
    Awaited = 8,
    /// No slot for create, or a ninth region.
    Full = 9,
    /// A region overlaps another, or a guest range is not inside one.
    Region = 10,
    /// A guest page is already mapped.
    AlreadyMapped = 11,
    /// The hart is inside a TVM; a vCPU is made or running already.
    Busy = 12,
    /// There is no version left for a fence.
    VersionsSpent = 13,
    /// A large mapping isn't wholly inside the range.
    LargeSplit = 14,
    /// Leave from a hart that is outside.
    Outside = 15,
}

/// The SBI error of each refusal number; number 1 stands first.
const ERRORS: [i64; 15] = [-2, -3, -3, -3, -5, -5, -1, -7, -1, -5, -5, -4, -1, -5, -3];

impl Refusal {
    /// Document 01's refusal number, 1 to 15.
    pub const fn number(self) -> u64 {
        self as u64
    }

    /// "The error is looked up from the number."
    pub const fn error(self) -> i64 {
        ERRORS[self as usize - 1]
    }
}
