//! Names of slots, harts and vCPUs that are known to be within the sizes of
//! document 01, so that an index made from one is always in bounds.

/// TVM slots are 0 to 15.
pub const SLOTS: usize = 16;
/// There are at most 8 harts.
pub const HARTS: usize = 8;
/// vCPUs are 0 to 7 in each TVM.
pub const VCPUS: usize = 8;

macro_rules! id {
    ($(#[$doc:meta])* $name:ident, $limit:expr) => {
        $(#[$doc])*
        #[derive(Clone, Copy, Debug, PartialEq, Eq, PartialOrd, Ord)]
        pub struct $name(u8);

        impl $name {
            /// The name of `number`, unless it is beyond the limit.
            pub fn new(number: u64) -> Option<Self> {
                (number < $limit as u64).then_some($name(number as u8))
            }

            /// Every name there is, in rising order.
            pub fn all() -> impl DoubleEndedIterator<Item = Self> + ExactSizeIterator {
                (0..$limit as u8).map($name)
            }

            pub const fn byte(self) -> u8 {
                self.0
            }

            pub const fn index(self) -> usize {
                self.0 as usize
            }

            pub const fn number(self) -> u64 {
                self.0 as u64
            }
        }
    };
}

id!(
    /// A TVM slot, 0 to 15.
    SlotId,
    SLOTS
);
id!(
    /// A hart, 0 to 7. Whether the machine has it is the ledger's to say.
    HartId,
    HARTS
);
id!(
    /// A vCPU number, 0 to 7. Whether it has been made is its slot's to say.
    VcpuId,
    VCPUS
);
