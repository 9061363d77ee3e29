//! Fence versions, the harts a fence awaits, and when a fence is done.

use crate::ids::HartId;

/// A set of harts in a byte.
#[derive(Clone, Copy, Debug, Default, PartialEq, Eq)]
pub struct HartSet(u8);

impl HartSet {
    pub const EMPTY: HartSet = HartSet(0);

    pub fn is_empty(self) -> bool {
        self == HartSet::EMPTY
    }

    /// How many harts there are in the set.
    pub fn len(self) -> u64 {
        u64::from(self.0.count_ones())
    }

    pub fn contains(self, hart: HartId) -> bool {
        self.0 & HartSet::bit(hart) != 0
    }

    pub fn with(self, hart: HartId) -> HartSet {
        HartSet(self.0 | HartSet::bit(hart))
    }

    pub fn without(self, hart: HartId) -> HartSet {
        HartSet(self.0 & !HartSet::bit(hart))
    }

    fn bit(hart: HartId) -> u8 {
        1 << hart.byte()
    }
}

impl FromIterator<HartId> for HartSet {
    fn from_iter<I: IntoIterator<Item = HartId>>(harts: I) -> Self {
        harts.into_iter().fold(HartSet::EMPTY, HartSet::with)
    }
}

/// A version of one sort of fence. The two sorts "count different fences and
/// never meet in a comparison", so each is a type of its own.
pub trait Version: Copy + Default + Eq {
    /// The lowest version from which no fence can begin (refusal 13).
    const SPENT: u16;

    fn new(number: u16) -> Self;

    fn number(self) -> u16;
}

/// A version of the global fence.
#[derive(Clone, Copy, Debug, Default, PartialEq, Eq)]
pub struct GlobalVersion(pub u16);

/// A version of one slot's TVM fence.
#[derive(Clone, Copy, Debug, Default, PartialEq, Eq)]
pub struct TvmVersion(pub u16);

impl Version for GlobalVersion {
    const SPENT: u16 = 65_535;

    fn new(number: u16) -> Self {
        GlobalVersion(number)
    }

    fn number(self) -> u16 {
        self.0
    }
}

impl Version for TvmVersion {
    /// One below the last, so that destroy still has a version to add.
    const SPENT: u16 = 65_534;

    fn new(number: u16) -> Self {
        TvmVersion(number)
    }

    fn number(self) -> u16 {
        self.0
    }
}

/// The present version of one fence and the harts it still awaits.
#[derive(Clone, Copy, Debug, Default, PartialEq, Eq)]
pub struct Tracker<V> {
    version: V,
    awaited: HartSet,
}

impl<V: Version> Tracker<V> {
    pub fn version(&self) -> V {
        self.version
    }

    pub fn awaited(&self) -> HartSet {
        self.awaited
    }

    /// Whether no further fence can begin.
    pub fn is_spent(&self) -> bool {
        self.version.number() >= V::SPENT
    }

    /// Adds 1 and awaits these harts; gives how many they are.
    pub(crate) fn begin(&mut self, awaited: HartSet) -> u64 {
        self.add_one();
        self.awaited = awaited;
        self.awaited.len()
    }

    /// Strikes one hart out; gives how many are still awaited. Striking out a
    /// hart that is not awaited is lawful and changes nothing.
    pub(crate) fn strike(&mut self, hart: HartId) -> u64 {
        self.awaited = self.awaited.without(hart);
        self.awaited.len()
    }

    /// Adds 1 without a fence, as destroy does: "65,535 stays".
    pub(crate) fn add_one(&mut self) {
        self.version = V::new(self.version.number().saturating_add(1));
    }

    /// "A version recorded as r is done when the present version is at least
    /// r + 2, or is r + 1 with no hart awaited." Reckoned in 32 bits, so that
    /// a foreign record of 65,535 is simply never done.
    pub fn is_done(&self, recorded: V) -> bool {
        let present = u32::from(self.version.number());
        let next = u32::from(recorded.number()) + 1;
        present > next || (present == next && self.awaited.is_empty())
    }
}
