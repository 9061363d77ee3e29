//! A TVM slot: its phase, regions, vCPUs and fence.

use crate::fence::{Tracker, TvmVersion};
use crate::ids::{VcpuId, VCPUS};
use crate::range::GuestRange;

/// Regions in each TVM.
pub const REGIONS: usize = 8;

/// The life of a slot.
#[derive(Clone, Copy, Debug, Default, PartialEq, Eq)]
pub enum Phase {
    /// No TVM is here.
    #[default]
    Empty,
    /// Phase I.
    Initializing,
    /// Phase R.
    Runnable,
}

/// The regions of one TVM, in the order they were added.
#[derive(Clone, Copy, Debug, Default, PartialEq, Eq)]
pub(crate) struct Regions([Option<GuestRange>; REGIONS]);

impl Regions {
    pub fn iter(&self) -> impl Iterator<Item = GuestRange> + '_ {
        self.0.iter().copied().flatten()
    }

    pub fn is_full(&self) -> bool {
        self.0.iter().all(Option::is_some)
    }

    pub fn overlap(&self, range: GuestRange) -> bool {
        self.iter().any(|region| region.overlaps(range))
    }

    /// Whether one region holds all of the range. Two regions that touch are
    /// still two: "guest range not inside one region".
    pub fn hold(&self, range: GuestRange) -> bool {
        self.iter().any(|region| region.contains(range))
    }

    /// Adds a region in the first free place; there is one unless full.
    pub fn add(&mut self, range: GuestRange) {
        if let Some(place) = self.0.iter_mut().find(|place| place.is_none()) {
            *place = Some(range);
        }
    }
}

/// One slot. All of it but the fence is gone when its TVM is destroyed.
#[derive(Clone, Copy, Debug, Default, PartialEq, Eq)]
pub(crate) struct Slot {
    pub phase: Phase,
    pub regions: Regions,
    vcpus: [bool; VCPUS],
    pub fence: Tracker<TvmVersion>,
}

impl Slot {
    /// Whether create can take this slot: an empty one "whose version is below
    /// 65,534", which is where a TVM fence could still begin.
    pub fn is_vacant(&self) -> bool {
        self.phase == Phase::Empty && !self.fence.is_spent()
    }

    pub fn has_vcpu(&self, vcpu: VcpuId) -> bool {
        self.vcpus[vcpu.index()]
    }

    pub fn add_vcpu(&mut self, vcpu: VcpuId) {
        self.vcpus[vcpu.index()] = true;
    }

    /// Empties the slot. "Slot versions outlive TVMs: destroy adds 1." The
    /// awaited harts need no clearing: an awaited hart is one inside, and a
    /// TVM with a hart inside is not destroyed.
    pub fn empty(&mut self) {
        let mut fence = self.fence;
        fence.add_one();
        *self = Slot {
            fence,
            ..Slot::default()
        };
    }
}
