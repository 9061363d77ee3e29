//! Page records: eight bytes for each page of memory.

use std::mem;

use crate::fence::{GlobalVersion, TvmVersion};
use crate::ids::SlotId;
use crate::range::{GuestRange, Size};

/// A record as it lies in the table: kind (1), slot (1), version (2), guest
/// page (4), little endian.
pub type Record = [u8; 8];
/// Bytes in a record.
pub(crate) const RECORD: usize = mem::size_of::<Record>();

const PRESENT: u8 = 7;
const BLOCKED: u8 = 8;

/// Bits 0 to 19 of the guest word are the guest page.
const GUEST_MASK: u32 = 0xF_FFFF;
/// Bit 31 means part of a large mapping.
const LARGE_BIT: u32 = 1 << 31;

/// The four fields of a record, whatever its kind.
struct Fields {
    kind: u8,
    slot: u8,
    version: u16,
    guest: u32,
}

impl Fields {
    /// Takes the record apart as one word, which is quicker than by bytes.
    fn read(record: &Record) -> Fields {
        let word = u64::from_le_bytes(*record);
        Fields {
            kind: word as u8,
            slot: (word >> 8) as u8,
            version: (word >> 16) as u16,
            guest: (word >> 32) as u32,
        }
    }

    fn record(self) -> Record {
        let word = u64::from(self.kind)
            | u64::from(self.slot) << 8
            | u64::from(self.version) << 16
            | u64::from(self.guest) << 32;
        word.to_le_bytes()
    }
}

/// The guest word: where a page is mapped, and in what unit.
#[derive(Clone, Copy, Debug, PartialEq, Eq)]
pub struct Mapping {
    /// The guest page, below 2^20.
    pub guest: u32,
    pub size: Size,
}

impl Mapping {
    /// Bits 20 to 30 are ignored when read ...
    fn read(word: u32) -> Mapping {
        Mapping {
            guest: word & GUEST_MASK,
            size: if word & LARGE_BIT == 0 {
                Size::Small
            } else {
                Size::Large
            },
        }
    }

    /// ... and 0 when written.
    fn word(self) -> u32 {
        let large = match self.size {
            Size::Small => 0,
            Size::Large => LARGE_BIT,
        };
        self.guest & GUEST_MASK | large
    }

    /// All the guest pages of the mapping that this page is part of.
    pub fn extent(self) -> GuestRange {
        GuestRange::around(self.guest, self.size)
    }
}

/// What a record says, in the fields that its kind uses. A slot is a plain
/// byte here: in a foreign record it may name no slot at all, and then it
/// equals none.
#[derive(Clone, Copy, Debug, PartialEq, Eq)]
pub enum Page {
    /// Kind 0, the host's.
    Ordinary,
    /// Kind 1, with the global version at its conversion.
    Converting { since: GlobalVersion },
    /// Kind 2, free and confidential.
    Free,
    /// Kind 3.
    Directory { slot: u8 },
    /// Kind 4.
    State { slot: u8 },
    /// Kind 5.
    Vcpu { slot: u8 },
    /// Kind 6.
    Pool { slot: u8 },
    /// Kind 7, mapped and present.
    Present { slot: u8, mapping: Mapping },
    /// Kind 8, mapped and blocked, with the TVM's version at its blocking.
    Blocked {
        slot: u8,
        mapping: Mapping,
        since: TvmVersion,
    },
}

impl Page {
    /// Reads a record. "Any other kind number is of no wanted kind": `None`.
    pub fn read(record: &Record) -> Option<Page> {
        let Fields {
            kind,
            slot,
            version,
            guest,
        } = Fields::read(record);
        let mapping = Mapping::read(guest);
        Some(match kind {
            0 => Page::Ordinary,
            1 => Page::Converting {
                since: GlobalVersion(version),
            },
            2 => Page::Free,
            3 => Page::Directory { slot },
            4 => Page::State { slot },
            5 => Page::Vcpu { slot },
            6 => Page::Pool { slot },
            PRESENT => Page::Present { slot, mapping },
            BLOCKED => Page::Blocked {
                slot,
                mapping,
                since: TvmVersion(version),
            },
            _ => return None,
        })
    }

    /// Writes a record. "Fields that a kind does not use are 0 when written."
    pub fn record(self) -> Record {
        let (kind, slot, version, guest) = match self {
            Page::Ordinary => (0, 0, 0, 0),
            Page::Converting { since } => (1, 0, since.0, 0),
            Page::Free => (2, 0, 0, 0),
            Page::Directory { slot } => (3, slot, 0, 0),
            Page::State { slot } => (4, slot, 0, 0),
            Page::Vcpu { slot } => (5, slot, 0, 0),
            Page::Pool { slot } => (6, slot, 0, 0),
            Page::Present { slot, mapping } => (PRESENT, slot, 0, mapping.word()),
            Page::Blocked {
                slot,
                mapping,
                since,
            } => (BLOCKED, slot, since.0, mapping.word()),
        };
        let fields = Fields {
            kind,
            slot,
            version,
            guest,
        };
        fields.record()
    }

    /// The slot byte of the kinds that use it, 3 to 8.
    pub fn slot(self) -> Option<u8> {
        match self {
            Page::Ordinary | Page::Converting { .. } | Page::Free => None,
            Page::Directory { slot }
            | Page::State { slot }
            | Page::Vcpu { slot }
            | Page::Pool { slot }
            | Page::Present { slot, .. }
            | Page::Blocked { slot, .. } => Some(slot),
        }
    }
}

/// The guest page of `slot` that a record claims, if it claims one. The
/// fields are looked at directly because calls 11, 12 and 17 to 19 ask this of
/// every record.
///
/// Left open: whether a foreign record with bit 31 claims its whole block.
/// "A record claims a guest page of a slot when its kind is 7 or 8 and its
/// slot and guest page are those" has no exception for bit 31, so it claims
/// its own guest page and no other.
pub fn claim(record: &Record, slot: SlotId) -> Option<u32> {
    let fields = Fields::read(record);
    (matches!(fields.kind, PRESENT | BLOCKED) && fields.slot == slot.byte())
        .then_some(fields.guest & GUEST_MASK)
}
