//! What the generator knows: the second program's ledger run beside the tape,
//! its table, and a rough view of TVMs and harts kept from accepted calls.
//! The view only steers; no expectation is taken from it.

use second::Ledger;

pub const PAGE: u64 = 0x1000;
pub const LARGE: u64 = 512;
pub const MEMORY: u64 = 0x8000_0000;
pub const GUEST_END: u64 = 1 << 32;

#[derive(Clone, Copy)]
pub struct Record {
    pub call: u8,
    pub hart: u8,
    pub args: [u64; 6],
}

impl Record {
    /// Document 01: the mark, call, hart, a0 to a5, little endian.
    pub fn bytes(&self) -> Vec<u8> {
        let mut out = vec![0x43, 0x56, self.call, self.hart];
        for arg in self.args {
            out.extend_from_slice(&arg.to_le_bytes());
        }
        out
    }
}

#[derive(Clone, Copy, PartialEq, Eq)]
pub enum Phase {
    Empty,
    Initializing,
    Runnable,
}

#[derive(Clone, Copy, Default)]
pub struct Fence {
    pub version: u64,
    pub awaited: u8,
}

impl Fence {
    fn begin(&mut self, awaited: u8) {
        self.version += 1;
        self.awaited = awaited;
    }

    pub fn done(&self, recorded: u64) -> bool {
        self.version >= recorded + 2 || (self.version == recorded + 1 && self.awaited == 0)
    }
}

pub struct Slot {
    pub phase: Phase,
    pub regions: Vec<(u64, u64)>,
    pub vcpus: u8,
    pub fence: Fence,
}

/// A page record, read as document 01 lays it out.
#[derive(Clone, Copy)]
pub struct Page {
    pub kind: u8,
    pub slot: u64,
    pub version: u64,
    pub guest: u64,
    pub large: bool,
}

pub struct World {
    ledger: Ledger,
    pub table: Vec<u8>,
    pub harts: u64,
    pub pages: u64,
    pub slots: Vec<Slot>,
    pub seats: [Option<(u64, u64)>; 8],
    pub global: Fence,
}

impl World {
    /// `pages` is the length of the lent table: the first record's a1.
    pub fn new(pages: u64) -> World {
        let empty = || Slot {
            phase: Phase::Empty,
            regions: Vec::new(),
            vcpus: 0,
            fence: Fence::default(),
        };
        World {
            ledger: Ledger::new(),
            table: vec![0; 8 * pages as usize],
            harts: 1,
            pages,
            slots: (0..16).map(|_| empty()).collect(),
            seats: [None; 8],
            global: Fence::default(),
        }
    }

    /// Puts a call to the second program; its error and value.
    pub fn attempt(&mut self, record: &Record) -> (i64, u64) {
        let (call, hart) = (u64::from(record.call), u64::from(record.hart));
        let answer = self.ledger.call(&mut self.table, call, hart, record.args);
        let (error, value) = (answer.error(), answer.value());
        if error == 0 {
            self.follow(record, value);
        }
        (error, value)
    }

    /// Keeps the view after an accepted call.
    fn follow(&mut self, record: &Record, value: u64) {
        let hart = usize::from(record.hart);
        let bit = 1u8 << hart;
        let tvm = record.args[0] as usize;
        match record.call {
            3 => self.global.begin(((1u16 << self.harts) - 1) as u8 & !bit),
            4 => self.global.awaited &= !bit,
            5 => self.slots[value as usize].phase = Phase::Initializing,
            6 => self.slots[tvm].phase = Phase::Runnable,
            8 => self.empty(tvm),
            9 => self.slots[tvm]
                .regions
                .push((record.args[1], record.args[2])),
            14 => self.slots[tvm].vcpus |= 1 << record.args[1],
            15 => self.seats[hart] = Some((record.args[0], record.args[1])),
            16 => {
                let inside = self.inside(record.args[0]);
                self.slots[tvm].fence.begin(inside);
            }
            32 => {
                self.slots[value as usize / 8].fence.awaited &= !bit;
                self.seats[hart] = None;
            }
            33 => self.harts = record.args[0],
            _ => {}
        }
    }

    fn empty(&mut self, tvm: usize) {
        let slot = &mut self.slots[tvm];
        slot.phase = Phase::Empty;
        slot.regions.clear();
        slot.vcpus = 0;
        slot.fence.version += 1;
    }

    /// The harts inside a slot, as a set.
    pub fn inside(&self, slot: u64) -> u8 {
        let mut set = 0;
        for (hart, seat) in self.seats.iter().enumerate() {
            if seat.map_or(false, |(at, _)| at == slot) {
                set |= 1 << hart;
            }
        }
        set
    }

    pub fn runs_somewhere(&self, slot: u64, vcpu: u64) -> bool {
        self.seats.contains(&Some((slot, vcpu)))
    }

    pub fn page(&self, index: u64) -> Page {
        let at = 8 * index as usize;
        let bytes = &self.table[at..at + 8];
        let guest = u32::from_le_bytes([bytes[4], bytes[5], bytes[6], bytes[7]]);
        Page {
            kind: bytes[0],
            slot: u64::from(bytes[1]),
            version: u64::from(u16::from_le_bytes([bytes[2], bytes[3]])),
            guest: u64::from(guest & 0xF_FFFF),
            large: guest >> 31 == 1,
        }
    }

    pub fn is_free(&self, index: u64) -> bool {
        let page = self.page(index);
        page.kind == 2 || (page.kind == 1 && self.global.done(page.version))
    }

    pub fn is_ordinary(&self, index: u64) -> bool {
        self.page(index).kind == 0
    }
}
