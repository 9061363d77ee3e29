//! A ledger with a table of its own, set up by lawful calls.

use second::{number::*, Answer, Ledger, Page, SlotId};

/// Guest address of the region that the ready-made TVMs have.
pub const GUEST: u64 = 0x10_0000;
/// Its length: 16 guest pages.
pub const GUEST_LENGTH: u64 = 0x1_0000;

/// The address of page `index`.
pub fn page(index: u64) -> u64 {
    0x8000_0000 + index * 0x1000
}

/// Six arguments, the missing ones 0.
pub fn args(named: &[u64]) -> [u64; 6] {
    let mut args = [0; 6];
    args[..named.len()].copy_from_slice(named);
    args
}

#[derive(Clone, Debug, PartialEq, Eq)]
pub struct Bench {
    pub ledger: Ledger,
    pub table: Vec<u8>,
}

impl Bench {
    /// A ledger that is not open, and a table of old bytes.
    pub fn closed(pages: usize) -> Bench {
        Bench {
            ledger: Ledger::new(),
            table: vec![0xA5; 8 * pages],
        }
    }

    pub fn open(harts: u64, pages: u64) -> Bench {
        let mut bench = Bench::closed(pages as usize);
        assert_eq!(bench.accept(OPEN, 0, &[harts, pages]), 0);
        bench
    }

    /// Two harts and 16 pages; TVM 0 in phase I with its region and vCPUs 0
    /// and 1. Pages 0 to 6 are the TVM's, 7 to 11 free, 12 to 15 the host's.
    pub fn initializing() -> Bench {
        let mut bench = Bench::open(2, 16);
        bench.free(0, 12);
        bench.tvm(0);
        bench.accept(VCPU, 0, &[0, 0, page(5)]);
        bench.accept(VCPU, 0, &[0, 1, page(6)]);
        bench
    }

    /// The same, finalized.
    pub fn runnable() -> Bench {
        let mut bench = Bench::initializing();
        bench.accept(FINALIZE, 0, &[0]);
        bench
    }

    /// The same, with page 7 mapped at the region's start.
    pub fn mapped() -> Bench {
        let mut bench = Bench::runnable();
        bench.accept(ZERO, 0, &[0, page(7), 0, 1, GUEST]);
        bench
    }

    /// The same, with that page blocked and no fence begun.
    pub fn blocked() -> Bench {
        let mut bench = Bench::mapped();
        bench.accept(INVALIDATE, 0, &[0, GUEST, 0x1000]);
        bench
    }

    /// One hart; TVM 0 runnable with all of guest space as its region; the
    /// pages from 5 on free.
    pub fn runnable_of(pages: u64) -> Bench {
        let mut bench = Bench::open(1, pages);
        bench.free(0, pages);
        bench.accept(CREATE, 0, &[page(0), page(4)]);
        bench.accept(REGION, 0, &[0, 0, 1 << 32]);
        bench.accept(FINALIZE, 0, &[0]);
        bench
    }

    pub fn call(&mut self, call: u64, hart: u64, named: &[u64]) -> Answer {
        self.ledger.call(&mut self.table, call, hart, args(named))
    }

    /// Makes a call that must be accepted, and gives its value.
    #[track_caller]
    pub fn accept(&mut self, call: u64, hart: u64, named: &[u64]) -> u64 {
        match self.call(call, hart, named) {
            Answer::Accepted(value) => value,
            answer => panic!("call {call} on hart {hart} of {named:#x?}: {answer:?}"),
        }
    }

    /// Makes a call that must be refused with a number and change nothing.
    #[track_caller]
    pub fn refuse(&mut self, call: u64, hart: u64, named: &[u64], number: u64) {
        let before = self.clone();
        let answer = self.call(call, hart, named);
        assert!(
            !answer.is_accepted() && answer.value() == number,
            "call {call} on hart {hart} of {named:#x?}: {answer:?}, not {number}"
        );
        assert!(answer.error() < 0);
        assert!(*self == before, "a refused call changed something");
    }

    /// Frees ordinary pages: convert, and a global fence that ends.
    pub fn free(&mut self, first: u64, count: u64) {
        self.accept(CONVERT, 0, &[page(first), count]);
        self.global_fence();
    }

    /// A whole global fence.
    pub fn global_fence(&mut self) {
        self.accept(GLOBAL_FENCE, 0, &[]);
        for hart in 1..self.ledger.harts() as u64 {
            self.accept(LOCAL_FENCE, hart, &[]);
        }
    }

    /// Creates a TVM of five free pages, and gives it its region.
    pub fn tvm(&mut self, first: u64) -> u64 {
        let slot = self.accept(CREATE, 0, &[page(first), page(first + 4)]);
        self.accept(REGION, 0, &[slot, GUEST, GUEST_LENGTH]);
        slot
    }

    pub fn record(&self, index: usize) -> [u8; 8] {
        self.table[8 * index..][..8].try_into().unwrap()
    }

    pub fn set_record(&mut self, index: usize, record: [u8; 8]) {
        self.table[8 * index..][..8].copy_from_slice(&record);
    }

    pub fn page(&self, index: usize) -> Option<Page> {
        Page::read(&self.record(index))
    }

    /// The kinds of all records.
    pub fn kinds(&self) -> Vec<u8> {
        self.table.chunks(8).map(|record| record[0]).collect()
    }
}

pub fn slot(number: u64) -> SlotId {
    SlotId::new(number).unwrap()
}

/// Splitmix64: numbers that look random and are the same each time.
pub struct Random(pub u64);

impl Random {
    pub fn next(&mut self) -> u64 {
        self.0 = self.0.wrapping_add(0x9E37_79B9_7F4A_7C15);
        let mut z = self.0;
        z = (z ^ (z >> 30)).wrapping_mul(0xBF58_476D_1CE4_E5B9);
        z = (z ^ (z >> 27)).wrapping_mul(0x94D0_49BB_1331_11EB);
        z ^ (z >> 31)
    }

    /// A number below `limit`.
    pub fn below(&mut self, limit: u64) -> u64 {
        self.next() % limit
    }

    pub fn one_of<T: Copy>(&mut self, choices: &[T]) -> T {
        choices[self.below(choices.len() as u64) as usize]
    }
}
