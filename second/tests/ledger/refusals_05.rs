//! Number 5: alignment, the ends of memory and of guest space.

use second::number::*;

use crate::bench::{page, Bench, GUEST};

/// Makes a call with one argument replaced, on a bench of its own each time.
struct Case {
    bench: Bench,
    call: u64,
    named: Vec<u64>,
}

impl Case {
    fn new(bench: Bench, call: u64, named: &[u64]) -> Case {
        let named = named.to_vec();
        bench.clone().accept(call, 0, &named);
        Case { bench, call, named }
    }

    #[track_caller]
    fn expect(&self, argument: usize, value: u64, number: u64) {
        let mut named = self.named.clone();
        named[argument] = value;
        let mut bench = self.bench.clone();
        match number {
            0 => {
                bench.accept(self.call, 0, &named);
            }
            _ => bench.refuse(self.call, 0, &named, number),
        }
    }
}

/// Addresses that no page of memory has.
const NO_PAGE: [u64; 8] = [
    0,
    0x7FFF_F000,
    0x8000_0800,
    0x8000_0001,
    0x8001_0000,
    1 << 63,
    u64::MAX,
    u64::MAX - 0xFFF,
];

/// Addresses that no guest page has.
const NO_GUEST: [u64; 6] = [
    GUEST + 1,
    GUEST + 0x800,
    1 << 32,
    u64::MAX - 0xFFF,
    u64::MAX,
    1 << 63,
];

#[test]
fn named_pages_lie_in_memory() {
    let mut one_fenced = Bench::open(2, 16);
    one_fenced.free(0, 16);
    let cases = [
        (Case::new(Bench::open(2, 16), CONVERT, &[page(15), 1]), 0),
        (Case::new(one_fenced.clone(), RECLAIM, &[page(15), 1]), 0),
        (Case::new(Bench::initializing(), POOL, &[0, page(8), 1]), 1),
        (Case::new(Bench::initializing(), VCPU, &[0, 2, page(8)]), 2),
        (Case::new(one_fenced, CREATE, &[page(0), page(15)]), 1),
        (
            Case::new(Bench::runnable(), ZERO, &[0, page(8), 0, 1, GUEST]),
            1,
        ),
        (
            Case::new(
                Bench::initializing(),
                MEASURED,
                &[0, page(12), page(7), 0, 1, GUEST],
            ),
            1,
        ),
        (
            Case::new(
                Bench::initializing(),
                MEASURED,
                &[0, page(12), page(7), 0, 1, GUEST],
            ),
            2,
        ),
    ];
    for (case, argument) in cases {
        for address in NO_PAGE {
            case.expect(argument, address, 5);
        }
    }
}

#[test]
fn ranges_end_with_memory() {
    let mut bench = Bench::open(2, 16);
    bench.refuse(CONVERT, 0, &[page(12), 5], 5);
    bench.refuse(CONVERT, 0, &[u64::MAX - 0xFFF, 4_096], 5);
    bench.refuse(CONVERT, 0, &[page(16), 1], 5);
    bench.accept(CONVERT, 0, &[page(12), 4]);
    bench.global_fence();
    bench.refuse(RECLAIM, 0, &[page(12), 5], 5);
    bench.accept(RECLAIM, 0, &[page(12), 4]);

    let mut bench = Bench::initializing();
    bench.refuse(POOL, 0, &[0, page(7), 10], 5);
    bench.refuse(POOL, 0, &[0, page(7), 9], 6);
    bench.refuse(MEASURED, 0, &[0, page(15), page(7), 0, 2, GUEST], 5);
    bench.refuse(MEASURED, 0, &[0, page(12), page(15), 0, 2, GUEST], 5);
    bench.accept(MEASURED, 0, &[0, page(14), page(7), 0, 2, GUEST]);
}

#[test]
fn the_directory_lies_on_16_kib() {
    let mut bench = Bench::open(2, 16);
    bench.free(0, 16);
    for first in [1, 2, 3, 5, 15] {
        bench.refuse(CREATE, 0, &[page(first), page(8)], 5);
    }
    for address in NO_PAGE {
        bench.refuse(CREATE, 0, &[address, page(8)], 5);
    }
    bench.clone().accept(CREATE, 0, &[page(4), page(8)]);
    bench.clone().accept(CREATE, 0, &[page(12), page(8)]);
}

#[test]
fn the_directory_ends_with_memory() {
    let mut bench = Bench::open(2, 15);
    bench.free(0, 15);
    bench.refuse(CREATE, 0, &[page(12), page(0)], 5);
    bench.accept(CREATE, 0, &[page(8), page(0)]);
}

#[test]
fn the_state_page_is_outside_the_directory() {
    let mut bench = Bench::open(2, 16);
    bench.free(0, 16);
    for state in 4..8 {
        bench.refuse(CREATE, 0, &[page(4), page(state)], 5);
    }
    for state in [3, 8] {
        bench.clone().accept(CREATE, 0, &[page(4), page(state)]);
    }
    // 5 comes before 6: these pages are not free any more.
    bench.accept(CREATE, 0, &[page(4), page(8)]);
    bench.refuse(CREATE, 0, &[page(4), page(7)], 5);
    bench.refuse(CREATE, 0, &[page(4), page(8)], 6);
}

#[test]
fn guest_addresses_are_below_4_gib() {
    let cases = [
        (
            Case::new(Bench::runnable(), ZERO, &[0, page(8), 0, 1, GUEST]),
            4,
        ),
        (
            Case::new(
                Bench::initializing(),
                MEASURED,
                &[0, page(12), page(7), 0, 1, GUEST],
            ),
            5,
        ),
        (Case::new(Bench::initializing(), REGION, &[0, 0, 0x1000]), 1),
        (
            Case::new(Bench::mapped(), INVALIDATE, &[0, GUEST, 0x1000]),
            1,
        ),
    ];
    for (case, argument) in cases {
        for address in NO_GUEST {
            case.expect(argument, address, 5);
        }
    }
    for call in [VALIDATE, REMOVE] {
        for address in NO_GUEST {
            Bench::blocked().refuse(call, 0, &[0, address, 0x1000], 5);
        }
    }
}

#[test]
fn guest_ranges_end_by_4_gib() {
    let last = 0xFFFF_F000;
    let mut bench = Bench::initializing();
    bench.refuse(REGION, 0, &[0, last, 0x2000], 5);
    bench.refuse(REGION, 0, &[0, 0x1000, 1 << 32], 5);
    bench.refuse(REGION, 0, &[0, 0x1000, u64::MAX - 0xFFF], 5);
    bench.accept(REGION, 0, &[0, last, 0x1000]);
    bench.refuse(MEASURED, 0, &[0, page(12), page(7), 0, 2, last], 5);
    bench.accept(MEASURED, 0, &[0, page(12), page(7), 0, 1, last]);
    bench.accept(FINALIZE, 0, &[0]);
    bench.refuse(ZERO, 0, &[0, page(8), 0, 2, last], 5);
    bench.refuse(ZERO, 0, &[0, page(8), 0, 1, last], 11);
    for call in [INVALIDATE, VALIDATE, REMOVE] {
        bench.refuse(call, 0, &[0, last, 0x2000], 5);
        bench.refuse(call, 0, &[0, last - 0x1000, 0x2000], 6);
    }
    bench.accept(INVALIDATE, 0, &[0, last, 0x1000]);
}

#[test]
fn type_1_lies_on_2_mib() {
    let mut bench = Bench::runnable_of(2_048);
    let base = page(1_024);
    let zero = |base, guest| [0, base, 1, 1, guest];
    bench.refuse(ZERO, 0, &zero(base + 0x1000, 0x20_0000), 5);
    bench.refuse(ZERO, 0, &zero(base, 0x20_1000), 5);
    bench.refuse(ZERO, 0, &[0, base, 1, 3, 0x20_0000], 5);
    bench.refuse(ZERO, 0, &[0, base, 1, 2, 0xFFE0_0000], 5);
    bench.clone().accept(ZERO, 0, &zero(base, 0x20_0000));
    // For type 0 the same addresses need only be on 4 KiB.
    bench.accept(ZERO, 0, &[0, base + 0x1000, 0, 1, 0x20_1000]);
}

#[test]
fn type_1_sources_need_only_lie_on_4_kib() {
    let mut bench = Bench::open(2, 2_048);
    bench.free(0, 8);
    bench.tvm(0);
    bench.accept(REGION, 0, &[0, 0x20_0000, 0x40_0000]);
    bench.free(512, 512);
    let dest = page(512);
    let measured = |source, dest, guest| [0, source, dest, 1, 1, guest];
    bench.refuse(
        MEASURED,
        0,
        &measured(page(1_024), dest + 0x1000, 0x20_0000),
        5,
    );
    bench.refuse(MEASURED, 0, &measured(page(1_024), dest, 0x20_1000), 5);
    bench.refuse(
        MEASURED,
        0,
        &measured(page(1_025) + 0x800, dest, 0x20_0000),
        5,
    );
    // The source is 512 pages as well, up to memory's end.
    bench.refuse(MEASURED, 0, &measured(page(1_537), dest, 0x20_0000), 5);
    bench
        .clone()
        .accept(MEASURED, 0, &measured(page(1_536), dest, 0x20_0000));
    bench.accept(MEASURED, 0, &measured(page(1_025), dest, 0x20_0000));
}

#[test]
fn number_5_comes_after_4() {
    let mut bench = Bench::open(2, 16);
    bench.refuse(CONVERT, 2, &[1, 1], 4);
    bench.refuse(CONVERT, 0, &[1, 0], 4);
    bench.refuse(CONVERT, 0, &[1, 1], 5);
}
