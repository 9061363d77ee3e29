//! Number 4: harts, unnamed arguments, counts, types, lengths, vCPUs, open.

use second::number::*;

use crate::bench::{page, Bench, GUEST};

#[test]
fn hart_not_below_the_count() {
    let mut bench = Bench::open(2, 16);
    bench.refuse(LOCAL_FENCE, 2, &[], 4);
    bench.refuse(LOCAL_FENCE, 256, &[], 4);
    bench.refuse(LOCAL_FENCE, 1 << 32, &[], 4);
    bench.refuse(LOCAL_FENCE, u64::MAX, &[], 4);
    bench.accept(LOCAL_FENCE, 1, &[]);
    bench.refuse(LEAVE, 2, &[], 4);
    bench.refuse(LEAVE, 1, &[], 15);

    let mut eight = Bench::open(8, 1);
    eight.accept(LOCAL_FENCE, 7, &[]);
    eight.refuse(LOCAL_FENCE, 8, &[], 4);
}

#[test]
fn open_is_for_hart_0() {
    let mut bench = Bench::closed(16);
    bench.refuse(OPEN, 1, &[2, 16], 4);
    bench.refuse(OPEN, u64::MAX, &[2, 16], 4);
    bench.accept(OPEN, 0, &[2, 16]);
}

#[test]
fn open_with_1_to_8_harts() {
    for harts in [1, 8] {
        Bench::closed(16).accept(OPEN, 0, &[harts, 16]);
    }
    for harts in [0, 9, 1 << 32 | 1, u64::MAX] {
        Bench::closed(16).refuse(OPEN, 0, &[harts, 16], 4);
    }
}

#[test]
fn open_with_the_lent_tables_pages() {
    for pages in [0, 15, 17, 1 << 32 | 16, u64::MAX] {
        Bench::closed(16).refuse(OPEN, 0, &[1, pages], 4);
    }
    Bench::closed(16).accept(OPEN, 0, &[1, 16]);
    Bench::closed(0).refuse(OPEN, 0, &[1, 0], 4);
    Bench::closed(1).accept(OPEN, 0, &[1, 1]);
    Bench::closed(4_096).accept(OPEN, 0, &[1, 4_096]);
    Bench::closed(4_097).refuse(OPEN, 0, &[1, 4_097], 4);
}

/// Every call that names fewer than six arguments, ready to be accepted (or,
/// for leave, to get a later number).
fn ready() -> Vec<(Bench, u64, Vec<u64>)> {
    let done = || {
        let mut bench = Bench::blocked();
        bench.accept(TVM_FENCE, 0, &[0]);
        bench
    };
    vec![
        (Bench::open(2, 16), CONVERT, vec![page(0), 1]),
        (Bench::initializing(), RECLAIM, vec![page(7), 1]),
        (Bench::open(2, 16), GLOBAL_FENCE, vec![]),
        (Bench::open(2, 16), LOCAL_FENCE, vec![]),
        (two_tvms_worth(), CREATE, vec![page(8), page(12)]),
        (Bench::initializing(), FINALIZE, vec![0]),
        (Bench::runnable(), DESTROY, vec![0]),
        (Bench::initializing(), REGION, vec![0, 0, 0x1000]),
        (Bench::initializing(), POOL, vec![0, page(7), 1]),
        (Bench::runnable(), ZERO, vec![0, page(7), 0, 1, GUEST]),
        (Bench::initializing(), VCPU, vec![0, 2, page(7)]),
        (Bench::runnable(), ENTER, vec![0, 0]),
        (Bench::runnable(), TVM_FENCE, vec![0]),
        (Bench::mapped(), INVALIDATE, vec![0, GUEST, 0x1000]),
        (done(), VALIDATE, vec![0, GUEST, 0x1000]),
        (done(), REMOVE, vec![0, GUEST, 0x1000]),
        (Bench::closed(16), OPEN, vec![2, 16]),
        (inside(), LEAVE, vec![]),
    ]
}

fn two_tvms_worth() -> Bench {
    let mut bench = Bench::open(2, 16);
    bench.free(0, 16);
    bench.tvm(0);
    bench
}

fn inside() -> Bench {
    let mut bench = Bench::runnable();
    bench.accept(ENTER, 0, &[0, 0]);
    bench
}

#[test]
fn unnamed_arguments_must_be_0() {
    for (bench, call, named) in ready() {
        for unnamed in named.len()..6 {
            for wrong in [1, 1 << 63] {
                let mut all = named.clone();
                all.resize(6, 0);
                all[unnamed] = wrong;
                bench.clone().refuse(call, 0, &all, 4);
            }
        }
        bench.clone().accept(call, 0, &named);
    }
}

#[test]
fn named_arguments_need_not_be_0() {
    // Measured names all six.
    Bench::initializing().accept(MEASURED, 0, &[0, page(12), page(7), 0, 1, GUEST]);
}

#[test]
fn counts_of_pages() {
    let mut bench = Bench::open(2, 16);
    bench.refuse(CONVERT, 0, &[page(0), 0], 4);
    bench.refuse(CONVERT, 0, &[page(0), 4_097], 4);
    bench.refuse(CONVERT, 0, &[page(0), 1 << 52], 4);
    bench.refuse(CONVERT, 0, &[page(0), u64::MAX], 4);
    bench.refuse(CONVERT, 0, &[page(0), 4_096], 5);
    bench.accept(CONVERT, 0, &[page(0), 1]);
    bench.refuse(RECLAIM, 0, &[page(0), 0], 4);
    bench.refuse(RECLAIM, 0, &[page(0), 4_097], 4);
    bench.refuse(RECLAIM, 0, &[page(0), 4_096], 5);

    let mut bench = Bench::open(1, 4_096);
    bench.refuse(CONVERT, 0, &[page(0), 4_097], 4);
    bench.accept(CONVERT, 0, &[page(0), 4_096]);
    bench.accept(GLOBAL_FENCE, 0, &[]);
    bench.refuse(RECLAIM, 0, &[page(0), 4_097], 4);
    bench.accept(RECLAIM, 0, &[page(0), 4_096]);

    let mut bench = Bench::initializing();
    bench.refuse(POOL, 0, &[0, page(7), 0], 4);
    bench.refuse(POOL, 0, &[0, page(7), 4_097], 4);
    bench.refuse(POOL, 0, &[0, page(7), 4_096], 5);
    bench.accept(POOL, 0, &[0, page(7), 1]);
}

#[test]
fn types_and_counts_of_units() {
    // (type, count, number); a later number shows that 4 does not hold.
    let cases = [
        (0, 0, 4),
        (0, 1, 0),
        (0, 4_096, 5),
        (0, 4_097, 4),
        (1, 0, 4),
        (1, 1, 5),
        (1, 8, 5),
        (1, 9, 4),
        (1, 1 << 55, 4),
        (1, (1 << 55) + 1, 4),
        (1, u64::MAX, 4),
        (2, 1, 4),
        (2, 0, 4),
        (1 << 32, 1, 4),
        (u64::MAX, 1, 4),
    ];
    for (kind, count, number) in cases {
        let mut bench = Bench::runnable();
        let zero = [0, page(7), kind, count, GUEST];
        let mut other = Bench::initializing();
        let measured = [0, page(12), page(7), kind, count, GUEST];
        if number == 0 {
            bench.accept(ZERO, 0, &zero);
            other.accept(MEASURED, 0, &measured);
        } else {
            bench.refuse(ZERO, 0, &zero, number);
            other.refuse(MEASURED, 0, &measured, number);
        }
    }
}

#[test]
fn byte_lengths_of_regions() {
    let mut bench = Bench::initializing();
    for length in [0, 1, 0xFFF, 0x1001, (1 << 32) + 1, u64::MAX] {
        bench.refuse(REGION, 0, &[0, 0, length], 4);
    }
    // No limit of 4,096 pages here: 4,097 are accepted, and what is far too
    // long is 5.
    bench.refuse(REGION, 0, &[0, 0, u64::MAX - 0xFFF], 5);
    bench.accept(REGION, 0, &[0, 0x100_0000, 4_097 * 0x1000]);
    bench.accept(REGION, 0, &[0, 0, 0x1000]);
}

#[test]
fn byte_lengths_of_changes() {
    for call in [INVALIDATE, VALIDATE, REMOVE] {
        let mut bench = Bench::mapped();
        let long = 4_097 * 0x1000;
        for length in [
            0,
            1,
            0xFFF,
            0x1001,
            long,
            1 << 32,
            u64::MAX,
            u64::MAX - 0xFFF,
        ] {
            bench.refuse(call, 0, &[0, GUEST, length], 4);
        }
        // 4,096 pages are within the limit, but not all are mapped.
        bench.refuse(call, 0, &[0, GUEST, 4_096 * 0x1000], 6);
    }
    let mut bench = Bench::mapped();
    bench.accept(INVALIDATE, 0, &[0, GUEST, 0x1000]);
}

#[test]
fn a_change_of_4096_pages() {
    // 4,096 guest pages need 4,096 pages; directory and state leave too few,
    // so the last ones are claimed by a foreign table.
    let mut bench = Bench::runnable_of(4_096);
    for index in 0..4_096u32 {
        let [g0, g1, g2, g3] = index.to_le_bytes();
        bench.set_record(index as usize, [7, 0, 0, 0, g0, g1, g2, g3]);
    }
    bench.refuse(INVALIDATE, 0, &[0, 0, 4_097 * 0x1000], 4);
    bench.accept(INVALIDATE, 0, &[0, 0, 4_096 * 0x1000]);
    assert!(bench.kinds().iter().all(|&kind| kind == 8));
}

#[test]
fn vcpu_above_7() {
    for vcpu in [8, 9, 256, 1 << 32, u64::MAX] {
        Bench::initializing().refuse(VCPU, 0, &[0, vcpu, page(7)], 4);
        Bench::runnable().refuse(ENTER, 0, &[0, vcpu], 4);
    }
    Bench::initializing().accept(VCPU, 0, &[0, 7, page(7)]);
}

#[test]
fn vcpu_absent_on_enter() {
    let mut bench = Bench::initializing();
    bench.accept(VCPU, 0, &[0, 7, page(7)]);
    bench.accept(FINALIZE, 0, &[0]);
    bench.refuse(ENTER, 0, &[0, 2], 4);
    bench.refuse(ENTER, 0, &[0, 6], 4);
    bench.accept(ENTER, 0, &[0, 7]);
    // Before 12: hart 0 is inside.
    bench.refuse(ENTER, 0, &[0, 6], 4);
    bench.refuse(ENTER, 0, &[0, 1], 12);
}
