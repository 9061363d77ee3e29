//! The order of the numbers: "a later condition is looked at only if no
//! earlier one holds".

use second::number::*;

use crate::bench::{page, Bench, GUEST};

/// Two harts, 32 pages, hart 1 inside TVM 0 as vCPU 0. Pages 0 to 6 are TVM
/// 0's, 8 to 12 TVM 1's (initializing), 16 to 18 mapped by TVM 0 with the
/// first blocked, 20 to 27 free, 28 and 29 converting, 30 and 31 the host's.
fn hart_1_inside() -> Bench {
    let mut bench = Bench::open(2, 32);
    bench.free(0, 28);
    bench.tvm(0);
    bench.accept(VCPU, 0, &[0, 0, page(5)]);
    bench.accept(VCPU, 0, &[0, 1, page(6)]);
    bench.accept(FINALIZE, 0, &[0]);
    bench.accept(ZERO, 0, &[0, page(16), 0, 3, GUEST]);
    bench.accept(INVALIDATE, 0, &[0, GUEST, 0x1000]);
    bench.tvm(8);
    bench.accept(CONVERT, 0, &[page(28), 2]);
    bench.accept(ENTER, 1, &[0, 0]);
    bench
}

#[test]
fn a_hart_inside_gets_every_lower_number_first() {
    let mut bench = hart_1_inside();
    let cases: [(u64, &[u64], u64); 40] = [
        (CONVERT, &[page(30), 0], 4),
        (CONVERT, &[page(32), 1], 5),
        (CONVERT, &[page(29), 1], 6),
        (CONVERT, &[page(30), 1], 12),
        (RECLAIM, &[page(20), 0], 4),
        (RECLAIM, &[page(20) + 1, 1], 5),
        (RECLAIM, &[page(30), 1], 6),
        (RECLAIM, &[page(28), 1], 7),
        (RECLAIM, &[page(20), 1], 12),
        (LOCAL_FENCE, &[1], 4),
        (CREATE, &[page(20), page(20)], 5),
        (CREATE, &[page(20), page(30)], 6),
        (CREATE, &[page(20), page(28)], 7),
        (FINALIZE, &[2], 2),
        (FINALIZE, &[0], 3),
        (DESTROY, &[1, 1], 4),
        (REGION, &[1, 0, 0], 4),
        (REGION, &[1, 1, 0x1000], 5),
        (REGION, &[1, GUEST, 0x1000], 10),
        (POOL, &[0, page(20), 0], 4),
        (POOL, &[0, page(40), 1], 5),
        (POOL, &[0, page(0), 1], 6),
        (POOL, &[0, page(29), 1], 7),
        (VCPU, &[1, 8, page(20)], 4),
        (VCPU, &[1, 0, page(33)], 5),
        (VCPU, &[1, 0, page(16)], 6),
        (VCPU, &[1, 0, page(28)], 7),
        (MEASURED, &[1, page(20), page(21), 0, 1, GUEST], 6),
        (MEASURED, &[1, page(30), page(28), 0, 1, GUEST], 7),
        (MEASURED, &[1, page(30), page(20), 0, 1, 0], 10),
        (ZERO, &[0, page(20), 2, 1, GUEST], 4),
        (ZERO, &[0, page(20), 0, 1, GUEST + 1], 5),
        (ZERO, &[0, page(30), 0, 1, GUEST], 6),
        (ZERO, &[0, page(28), 0, 1, 0], 7),
        (ZERO, &[0, page(20), 0, 1, 0], 10),
        (ZERO, &[0, page(20), 0, 1, GUEST], 11),
        (INVALIDATE, &[0, GUEST, 0], 4),
        (INVALIDATE, &[0, 1 << 32, 0x1000], 5),
        (INVALIDATE, &[0, GUEST, 0x1000], 6),
        (REMOVE, &[0, GUEST, 0x1000], 7),
    ];
    for (call, named, number) in cases {
        bench.refuse(call, 1, named, number);
    }
    bench.accept(GLOBAL_FENCE, 0, &[]);
    bench.refuse(GLOBAL_FENCE, 1, &[], 8);
}

#[test]
fn a_hart_inside_gets_9_before_12() {
    let mut bench = Bench::open(2, 140);
    bench.free(0, 140);
    for slot in 0..16 {
        bench.tvm(8 * slot);
    }
    bench.accept(VCPU, 0, &[0, 0, page(5)]);
    bench.accept(FINALIZE, 0, &[0]);
    for place in 0..7 {
        bench.accept(REGION, 0, &[1, place * 0x1000, 0x1000]);
    }
    bench.accept(ENTER, 1, &[0, 0]);
    bench.refuse(CREATE, 1, &[page(128), page(132)], 9);
    bench.refuse(REGION, 1, &[1, 0x8000, 0x1000], 9);
    bench.accept(DESTROY, 0, &[7]);
    bench.refuse(CREATE, 1, &[page(128), page(132)], 12);
}

/// One call, made right step by step: the numbers it gets on the way rise.
#[test]
fn zero_climbs_through_the_numbers() {
    let mut bench = Bench::open(2, 32);
    bench.refuse(13, 9, &[99, 1, 9, 0, 1, 1], 1);
    bench.refuse(ZERO, 9, &[99, 1, 9, 0, 1, 1], 2);
    bench.free(0, 16);
    bench.tvm(0);
    bench.accept(VCPU, 0, &[0, 0, page(5)]);
    bench.refuse(ZERO, 9, &[0, 1, 9, 0, 1, 1], 3);
    bench.accept(FINALIZE, 0, &[0]);
    bench.accept(ZERO, 0, &[0, page(6), 0, 1, GUEST]);
    bench.accept(CONVERT, 0, &[page(20), 1]);
    bench.accept(ENTER, 1, &[0, 0]);
    bench.refuse(ZERO, 9, &[0, 1, 9, 0, 1, 1], 4);
    bench.refuse(ZERO, 1, &[0, 1, 9, 0, 1, 1], 4);
    bench.refuse(ZERO, 1, &[0, 1, 9, 0, 1], 4);
    bench.refuse(ZERO, 1, &[0, 1, 0, 0, 1], 4);
    bench.refuse(ZERO, 1, &[0, 1, 0, 1, 1], 5);
    bench.refuse(ZERO, 1, &[0, page(21), 0, 1, 1], 5);
    bench.refuse(ZERO, 1, &[0, page(21), 0, 1, 0], 6);
    bench.refuse(ZERO, 1, &[0, page(20), 0, 1, 0], 7);
    bench.refuse(ZERO, 1, &[0, page(7), 0, 1, 0], 10);
    bench.refuse(ZERO, 1, &[0, page(7), 0, 1, GUEST], 11);
    bench.refuse(ZERO, 1, &[0, page(7), 0, 1, GUEST + 0x1000], 12);
    bench.accept(ZERO, 0, &[0, page(7), 0, 1, GUEST + 0x1000]);
}
