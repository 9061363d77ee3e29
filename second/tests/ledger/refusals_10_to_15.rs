//! Numbers 10 to 15: regions, mappings, busy harts, versions, large mappings.

use second::number::*;

use crate::bench::{page, Bench, GUEST, GUEST_LENGTH};

#[test]
fn number_10_of_regions() {
    let end = GUEST + GUEST_LENGTH;
    let overlapping = [
        (GUEST, GUEST_LENGTH),
        (GUEST, 0x1000),
        (GUEST + 0x5000, 0x1000),
        (end - 0x1000, 0x1000),
        (end - 0x1000, 0x2000),
        (GUEST - 0x1000, 0x2000),
        (GUEST - 0x1000, GUEST_LENGTH + 0x2000),
        (0, 1 << 32),
    ];
    for (guest, length) in overlapping {
        Bench::initializing().refuse(REGION, 0, &[0, guest, length], 10);
    }
    for (guest, length) in [
        (0, GUEST),
        (GUEST - 0x1000, 0x1000),
        (end, 0x1000),
        (end, (1 << 32) - end),
    ] {
        Bench::initializing().accept(REGION, 0, &[0, guest, length]);
    }
}

#[test]
fn number_10_is_of_the_tvms_own_regions() {
    let mut bench = Bench::open(1, 16);
    bench.free(0, 16);
    bench.tvm(0);
    assert_eq!(bench.tvm(8), 1); // the same region again
    bench.refuse(REGION, 0, &[1, GUEST, 0x1000], 10);
}

#[test]
fn number_10_of_mappings() {
    let end = GUEST + GUEST_LENGTH;
    for (guest, pages, number) in [
        (GUEST - 0x1000, 1, 10),
        (GUEST - 0x1000, 2, 10),
        (GUEST, 2, 0),
        (end - 0x2000, 2, 0),
        (end - 0x1000, 2, 10),
        (end, 1, 10),
        (0, 1, 10),
    ] {
        let zero = [0, page(7), 0, pages, guest];
        let measured = [0, page(12), page(7), 0, pages, guest];
        if number == 0 {
            Bench::runnable().accept(ZERO, 0, &zero);
            Bench::initializing().accept(MEASURED, 0, &measured);
        } else {
            Bench::runnable().refuse(ZERO, 0, &zero, number);
            Bench::initializing().refuse(MEASURED, 0, &measured, number);
        }
    }
}

#[test]
fn two_regions_that_touch_are_not_one() {
    let mut bench = Bench::initializing();
    let end = GUEST + GUEST_LENGTH;
    bench.accept(REGION, 0, &[0, end, 0x1000]);
    bench.refuse(MEASURED, 0, &[0, page(12), page(7), 0, 2, end - 0x1000], 10);
    bench.accept(MEASURED, 0, &[0, page(12), page(7), 0, 1, end]);
}

#[test]
fn number_11_mapped_already() {
    let mut present = Bench::mapped();
    let mut blocked = Bench::blocked();
    for bench in [&mut present, &mut blocked] {
        bench.refuse(ZERO, 0, &[0, page(8), 0, 1, GUEST], 11);
        bench.refuse(ZERO, 0, &[0, page(8), 0, 2, GUEST], 11);
        bench.accept(ZERO, 0, &[0, page(8), 0, 2, GUEST + 0x1000]);
        bench.refuse(ZERO, 0, &[0, page(10), 0, 1, GUEST + 0x2000], 11);
        // 10 comes before 11.
        bench.refuse(ZERO, 0, &[0, page(10), 0, 2, GUEST - 0x1000], 10);
    }
    // A guest page removed can be mapped again.
    blocked.accept(TVM_FENCE, 0, &[0]);
    blocked.accept(REMOVE, 0, &[0, GUEST, 0x1000]);
    blocked.accept(ZERO, 0, &[0, page(7), 0, 1, GUEST]);

    let mut bench = Bench::initializing();
    bench.accept(MEASURED, 0, &[0, page(12), page(7), 0, 1, GUEST]);
    bench.refuse(MEASURED, 0, &[0, page(12), page(8), 0, 1, GUEST], 11);
    bench.accept(MEASURED, 0, &[0, page(12), page(8), 0, 1, GUEST + 0x1000]);
}

#[test]
fn number_11_is_by_slot() {
    let mut bench = Bench::open(1, 32);
    bench.free(0, 32);
    for slot in 0..2 {
        bench.tvm(8 * slot);
        bench.accept(FINALIZE, 0, &[slot]);
    }
    bench.accept(ZERO, 0, &[0, page(20), 0, 1, GUEST]);
    bench.refuse(ZERO, 0, &[0, page(21), 0, 1, GUEST], 11);
    bench.accept(ZERO, 0, &[1, page(21), 0, 1, GUEST]);
}

#[test]
fn number_11_under_a_large_mapping() {
    let mut bench = Bench::runnable_of(1_536);
    bench.accept(ZERO, 0, &[0, page(512), 1, 1, 0x40_0000]);
    bench.refuse(ZERO, 0, &[0, page(8), 0, 1, 0x40_0000], 11);
    bench.refuse(ZERO, 0, &[0, page(8), 0, 1, 0x5F_F000], 11);
    bench.accept(ZERO, 0, &[0, page(8), 0, 1, 0x60_0000]);
    bench.accept(ZERO, 0, &[0, page(9), 0, 1, 0x3F_F000]);
    // And over a small one.
    bench.refuse(ZERO, 0, &[0, page(1_024), 1, 1, 0x60_0000], 11);
    bench.accept(ZERO, 0, &[0, page(1_024), 1, 1, 0x80_0000]);
}

/// Hart 1 is inside TVM 0 as vCPU 0; TVM 1 is initializing. Each call named is
/// accepted from hart 0 and refused from hart 1.
#[test]
fn number_12_hart_inside() {
    let mut bench = Bench::open(2, 32);
    bench.free(0, 28);
    bench.tvm(0);
    bench.accept(VCPU, 0, &[0, 0, page(5)]);
    bench.accept(VCPU, 0, &[0, 1, page(6)]);
    bench.accept(FINALIZE, 0, &[0]);
    bench.accept(ZERO, 0, &[0, page(16), 0, 3, GUEST]);
    bench.accept(INVALIDATE, 0, &[0, GUEST, 0x2000]);
    bench.accept(TVM_FENCE, 0, &[0]);
    assert_eq!(bench.tvm(8), 1);
    bench.accept(ENTER, 1, &[0, 0]);
    let calls: [(u64, &[u64]); 17] = [
        (CONVERT, &[page(30), 1]),
        (RECLAIM, &[page(20), 1]),
        (GLOBAL_FENCE, &[]),
        (LOCAL_FENCE, &[]),
        (CREATE, &[page(20), page(24)]),
        (FINALIZE, &[1]),
        (DESTROY, &[1]),
        (REGION, &[1, 0, 0x1000]),
        (POOL, &[0, page(20), 1]),
        (MEASURED, &[1, page(30), page(20), 0, 1, GUEST]),
        (ZERO, &[0, page(20), 0, 1, GUEST + 0x8000]),
        (VCPU, &[1, 0, page(20)]),
        (ENTER, &[0, 1]),
        (TVM_FENCE, &[0]),
        (INVALIDATE, &[0, GUEST + 0x2000, 0x1000]),
        (VALIDATE, &[0, GUEST, 0x1000]),
        (REMOVE, &[0, GUEST, 0x2000]),
    ];
    for (call, named) in calls {
        bench.clone().refuse(call, 1, named, 12);
        bench.clone().accept(call, 0, named);
    }
    bench.refuse(OPEN, 1, &[2, 32], 3);
    assert_eq!(bench.accept(LEAVE, 1, &[]), 0);
}

#[test]
fn number_12_vcpu_already_made() {
    let mut bench = Bench::initializing();
    bench.refuse(VCPU, 0, &[0, 1, page(7)], 12);
    // 6 comes before 12.
    bench.refuse(VCPU, 0, &[0, 1, page(5)], 6);
    bench.accept(VCPU, 0, &[0, 2, page(7)]);
    // vCPUs go with their TVM.
    bench.accept(DESTROY, 0, &[0]);
    bench.tvm(0);
    bench.accept(VCPU, 0, &[0, 1, page(7)]);
}

#[test]
fn number_12_vcpu_running_elsewhere() {
    let mut bench = Bench::runnable();
    bench.accept(ENTER, 1, &[0, 1]);
    bench.refuse(ENTER, 0, &[0, 1], 12);
    bench.clone().accept(ENTER, 0, &[0, 0]);
    bench.accept(LEAVE, 1, &[]);
    bench.accept(ENTER, 0, &[0, 1]);
}

#[test]
fn number_12_destroy_with_a_vcpu_inside() {
    let mut bench = Bench::runnable();
    bench.accept(ENTER, 1, &[0, 1]);
    bench.refuse(DESTROY, 0, &[0], 12);
    bench.accept(LEAVE, 1, &[]);
    bench.accept(DESTROY, 0, &[0]);
}

#[test]
fn number_13_of_the_global_fence() {
    let mut bench = Bench::open(2, 16);
    for _ in 0..65_534 {
        bench.accept(GLOBAL_FENCE, 0, &[]);
        bench.accept(LOCAL_FENCE, 1, &[]);
    }
    bench.accept(CONVERT, 0, &[page(0), 1]); // at 65,534
    assert_eq!(bench.accept(GLOBAL_FENCE, 0, &[]), 1);
    bench.accept(CONVERT, 0, &[page(1), 1]); // at 65,535
    bench.refuse(GLOBAL_FENCE, 0, &[], 8); // before 13
    bench.refuse(RECLAIM, 0, &[page(0), 1], 7);
    // A local fence needs no version, so the last fence can end.
    assert_eq!(bench.accept(LOCAL_FENCE, 1, &[]), 0);
    bench.refuse(GLOBAL_FENCE, 0, &[], 13);
    bench.accept(RECLAIM, 0, &[page(0), 1]);
    bench.refuse(RECLAIM, 0, &[page(1), 1], 7);
}

#[test]
fn number_13_of_a_tvm_fence() {
    let mut bench = Bench::mapped();
    for _ in 0..65_533 {
        bench.accept(TVM_FENCE, 0, &[0]);
    }
    bench.accept(INVALIDATE, 0, &[0, GUEST, 0x1000]); // at 65,533
    assert_eq!(bench.accept(TVM_FENCE, 0, &[0]), 0);
    bench.refuse(TVM_FENCE, 0, &[0], 13);
    bench.accept(VALIDATE, 0, &[0, GUEST, 0x1000]);
    bench.accept(INVALIDATE, 0, &[0, GUEST, 0x1000]); // at 65,534
    bench.refuse(REMOVE, 0, &[0, GUEST, 0x1000], 7);
    // 12 comes before 13.
    bench.accept(ENTER, 1, &[0, 0]);
    bench.refuse(TVM_FENCE, 1, &[0], 12);
    bench.refuse(TVM_FENCE, 0, &[0], 13);
    // Only this slot's versions are spent.
    bench.accept(GLOBAL_FENCE, 0, &[]);
}

#[test]
fn number_14_large_mappings_whole() {
    let guest = 0x40_0000;
    let large = 0x20_0000;
    let mut bench = Bench::runnable_of(1_600);
    bench.accept(ZERO, 0, &[0, page(512), 1, 2, guest]);
    bench.accept(ZERO, 0, &[0, page(8), 0, 1, guest - 0x1000]);
    let split = [
        (guest, 0x1000),
        (guest, large - 0x1000),
        (guest + 0x1000, large - 0x1000),
        (guest, large + 0x1000),
        (guest + large - 0x1000, 0x1000),
        (guest - 0x1000, 0x2000),
        (guest + 0x1000, 2 * large - 0x1000),
    ];
    let whole = [
        (guest, large),
        (guest + large, large),
        (guest, 2 * large),
        (guest - 0x1000, 0x1000 + 2 * large),
    ];
    for (guest, length) in split {
        bench.refuse(INVALIDATE, 0, &[0, guest, length], 14);
    }
    for (guest, length) in whole {
        bench.clone().accept(INVALIDATE, 0, &[0, guest, length]);
    }
    // 6 comes before 14.
    bench.refuse(INVALIDATE, 0, &[0, guest + large, large + 0x1000], 6);

    bench.accept(INVALIDATE, 0, &[0, guest - 0x1000, 0x1000 + 2 * large]);
    for call in [VALIDATE, REMOVE] {
        // 7 comes before 14.
        bench.refuse(call, 0, &[0, guest, 0x1000], 7);
    }
    bench.accept(TVM_FENCE, 0, &[0]);
    for call in [VALIDATE, REMOVE] {
        for (guest, length) in split {
            bench.refuse(call, 0, &[0, guest, length], 14);
        }
        for (guest, length) in whole {
            bench.clone().accept(call, 0, &[0, guest, length]);
        }
    }
}

#[test]
fn number_14_comes_after_12() {
    let mut bench = Bench::open(2, 1_024);
    bench.free(0, 1_024);
    bench.accept(CREATE, 0, &[page(0), page(4)]);
    bench.accept(REGION, 0, &[0, 0, 1 << 32]);
    bench.accept(VCPU, 0, &[0, 0, page(5)]);
    bench.accept(FINALIZE, 0, &[0]);
    bench.accept(ZERO, 0, &[0, page(512), 1, 1, 0]);
    bench.accept(ENTER, 1, &[0, 0]);
    bench.refuse(INVALIDATE, 1, &[0, 0, 0x1000], 12);
    bench.refuse(INVALIDATE, 0, &[0, 0, 0x1000], 14);
}

#[test]
fn number_15_leave() {
    let mut bench = Bench::runnable();
    bench.refuse(LEAVE, 0, &[], 15);
    bench.accept(ENTER, 0, &[0, 1]);
    bench.refuse(LEAVE, 1, &[], 15);
    assert_eq!(bench.accept(LEAVE, 0, &[]), 1);
    bench.refuse(LEAVE, 0, &[], 15);
    bench.refuse(LEAVE, 0, &[0, 0, 0, 0, 0, 1], 4);
}
