//! What each accepted call writes, to the byte, and what it answers.

use second::fence::{GlobalVersion, TvmVersion};
use second::number::*;
use second::{HartId, Phase, VcpuId};

use crate::bench::{page, slot, Bench, GUEST};

/// The indices of the records that differ.
fn written(before: &Bench, after: &Bench) -> Vec<usize> {
    (0..before.table.len() / 8)
        .filter(|&index| before.record(index) != after.record(index))
        .collect()
}

#[test]
fn open_writes_every_record() {
    let mut bench = Bench::closed(16);
    assert_eq!(bench.accept(OPEN, 0, &[3, 16]), 0);
    assert_eq!(bench.table, [0; 8 * 16]);
    assert_eq!((bench.ledger.harts(), bench.ledger.pages()), (3, 16));
}

#[test]
fn convert_records_the_global_version() {
    let mut bench = Bench::open(1, 16);
    for _ in 0..0x1234 {
        bench.accept(GLOBAL_FENCE, 0, &[]);
    }
    let before = bench.clone();
    assert_eq!(bench.accept(CONVERT, 0, &[page(3), 2]), 0);
    assert_eq!(written(&before, &bench), [3, 4]);
    assert_eq!(bench.record(3), [1, 0, 0x34, 0x12, 0, 0, 0, 0]);
    assert_eq!(bench.record(4), bench.record(3));
    assert_eq!(before.ledger, bench.ledger);
}

#[test]
fn reclaim_clears_the_record() {
    let mut bench = Bench::initializing();
    let before = bench.clone();
    assert_eq!(bench.accept(RECLAIM, 1, &[page(8), 3]), 0);
    assert_eq!(written(&before, &bench), [8, 9, 10]);
    assert_eq!(bench.table[64..88], [0; 24]);
    assert_eq!(before.ledger, bench.ledger);
}

#[test]
fn fences_move_versions_and_awaited_harts() {
    let mut bench = Bench::open(8, 1);
    let before = bench.table.clone();
    assert_eq!(bench.accept(GLOBAL_FENCE, 3, &[]), 7);
    for (hart, left) in [
        (3, 7),
        (0, 6),
        (0, 6),
        (7, 5),
        (1, 4),
        (2, 3),
        (4, 2),
        (5, 1),
        (6, 0),
    ] {
        assert_eq!(bench.accept(LOCAL_FENCE, hart, &[]), left);
    }
    assert_eq!(bench.accept(LOCAL_FENCE, 2, &[]), 0); // none runs
    let fence = bench.ledger.global_fence_state();
    assert_eq!(fence.version(), GlobalVersion(1));
    assert_eq!(before, bench.table);
}

#[test]
fn create_writes_five_records_and_answers_the_slot() {
    let mut bench = Bench::open(1, 32);
    bench.free(0, 32);
    bench.tvm(0);
    let before = bench.clone();
    assert_eq!(bench.accept(CREATE, 0, &[page(16), page(9)]), 1);
    assert_eq!(written(&before, &bench), [9, 16, 17, 18, 19]);
    for index in 16..20 {
        assert_eq!(bench.record(index), [3, 1, 0, 0, 0, 0, 0, 0]);
    }
    assert_eq!(bench.record(9), [4, 1, 0, 0, 0, 0, 0, 0]);
    assert_eq!(bench.ledger.phase(slot(1)), Phase::Initializing);
    assert_eq!(bench.ledger.regions(slot(1)).count(), 0);
}

#[test]
fn finalize_region_vcpu_and_pool() {
    let mut bench = Bench::initializing();
    let table = bench.table.clone();
    assert_eq!(bench.accept(REGION, 0, &[0, 0x3000, 0x5000]), 0);
    let regions: Vec<_> = bench
        .ledger
        .regions(slot(0))
        .map(|region| (region.first(), region.count()))
        .collect();
    assert_eq!(regions, [(0x100, 16), (3, 5)]);
    assert_eq!(bench.accept(FINALIZE, 0, &[0]), 0);
    assert_eq!(bench.ledger.phase(slot(0)), Phase::Runnable);
    assert_eq!(bench.table, table);

    let mut bench = Bench::initializing();
    let before = bench.clone();
    assert_eq!(bench.accept(VCPU, 0, &[0, 5, page(9)]), 0);
    assert_eq!(written(&before, &bench), [9]);
    assert_eq!(bench.record(9), [5, 0, 0, 0, 0, 0, 0, 0]);
    assert!(bench.ledger.has_vcpu(slot(0), VcpuId::new(5).unwrap()));

    let before = bench.clone();
    assert_eq!(bench.accept(POOL, 0, &[0, page(10), 2]), 0);
    assert_eq!(written(&before, &bench), [10, 11]);
    assert_eq!(bench.record(11), [6, 0, 0, 0, 0, 0, 0, 0]);
    assert_eq!(before.ledger, bench.ledger);
}

#[test]
fn measured_writes_the_dest_and_not_the_source() {
    let mut bench = Bench::initializing();
    let before = bench.clone();
    let named = [0, page(13), page(8), 0, 3, GUEST + 0x2000];
    assert_eq!(bench.accept(MEASURED, 0, &named), 0);
    assert_eq!(written(&before, &bench), [8, 9, 10]);
    assert_eq!(bench.record(8), [7, 0, 0, 0, 0x02, 1, 0, 0]);
    assert_eq!(bench.record(9), [7, 0, 0, 0, 0x03, 1, 0, 0]);
    assert_eq!(bench.record(10), [7, 0, 0, 0, 0x04, 1, 0, 0]);
    assert_eq!(before.ledger, bench.ledger);
}

#[test]
fn large_zero_writes_bit_31_in_every_record() {
    let mut bench = Bench::runnable_of(2_048);
    let before = bench.clone();
    assert_eq!(
        bench.accept(ZERO, 0, &[0, page(1_024), 1, 2, 0xFFC0_0000]),
        0
    );
    assert_eq!(
        written(&before, &bench),
        (1_024..2_048).collect::<Vec<usize>>()
    );
    assert_eq!(bench.record(1_024), [7, 0, 0, 0, 0x00, 0xFC, 0x0F, 0x80]);
    assert_eq!(bench.record(2_047), [7, 0, 0, 0, 0xFF, 0xFF, 0x0F, 0x80]);
}

#[test]
fn blocking_keeps_bit_31_and_records_the_tvms_version() {
    let mut bench = Bench::runnable_of(1_024);
    bench.accept(ZERO, 0, &[0, page(512), 1, 1, 0x20_0000]);
    for _ in 0..0x0102 {
        bench.accept(TVM_FENCE, 0, &[0]);
    }
    let present = bench.clone();
    let range = [0, 0x20_0000, 0x20_0000];
    assert_eq!(bench.accept(INVALIDATE, 0, &range), 0);
    assert_eq!(
        written(&present, &bench),
        (512..1_024).collect::<Vec<usize>>()
    );
    assert_eq!(bench.record(513), [8, 0, 2, 1, 0x01, 0x02, 0, 0x80]);
    assert_eq!(present.ledger, bench.ledger);

    assert_eq!(bench.accept(TVM_FENCE, 0, &[0]), 0);
    let blocked = bench.clone();
    assert_eq!(bench.accept(VALIDATE, 0, &range), 0);
    assert_eq!(bench.table, present.table);
    assert_eq!(bench.ledger, blocked.ledger);

    let mut bench = blocked.clone();
    assert_eq!(bench.accept(REMOVE, 0, &range), 0);
    for index in 512..1_024 {
        assert_eq!(bench.record(index), [2, 0, 0, 0, 0, 0, 0, 0]);
    }
    assert_eq!(bench.ledger, blocked.ledger);
}

#[test]
fn enter_and_leave_answer_flushes_and_seats() {
    let mut bench = Bench::open(8, 64);
    bench.free(0, 64);
    for first in [0, 8, 16] {
        bench.tvm(first);
    }
    bench.accept(VCPU, 0, &[2, 6, page(30)]);
    bench.accept(FINALIZE, 0, &[2]);
    let table = bench.table.clone();
    let hart = HartId::new(7).unwrap();
    assert_eq!(bench.ledger.flushed(hart, slot(2)), None);
    assert_eq!(bench.accept(ENTER, 7, &[2, 6]), 1);
    assert_eq!(bench.ledger.flushed(hart, slot(2)), Some(TvmVersion(0)));
    let seat = bench.ledger.seat(hart).unwrap();
    assert_eq!((seat.slot, seat.vcpu.number()), (slot(2), 6));
    assert_eq!(bench.accept(LEAVE, 7, &[]), 2 * 8 + 6);
    assert_eq!(bench.ledger.seat(hart), None);
    assert_eq!(bench.table, table);
}

#[test]
fn a_fence_begun_or_a_tvm_destroyed_makes_entry_flush() {
    let mut bench = Bench::runnable();
    assert_eq!(bench.accept(ENTER, 0, &[0, 0]), 1);
    bench.accept(LEAVE, 0, &[]);
    assert_eq!(bench.accept(ENTER, 0, &[0, 1]), 0); // the hart's mark, not the vCPU's
    bench.accept(LEAVE, 0, &[]);
    bench.accept(TVM_FENCE, 0, &[0]);
    assert_eq!(bench.accept(ENTER, 0, &[0, 0]), 1);
    bench.accept(LEAVE, 0, &[]);
    assert_eq!(bench.accept(ENTER, 0, &[0, 0]), 0);
    bench.accept(LEAVE, 0, &[]);
    // Global fences are another matter.
    bench.global_fence();
    assert_eq!(bench.accept(ENTER, 0, &[0, 0]), 0);
}

#[test]
fn destroy_frees_all_of_its_slot_and_nothing_else() {
    let mut bench = Bench::blocked();
    bench.accept(POOL, 0, &[0, page(8), 1]);
    bench.accept(ZERO, 0, &[0, page(9), 0, 1, GUEST + 0x1000]);
    let other = [7, 1, 9, 9, 0x55, 0x66, 0x77, 0x88];
    bench.set_record(15, other);
    let before = bench.clone();
    assert_eq!(bench.accept(DESTROY, 1, &[0]), 0);
    assert_eq!(written(&before, &bench), (0..10).collect::<Vec<usize>>());
    for index in 0..10 {
        assert_eq!(bench.record(index), [2, 0, 0, 0, 0, 0, 0, 0]);
    }
    assert_eq!(bench.record(15), other);
    assert_eq!(bench.ledger.phase(slot(0)), Phase::Empty);
    assert_eq!(bench.ledger.regions(slot(0)).count(), 0);
    assert!(VcpuId::all().all(|vcpu| !bench.ledger.has_vcpu(slot(0), vcpu)));
    let fence = bench.ledger.tvm_fence_state(slot(0));
    assert_eq!(fence.version(), TvmVersion(1));
}
