//! Numbers 6 to 9: kinds, fences not done, harts awaited, no room.

use second::number::*;

use crate::bench::{page, Bench, GUEST, GUEST_LENGTH};

/// Two harts, 16 pages, one page of each sort: 0 to 3 directory, 4 state, 5
/// vCPU, 6 pool, 7 present, 8 blocked, 9 free (kind 1, done), 10 converting,
/// 11 ordinary, 12 kind 9, 13 kind 255, 14 free (kind 2), 15 ordinary. The TVM
/// is initializing or runnable.
fn zoo(runnable: bool) -> Bench {
    let mut bench = Bench::open(2, 16);
    bench.free(0, 10);
    bench.tvm(0);
    bench.accept(VCPU, 0, &[0, 0, page(5)]);
    bench.accept(POOL, 0, &[0, page(6), 1]);
    bench.accept(CONVERT, 0, &[page(10), 1]);
    if runnable {
        bench.accept(FINALIZE, 0, &[0]);
        bench.accept(ZERO, 0, &[0, page(7), 0, 2, GUEST]);
        bench.accept(INVALIDATE, 0, &[0, GUEST + 0x1000, 0x1000]);
    } else {
        bench.set_record(7, [7, 0, 0, 0, 0, 1, 0, 0]);
        bench.set_record(8, [8, 0, 0, 0, 1, 1, 0, 0]);
    }
    bench.set_record(12, [9, 0, 0, 0, 0, 0, 0, 0]);
    bench.set_record(13, [255, 0, 0, 0, 0, 0, 0, 0]);
    bench.set_record(14, [2, 0, 0, 0, 0, 0, 0, 0]);
    bench
}

/// What a free page's being wanted answers for each page of the zoo.
fn wants_free(index: u64) -> u64 {
    match index {
        9 | 14 => 0,
        10 => 7,
        _ => 6,
    }
}

#[track_caller]
fn expect(mut bench: Bench, call: u64, named: &[u64], number: u64) {
    match number {
        0 => {
            bench.accept(call, 0, named);
        }
        _ => bench.refuse(call, 0, named, number),
    }
}

#[test]
fn numbers_6_and_7_where_a_free_page_is_wanted() {
    for index in 0..16 {
        let number = wants_free(index);
        expect(zoo(false), RECLAIM, &[page(index), 1], number);
        expect(zoo(false), POOL, &[0, page(index), 1], number);
        expect(zoo(false), VCPU, &[0, 3, page(index)], number);
        expect(
            zoo(true),
            ZERO,
            &[0, page(index), 0, 1, GUEST + 0x8000],
            number,
        );
        expect(
            zoo(false),
            MEASURED,
            &[0, page(15), page(index), 0, 1, GUEST + 0x8000],
            number,
        );
    }
}

#[test]
fn number_6_where_an_ordinary_page_is_wanted() {
    for index in 0..16 {
        let number = if matches!(index, 11 | 15) { 0 } else { 6 };
        expect(zoo(false), CONVERT, &[page(index), 1], number);
        expect(
            zoo(false),
            MEASURED,
            &[0, page(index), page(9), 0, 1, GUEST + 0x8000],
            number,
        );
    }
}

#[test]
fn number_6_of_the_whole_range_comes_before_7() {
    // Page 10 converting, page 11 ordinary: 6 though 7 stands first.
    let mut bench = zoo(false);
    bench.refuse(RECLAIM, 0, &[page(10), 2], 6);
    bench.refuse(RECLAIM, 0, &[page(9), 2], 7);
    // The same between 11's source and dest.
    let measured = |source, dest| [0, page(source), page(dest), 0, 1, GUEST + 0x8000];
    bench.refuse(MEASURED, 0, &measured(14, 10), 6);
    bench.refuse(MEASURED, 0, &measured(15, 10), 7);
}

#[test]
fn numbers_6_and_7_of_create() {
    let bench = |directory, state| {
        let mut bench = Bench::open(2, 16);
        bench.free(0, 5);
        bench.set_record(1, directory);
        bench.set_record(4, state);
        bench
    };
    let free = [2, 0, 0, 0, 0, 0, 0, 0];
    let undone = [1, 0, 1, 0, 0, 0, 0, 0];
    let ordinary = [0; 8];
    let named = [page(0), page(4)];
    expect(bench(free, free), CREATE, &named, 0);
    expect(bench(undone, free), CREATE, &named, 7);
    expect(bench(free, undone), CREATE, &named, 7);
    expect(bench(ordinary, free), CREATE, &named, 6);
    expect(bench(free, ordinary), CREATE, &named, 6);
    expect(bench(undone, ordinary), CREATE, &named, 6);
    expect(bench(ordinary, undone), CREATE, &named, 6);
}

#[test]
fn the_last_page_of_a_range_is_checked_before_the_first_is_written() {
    let mut bench = Bench::open(2, 16);
    bench.accept(CONVERT, 0, &[page(3), 1]);
    bench.refuse(CONVERT, 0, &[page(0), 4], 6);
    assert_eq!(bench.kinds()[..5], [0, 0, 0, 1, 0]);
    bench.accept(CONVERT, 0, &[page(0), 3]);
}

#[test]
fn number_6_of_changes() {
    // Guest page 0 of the region is present, 1 blocked, 2 not mapped.
    let at = |place: u64, pages: u64| [0, GUEST + place * 0x1000, pages * 0x1000];
    let mut bench = zoo(true);
    bench.refuse(INVALIDATE, 0, &at(1, 1), 6);
    bench.refuse(INVALIDATE, 0, &at(2, 1), 6);
    bench.refuse(INVALIDATE, 0, &at(0, 2), 6);
    bench.clone().accept(INVALIDATE, 0, &at(0, 1));
    assert_eq!(bench.accept(TVM_FENCE, 0, &[0]), 0);
    for call in [VALIDATE, REMOVE] {
        bench.refuse(call, 0, &at(0, 1), 6);
        bench.refuse(call, 0, &at(2, 1), 6);
        bench.refuse(call, 0, &at(0, 2), 6);
        bench.refuse(call, 0, &at(1, 2), 6);
        bench.clone().accept(call, 0, &at(1, 1));
    }
}

#[test]
fn number_6_of_changes_is_by_slot() {
    let mut bench = Bench::open(1, 32);
    bench.free(0, 32);
    for slot in 0..2 {
        assert_eq!(bench.tvm(8 * slot), slot);
        bench.accept(FINALIZE, 0, &[slot]);
    }
    bench.accept(ZERO, 0, &[1, page(20), 0, 1, GUEST]);
    bench.refuse(INVALIDATE, 0, &[0, GUEST, 0x1000], 6);
    bench.accept(INVALIDATE, 0, &[1, GUEST, 0x1000]);
}

#[test]
fn number_7_of_conversion() {
    let mut bench = Bench::open(2, 16);
    bench.accept(CONVERT, 0, &[page(0), 1]);
    bench.refuse(RECLAIM, 0, &[page(0), 1], 7); // r
    bench.accept(GLOBAL_FENCE, 1, &[]);
    bench.refuse(RECLAIM, 0, &[page(0), 1], 7); // r + 1, hart 0 awaited
    assert_eq!(bench.accept(LOCAL_FENCE, 1, &[]), 1); // not the one awaited
    bench.refuse(RECLAIM, 0, &[page(0), 1], 7);
    let mut done = bench.clone();
    assert_eq!(done.accept(LOCAL_FENCE, 0, &[]), 0);
    done.clone().accept(RECLAIM, 0, &[page(0), 1]); // r + 1, none awaited
    done.accept(GLOBAL_FENCE, 0, &[]);
    done.accept(RECLAIM, 0, &[page(0), 1]); // r + 2, hart 1 awaited
}

#[test]
fn number_7_of_blocking() {
    for call in [VALIDATE, REMOVE] {
        let named = [0, GUEST, 0x1000];
        let mut bench = Bench::mapped();
        bench.accept(ENTER, 1, &[0, 0]);
        bench.accept(INVALIDATE, 0, &named);
        bench.refuse(call, 0, &named, 7); // r
        assert_eq!(bench.accept(TVM_FENCE, 0, &[0]), 1);
        bench.refuse(call, 0, &named, 7); // r + 1, hart 1 awaited
        bench.accept(LEAVE, 1, &[]);
        bench.clone().accept(call, 0, &named); // r + 1, none awaited
        bench.accept(ENTER, 1, &[0, 0]);
        bench.clone().accept(call, 0, &named); // entering is not being awaited
        assert_eq!(bench.accept(TVM_FENCE, 0, &[0]), 1);
        bench.accept(call, 0, &named); // r + 2, hart 1 awaited
    }
}

#[test]
fn a_page_blocked_during_a_fence_waits_for_the_next() {
    let mut bench = Bench::mapped();
    bench.accept(ENTER, 1, &[0, 0]);
    assert_eq!(bench.accept(TVM_FENCE, 0, &[0]), 1);
    bench.accept(INVALIDATE, 0, &[0, GUEST, 0x1000]);
    bench.accept(LEAVE, 1, &[]);
    bench.refuse(REMOVE, 0, &[0, GUEST, 0x1000], 7);
    assert_eq!(bench.accept(TVM_FENCE, 0, &[0]), 0);
    bench.accept(REMOVE, 0, &[0, GUEST, 0x1000]);
}

#[test]
fn the_two_sorts_of_fence_do_not_meet() {
    let mut bench = Bench::blocked();
    for _ in 0..3 {
        bench.global_fence();
    }
    bench.refuse(REMOVE, 0, &[0, GUEST, 0x1000], 7);
    bench.accept(CONVERT, 0, &[page(12), 1]);
    for _ in 0..9 {
        bench.accept(TVM_FENCE, 0, &[0]);
    }
    bench.refuse(RECLAIM, 0, &[page(12), 1], 7);
    bench.accept(REMOVE, 0, &[0, GUEST, 0x1000]);
}

#[test]
fn number_8_of_the_global_fence() {
    let mut bench = Bench::open(3, 16);
    assert_eq!(bench.accept(GLOBAL_FENCE, 1, &[]), 2);
    bench.refuse(GLOBAL_FENCE, 0, &[], 8);
    assert_eq!(bench.accept(LOCAL_FENCE, 2, &[]), 1);
    bench.refuse(GLOBAL_FENCE, 1, &[], 8);
    assert_eq!(bench.accept(LOCAL_FENCE, 0, &[]), 0);
    assert_eq!(bench.accept(GLOBAL_FENCE, 0, &[]), 2);

    let mut alone = Bench::open(1, 16);
    assert_eq!(alone.accept(GLOBAL_FENCE, 0, &[]), 0);
    assert_eq!(alone.accept(GLOBAL_FENCE, 0, &[]), 0);
}

#[test]
fn number_8_of_a_tvm_fence() {
    let mut bench = Bench::runnable();
    bench.accept(ENTER, 1, &[0, 0]);
    assert_eq!(bench.accept(TVM_FENCE, 0, &[0]), 1);
    bench.refuse(TVM_FENCE, 0, &[0], 8);
    // Before 12: hart 1 is inside.
    bench.refuse(TVM_FENCE, 1, &[0], 8);
    // A global fence does not strike anyone out of it.
    bench.accept(GLOBAL_FENCE, 0, &[]);
    bench.refuse(TVM_FENCE, 0, &[0], 8);
    bench.accept(LEAVE, 1, &[]);
    assert_eq!(bench.accept(TVM_FENCE, 0, &[0]), 0);
}

#[test]
fn number_8_is_for_calls_3_and_16_only() {
    let mut bench = Bench::runnable();
    bench.accept(ENTER, 1, &[0, 0]);
    bench.accept(GLOBAL_FENCE, 0, &[]);
    // A global fence runs, and the TVM's own fence may still begin.
    assert_eq!(bench.accept(TVM_FENCE, 0, &[0]), 1);
    // Both run, and other calls do not mind.
    bench.accept(CONVERT, 0, &[page(12), 1]);
    bench.accept(ZERO, 0, &[0, page(7), 0, 1, GUEST]);
    bench.accept(ENTER, 0, &[0, 1]);
}

#[test]
fn number_9_of_create() {
    let mut bench = Bench::open(1, 136);
    bench.free(0, 136);
    for slot in 0..15 {
        assert_eq!(bench.tvm(8 * slot), slot);
    }
    let mut last = bench.clone();
    assert_eq!(last.accept(CREATE, 0, &[page(120), page(124)]), 15);
    last.refuse(CREATE, 0, &[page(128), page(132)], 9);
    // 6 comes before 9.
    last.refuse(CREATE, 0, &[page(128), page(0)], 6);
    last.accept(DESTROY, 0, &[6]);
    assert_eq!(last.accept(CREATE, 0, &[page(128), page(132)]), 6);
}

#[test]
fn create_takes_the_lowest_empty_slot() {
    let mut bench = Bench::open(1, 64);
    bench.free(0, 64);
    for slot in 0..4 {
        assert_eq!(bench.tvm(8 * slot), slot);
    }
    bench.accept(DESTROY, 0, &[2]);
    bench.accept(DESTROY, 0, &[1]);
    assert_eq!(bench.tvm(32), 1);
    assert_eq!(bench.tvm(40), 2);
    assert_eq!(bench.tvm(48), 4);
}

#[test]
fn create_passes_over_slots_with_no_version_left() {
    // Slot 0 is emptied at version `fences` + 1.
    for (fences, slot) in [(65_532, 0), (65_533, 1), (65_534, 1)] {
        let mut bench = Bench::runnable_of(16);
        for _ in 0..fences {
            bench.accept(TVM_FENCE, 0, &[0]);
        }
        bench.accept(DESTROY, 0, &[0]);
        assert_eq!(bench.accept(CREATE, 0, &[page(0), page(4)]), slot);
    }
}

#[test]
fn number_9_of_regions() {
    let mut bench = Bench::initializing(); // has one already
    for place in 0..7 {
        bench.accept(REGION, 0, &[0, place * 0x1000, 0x1000]);
    }
    bench.refuse(REGION, 0, &[0, 0x8000, 0x1000], 9);
    // 9 comes before 10, and after 5.
    bench.refuse(REGION, 0, &[0, 0, 0x1000], 9);
    bench.refuse(REGION, 0, &[0, 0x8001, 0x1000], 5);
    // Regions go with their TVM.
    bench.accept(DESTROY, 0, &[0]);
    bench.accept(CREATE, 0, &[page(0), page(4)]);
    bench.accept(REGION, 0, &[0, 0, GUEST_LENGTH]);
}
