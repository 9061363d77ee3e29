//! The paper's seatings S1 to S16, "on each side of a line": two harts, 16
//! pages, fresh each time, set up by lawful calls.

use second::number::*;

use crate::bench::{page, Bench, GUEST};

fn fresh() -> Bench {
    Bench::open(2, 16)
}

#[test]
fn s1_convert_ends_with_memory() {
    fresh().accept(CONVERT, 0, &[0x8000_F000, 1]);
    fresh().refuse(CONVERT, 0, &[0x8000_F000, 2], 5);
    fresh().refuse(CONVERT, 0, &[0x7FFF_F000, 1], 5);
}

#[test]
fn s2_a_count_too_large_comes_before_a_bad_address() {
    fresh().refuse(CONVERT, 0, &[0x8000_0800, 4_097], 4);
}

#[test]
fn s3_an_address_off_the_page() {
    fresh().refuse(CONVERT, 0, &[0x8000_0800, 1], 5);
}

#[test]
fn s4_converting_twice() {
    let mut bench = fresh();
    bench.accept(CONVERT, 0, &[page(3), 1]);
    bench.refuse(CONVERT, 0, &[page(3), 1], 6);
}

#[test]
fn s5_reclaim_waits_for_every_hart() {
    let mut bench = fresh();
    bench.accept(CONVERT, 0, &[page(0), 1]);
    bench.refuse(RECLAIM, 0, &[page(0), 1], 7);
    assert_eq!(bench.accept(GLOBAL_FENCE, 0, &[]), 1);
    bench.refuse(RECLAIM, 0, &[page(0), 1], 7);
    assert_eq!(bench.accept(LOCAL_FENCE, 1, &[]), 0);
    bench.accept(RECLAIM, 0, &[page(0), 1]);
}

#[test]
fn s6_a_second_global_fence() {
    let mut bench = fresh();
    bench.accept(GLOBAL_FENCE, 0, &[]);
    bench.refuse(GLOBAL_FENCE, 0, &[], 8);
}

#[test]
fn s7_a_page_converted_during_the_fence() {
    let mut bench = fresh();
    bench.accept(GLOBAL_FENCE, 0, &[]);
    bench.accept(CONVERT, 0, &[page(0), 1]);
    assert_eq!(bench.accept(LOCAL_FENCE, 1, &[]), 0);
    bench.refuse(RECLAIM, 0, &[page(0), 1], 7);
}

#[test]
fn s8_only_the_first_entry_flushes() {
    let mut bench = Bench::runnable();
    assert_eq!(bench.accept(ENTER, 0, &[0, 0]), 1);
    bench.accept(LEAVE, 0, &[]);
    assert_eq!(bench.accept(ENTER, 0, &[0, 0]), 0);
}

#[test]
fn s9_remove_waits_for_both_harts_inside() {
    let mut bench = Bench::open(3, 16);
    bench.free(0, 8);
    bench.tvm(0);
    bench.accept(VCPU, 0, &[0, 0, page(5)]);
    bench.accept(VCPU, 0, &[0, 1, page(6)]);
    bench.accept(FINALIZE, 0, &[0]);
    bench.accept(ZERO, 0, &[0, page(7), 0, 1, GUEST]);

    bench.accept(ENTER, 0, &[0, 0]);
    bench.accept(ENTER, 1, &[0, 1]);
    bench.accept(INVALIDATE, 2, &[0, GUEST, 0x1000]);
    assert_eq!(bench.accept(TVM_FENCE, 2, &[0]), 2);
    bench.accept(LEAVE, 0, &[]);
    bench.refuse(REMOVE, 2, &[0, GUEST, 0x1000], 7);
    bench.accept(LEAVE, 1, &[]);
    bench.accept(REMOVE, 2, &[0, GUEST, 0x1000]);
}

#[test]
fn s10_the_mark_is_the_harts() {
    let mut bench = Bench::mapped();
    assert_eq!(bench.accept(ENTER, 0, &[0, 0]), 1);
    bench.accept(LEAVE, 0, &[]);
    assert_eq!(bench.accept(ENTER, 1, &[0, 1]), 1);
    bench.accept(INVALIDATE, 0, &[0, GUEST, 0x1000]);
    assert_eq!(bench.accept(TVM_FENCE, 0, &[0]), 1);
    bench.accept(LEAVE, 1, &[]);
    assert_eq!(bench.accept(ENTER, 1, &[0, 1]), 1);
    bench.accept(LEAVE, 1, &[]);
    assert_eq!(bench.accept(ENTER, 0, &[0, 1]), 1);
}

#[test]
fn s11_a_slot_used_again() {
    for hart in 0..2 {
        let mut bench = Bench::runnable();
        for hart in 0..2 {
            bench.accept(ENTER, hart, &[0, hart]);
        }
        for hart in 0..2 {
            bench.accept(LEAVE, hart, &[]);
        }
        bench.accept(DESTROY, 0, &[0]);
        assert_eq!(bench.tvm(0), 0);
        bench.accept(VCPU, 0, &[0, 0, page(5)]);
        bench.accept(FINALIZE, 0, &[0]);
        assert_eq!(bench.accept(ENTER, hart, &[0, 0]), 1);
    }
}

#[test]
fn s12_a_large_page() {
    let mut bench = Bench::open(2, 1_024);
    bench.free(0, 1_024);
    for slot in 0..2 {
        assert_eq!(
            bench.accept(CREATE, 0, &[page(8 * slot), page(8 * slot + 4)]),
            slot
        );
        bench.accept(REGION, 0, &[slot, 0, 1 << 32]);
        bench.accept(FINALIZE, 0, &[slot]);
    }
    bench.accept(ZERO, 0, &[0, 0x8020_0000, 1, 1, 0x40_0000]);
    bench.refuse(ZERO, 0, &[1, 0x8020_1000, 0, 1, 0x40_0000], 6);
    bench.refuse(INVALIDATE, 0, &[0, 0x40_1000, 0x1000], 14);
}

#[test]
fn s13_leave_from_outside() {
    fresh().refuse(LEAVE, 0, &[], 15);
}

#[test]
fn s14_regions_may_fill_guest_space() {
    let without_regions = || {
        let mut bench = fresh();
        bench.free(0, 5);
        bench.accept(CREATE, 0, &[page(0), page(4)]);
        bench
    };
    without_regions().accept(REGION, 0, &[0, 0, 1 << 32]);
    without_regions().refuse(REGION, 0, &[0, 0xFFFF_F000, 0x2000], 5);
}

#[test]
fn s15_call_7() {
    fresh().refuse(7, 0, &[], 1);
}

#[test]
fn s16_the_state_page_inside_the_directory() {
    let mut bench = fresh();
    bench.free(0, 8);
    bench.refuse(CREATE, 0, &[0x8000_0000, 0x8000_3000], 5);
}
