//! What can be seen of a ledger from outside.

use second::number::*;
use second::{HartId, Ledger, Page, Phase, SlotId, VcpuId};

use crate::bench::{page, slot, Bench};

#[test]
fn a_new_ledger_is_closed_and_empty() {
    let ledger = Ledger::new();
    assert!(!ledger.is_open());
    assert_eq!((ledger.harts(), ledger.pages()), (0, 0));
    for slot in SlotId::all() {
        assert_eq!(ledger.phase(slot), Phase::Empty);
        assert!(ledger.tvm_fence_state(slot).awaited().is_empty());
        for hart in HartId::all() {
            assert_eq!(ledger.flushed(hart, slot), None);
        }
    }
}

#[test]
fn free_pages_are_seen_as_free() {
    let mut bench = Bench::open(2, 16);
    assert!(!bench.ledger.is_free(Page::Ordinary));
    assert!(bench.ledger.is_free(Page::Free));
    bench.accept(CONVERT, 0, &[page(0), 1]);
    let converting = bench.page(0).unwrap();
    assert!(!bench.ledger.is_free(converting));
    bench.accept(GLOBAL_FENCE, 0, &[]);
    assert!(!bench.ledger.is_free(converting));
    assert_eq!(bench.ledger.global_fence_state().awaited().len(), 1);
    bench.accept(LOCAL_FENCE, 1, &[]);
    assert!(bench.ledger.is_free(converting));
}

#[test]
fn seats_and_vcpus_are_seen() {
    let mut bench = Bench::runnable();
    let made: Vec<_> = VcpuId::all()
        .map(|vcpu| bench.ledger.has_vcpu(slot(0), vcpu))
        .collect();
    assert_eq!(made, [true, true, false, false, false, false, false, false]);
    bench.accept(ENTER, 1, &[0, 1]);
    let seats: Vec<_> = HartId::all()
        .map(|hart| bench.ledger.seat(hart).map(|seat| seat.vcpu.number()))
        .collect();
    assert_eq!(seats, [None, Some(1), None, None, None, None, None, None]);
}
