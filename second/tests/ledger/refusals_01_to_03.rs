//! Numbers 1 to 3: unknown calls, missing TVMs, wrong phases and states.

use second::number::{self, *};
use second::Refusal;

use crate::bench::{args, page, Bench, GUEST};

/// The calls whose a0 is a tvm.
const TVM_CALLS: [u64; 12] = [6, 8, 9, 10, 11, 12, 14, 15, 16, 17, 18, 19];

#[test]
fn errors_are_looked_up_from_the_numbers() {
    use Refusal::*;
    let table = [
        (UnknownCall, 1, -2),
        (NoTvm, 2, -3),
        (WrongState, 3, -3),
        (Argument, 4, -3),
        (Address, 5, -5),
        (Kind, 6, -5),
        (NotDone, 7, -1),
        (Awaited, 8, -7),
        (Full, 9, -1),
        (Region, 10, -5),
        (AlreadyMapped, 11, -5),
        (Busy, 12, -4),
        (VersionsSpent, 13, -1),
        (LargeSplit, 14, -5),
        (Outside, 15, -3),
    ];
    for (refusal, number, error) in table {
        assert_eq!((refusal.number(), refusal.error()), (number, error));
    }
}

#[test]
fn number_1_unknown_calls() {
    let known = |call| number::ALL.contains(&call);
    for call in (0..300).chain([u64::MAX, 1 << 32 | 1, 1 << 63]) {
        let mut closed = Bench::closed(16);
        let mut open = Bench::open(2, 16);
        if known(call) {
            let one = Refusal::UnknownCall.number();
            assert_ne!(closed.call(call, 9, &[1; 6]).value(), one);
            assert_ne!(open.call(call, 9, &[1; 6]).value(), one);
        } else {
            // Before everything else, whatever is wrong with the rest.
            closed.refuse(call, 9, &[u64::MAX; 6], 1);
            open.refuse(call, 9, &[u64::MAX; 6], 1);
            open.refuse(call, 0, &[], 1);
        }
    }
}

#[test]
fn number_2_tvm_above_15() {
    let mut bench = Bench::open(1, 128);
    bench.free(0, 128);
    for slot in 0..16 {
        assert_eq!(bench.tvm(8 * slot), slot);
    }
    bench.refuse(FINALIZE, 0, &[16], 2);
    bench.refuse(FINALIZE, 0, &[u64::MAX], 2);
    bench.refuse(FINALIZE, 0, &[1 << 32], 2);
    bench.refuse(FINALIZE, 0, &[256], 2);
    bench.accept(FINALIZE, 0, &[15]);
}

#[test]
fn number_2_slot_empty() {
    let mut bench = Bench::open(2, 16);
    bench.free(0, 5);
    bench.refuse(FINALIZE, 0, &[0], 2);
    bench.tvm(0);
    bench.refuse(FINALIZE, 0, &[1], 2);
    bench.accept(FINALIZE, 0, &[0]);
    bench.accept(DESTROY, 0, &[0]);
    bench.refuse(DESTROY, 0, &[0], 2);
}

#[test]
fn number_2_comes_before_3_and_4() {
    for call in TVM_CALLS {
        // Not open, wrong table, no such hart, unnamed arguments not 0.
        Bench::closed(16).refuse(call, 99, &[0, 1, 1, 1, 1, 1], 2);
        Bench::open(1, 4).refuse(call, 99, &[3, 1, 1, 1, 1, 1], 2);
        // And with a TVM there, a later number or none.
        let number = Bench::runnable().call(call, 99, &[0, 1, 1, 1, 1, 1]);
        assert!(number.value() > 2);
    }
}

#[test]
fn number_3_phases() {
    let initializing = [FINALIZE, REGION, MEASURED, VCPU];
    let runnable = [ZERO, ENTER, TVM_FENCE, INVALIDATE, VALIDATE, REMOVE];
    let both = [DESTROY, POOL];
    // Hart 99 makes every call that passes 3 a 4.
    let mut i = Bench::initializing();
    let mut r = Bench::runnable();
    for call in initializing {
        i.refuse(call, 99, &[0], 4);
        r.refuse(call, 99, &[0], 3);
    }
    for call in runnable {
        i.refuse(call, 99, &[0], 3);
        r.refuse(call, 99, &[0], 4);
    }
    for call in both {
        i.refuse(call, 99, &[0], 4);
        r.refuse(call, 99, &[0], 4);
    }
}

#[test]
fn number_3_phase_and_nothing_else() {
    Bench::initializing().accept(FINALIZE, 0, &[0]);
    Bench::runnable().refuse(FINALIZE, 0, &[0], 3);
    Bench::runnable().accept(ENTER, 0, &[0, 0]);
    Bench::initializing().refuse(ENTER, 0, &[0, 0], 3);
    Bench::initializing().accept(MEASURED, 0, &[0, page(12), page(7), 0, 1, GUEST]);
    Bench::runnable().refuse(MEASURED, 0, &[0, page(12), page(7), 0, 1, GUEST], 3);
    Bench::runnable().accept(ZERO, 0, &[0, page(7), 0, 1, GUEST]);
    Bench::initializing().refuse(ZERO, 0, &[0, page(7), 0, 1, GUEST], 3);
}

#[test]
fn number_3_not_open() {
    for (call, named) in [
        (CONVERT, &[page(0), 1][..]),
        (GLOBAL_FENCE, &[]),
        (LOCAL_FENCE, &[]),
    ] {
        let mut bench = Bench::closed(16);
        bench.refuse(call, 0, named, 3);
        bench.refuse(call, 99, &[u64::MAX; 6], 3);
        bench.accept(OPEN, 0, &[2, 16]);
        bench.accept(call, 0, named);
    }
    for call in [RECLAIM, CREATE, LEAVE] {
        Bench::closed(16).refuse(call, 0, &[], 3);
        assert!(Bench::open(2, 16).call(call, 0, &[]).value() > 3);
    }
}

#[test]
fn number_3_opened_again() {
    let mut bench = Bench::closed(16);
    bench.accept(OPEN, 0, &[2, 16]);
    bench.refuse(OPEN, 0, &[2, 16], 3);
    // Before 4, with everything wrong that can be.
    bench.refuse(OPEN, 7, &[0, 5, 1], 3);
}

#[test]
fn a_refused_open_leaves_the_ledger_to_be_opened() {
    let mut bench = Bench::closed(16);
    bench.refuse(OPEN, 0, &[9, 16], 4);
    assert!(!bench.ledger.is_open());
    bench.accept(OPEN, 0, &[8, 16]);
    assert!(bench.ledger.is_open());
}

#[test]
fn open_has_no_opened_length_to_fit() {
    // A table of no fitting length is 4 for open and 3 for the others.
    let mut bench = Bench::closed(16);
    bench.table.push(0);
    bench.refuse(OPEN, 0, &[2, 16], 4);
    bench.refuse(CONVERT, 0, &[page(0), 1], 3);
    bench.table.pop();
    bench.accept(OPEN, 0, &[2, 16]);
    bench.table.push(0);
    let answer = bench
        .ledger
        .call(&mut bench.table, CONVERT, 0, args(&[page(0), 1]));
    assert_eq!((answer.error(), answer.value()), (-3, 3));
}
