//! Tables of lengths that do not fit, bytes left over included.

use second::number::*;

use crate::bench::{args, page, Bench};

/// Lends the first `length` bytes of a long table, so that both the part lent
/// and the part kept back are seen to stay as they are.
#[track_caller]
fn answer(bench: &mut Bench, length: usize, call: u64, named: &[u64]) -> u64 {
    let before = bench.clone();
    let answer = bench
        .ledger
        .call(&mut bench.table[..length], call, 0, args(named));
    if !answer.is_accepted() {
        assert!(*bench == before);
    }
    answer.value()
}

#[test]
fn open_wants_the_length_it_names() {
    for length in 0..=40 {
        let mut bench = Bench::closed(8);
        let expected = if length == 24 { 0 } else { 4 };
        assert_eq!(answer(&mut bench, length, OPEN, &[1, 3]), expected);
    }
}

#[test]
fn open_wants_1_to_4096_pages() {
    let mut bench = Bench::closed(4_097);
    assert_eq!(answer(&mut bench, 0, OPEN, &[1, 0]), 4);
    assert_eq!(answer(&mut bench, 7, OPEN, &[1, 0]), 4);
    assert_eq!(answer(&mut bench, 8 * 4_097, OPEN, &[1, 4_097]), 4);
    assert_eq!(answer(&mut bench, 8 * 4_096, OPEN, &[1, 4_096]), 0);
    // The record past the lent part is none of open's business.
    assert_eq!(bench.record(4_096), [0xA5; 8]);

    let mut bench = Bench::closed(1);
    assert_eq!(answer(&mut bench, 8, OPEN, &[1, 1]), 0);
}

#[test]
fn later_calls_want_the_opened_length() {
    for length in 0..=40 {
        let mut bench = Bench::closed(8);
        assert_eq!(answer(&mut bench, 24, OPEN, &[1, 3]), 0);
        let expected = if length == 24 { 0 } else { 3 };
        assert_eq!(answer(&mut bench, length, CONVERT, &[page(0), 1]), expected);
        // A count of 0 would be 4.
        let expected = if length == 24 { 4 } else { 3 };
        assert_eq!(answer(&mut bench, length, CONVERT, &[page(0), 0]), expected);
        // A missing TVM comes first.
        assert_eq!(answer(&mut bench, length, FINALIZE, &[0]), 2);
    }
}

#[test]
fn calls_that_write_no_record_want_it_too() {
    for (call, named) in [
        (GLOBAL_FENCE, &[][..]),
        (LOCAL_FENCE, &[]),
        (LEAVE, &[]),
        (TVM_FENCE, &[0]),
        (ENTER, &[0, 0]),
    ] {
        let mut bench = Bench::runnable();
        assert_eq!(answer(&mut bench, 8 * 15, call, named), 3);
        assert_eq!(answer(&mut bench, 8 * 15 + 7, call, named), 3);
        bench.table.push(0);
        assert_eq!(answer(&mut bench, 8 * 16 + 1, call, named), 3);
    }
}
