//! The paper's example tape, and the printer's other lines.

use second::number::*;
use second::program::run;
use second::tape::{entry, ENTRY, MAX_TAPE};

use crate::bench::{args, page};

/// A tape of calls on hart 0.
pub fn tape(calls: &[(u64, &[u64])]) -> Vec<u8> {
    calls
        .iter()
        .flat_map(|&(call, named)| entry(call as u8, 0, args(named)))
        .collect()
}

pub fn example() -> Vec<u8> {
    tape(&[
        (OPEN, &[1, 16]),
        (CONVERT, &[0x8000_0000, 8]),
        (CREATE, &[0x8000_0000, 0x8000_4000]),
        (GLOBAL_FENCE, &[]),
        (CREATE, &[0x8000_0000, 0x8000_4000]),
        (CREATE, &[0x8000_0000, 0x8000_4000]),
        (RECLAIM, &[0x8000_5000, 3]),
        (CONVERT, &[0x8000_5000, 0]),
    ])
}

pub const EXAMPLE_LINES: &str = "\
1 33 0 0
2 1 0 0
3 5 -1 7
4 3 0 0
5 5 0 0
6 5 -5 6
7 2 0 0
8 1 -3 4
";

fn lines(tape: &[u8]) -> String {
    let mut out = Vec::new();
    run(tape, &mut out).unwrap();
    String::from_utf8(out).unwrap()
}

#[test]
fn the_papers_example() {
    assert_eq!(lines(&example()), EXAMPLE_LINES);
}

#[test]
fn an_empty_tape_prints_nothing() {
    assert_eq!(lines(&[]), "");
}

#[test]
fn a_bad_record_prints_its_number_and_ends_the_run() {
    let mut tape = example();
    tape.truncate(3 * ENTRY - 1);
    assert_eq!(lines(&tape), "1 33 0 0\n2 1 0 0\n3 short\n");

    let mut tape = example();
    tape[2 * ENTRY + 1] ^= 1;
    assert_eq!(lines(&tape), "1 33 0 0\n2 1 0 0\n3 mark\n");

    assert_eq!(lines(&[0x43]), "1 short\n");
    assert_eq!(lines(&[0; ENTRY]), "1 mark\n");
}

#[test]
fn a_tape_may_have_64_kib_and_no_more() {
    let full: Vec<u8> = example().into_iter().cycle().take(MAX_TAPE).collect();
    let printed = lines(&full);
    // 1,260 whole records and 16 bytes.
    assert_eq!(printed.lines().count(), 1_261);
    assert_eq!(printed.lines().last(), Some("1261 short"));

    let long: Vec<u8> = example().into_iter().cycle().take(MAX_TAPE + 1).collect();
    assert_eq!(lines(&long), "long\n");
    assert_eq!(lines(&vec![0; MAX_TAPE + 1]), "long\n");
}

#[test]
fn the_first_records_a1_is_the_table_handed_on() {
    // 4,096 is handed on; above it nothing is.
    assert_eq!(lines(&tape(&[(OPEN, &[1, 4_096])])), "1 33 0 0\n");
    assert_eq!(lines(&tape(&[(OPEN, &[1, 4_097])])), "1 33 -3 4\n");
    assert_eq!(lines(&tape(&[(OPEN, &[1, u64::MAX])])), "1 33 -3 4\n");
    // Only the first counts, and it counts whatever it calls.
    assert_eq!(
        lines(&tape(&[(OPEN, &[9, 8]), (OPEN, &[1, 16]), (OPEN, &[1, 8])])),
        "1 33 -3 4\n2 33 -3 4\n3 33 0 0\n"
    );
    assert_eq!(
        lines(&tape(&[(7, &[0, 8]), (OPEN, &[1, 8])])),
        "1 7 -2 1\n2 33 0 0\n"
    );
}

#[test]
fn call_and_hart_bytes_are_printed_and_used_as_they_are() {
    let mut tape = entry(255, 255, [0; 6]).to_vec();
    tape.extend(entry(33, 0, args(&[2, 0])));
    tape.extend(entry(32, 255, [0; 6]));
    assert_eq!(lines(&tape), "1 255 -2 1\n2 33 -3 4\n3 32 -3 3\n");

    let mut tape = entry(33, 0, args(&[2, 4])).to_vec();
    tape.extend(entry(1, 1, args(&[page(0), 1])));
    tape.extend(entry(1, 2, args(&[page(1), 1])));
    tape.extend(entry(3, 1, [0; 6]));
    assert_eq!(lines(&tape), "1 33 0 0\n2 1 0 0\n3 1 -3 4\n4 3 0 1\n");
}
