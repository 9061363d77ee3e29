//! The printer: runs a tape on a fresh ledger and prints a line for each record.

use std::io::{self, Write};

use crate::ledger::Ledger;
use crate::page::RECORD;
use crate::range::MAX_PAGES;
use crate::tape::{Entry, Tape, MAX_TAPE};

/// Prints document 01's lines for a tape. Of a tape longer than 64 KiB it is
/// enough to hand on one byte too many.
pub fn run(tape: &[u8], out: &mut impl Write) -> io::Result<()> {
    if tape.len() > MAX_TAPE {
        return writeln!(out, "long");
    }
    let mut table = [0; MAX_PAGES * RECORD];
    let table = &mut table[..RECORD * lent_records(tape)];
    let mut ledger = Ledger::new();
    for (number, record) in (1..).zip(Tape::new(tape)) {
        let entry = match record {
            Ok(entry) => entry,
            Err(bad) => return writeln!(out, "{number} {bad}"),
        };
        let Entry { call, hart, .. } = entry;
        let answer = ledger.call(table, call.into(), hart.into(), entry.args());
        let (error, value) = (answer.error(), answer.value());
        writeln!(out, "{number} {call} {error} {value}")?;
    }
    Ok(())
}

/// How many of the 4,096 records are handed on: "as many as the first record's
/// a1 (0 if above 4,096)". Whatever call that record makes, its a1 counts.
fn lent_records(tape: &[u8]) -> usize {
    let first = match Tape::new(tape).next() {
        Some(Ok(first)) => first,
        _ => return 0,
    };
    let [_, pages, ..] = first.args();
    match usize::try_from(pages) {
        Ok(pages) if pages <= MAX_PAGES => pages,
        _ => 0,
    }
}
