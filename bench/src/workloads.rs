//! The workloads of accepted calls, and the season of tapes.

use std::path::Path;
use std::{fs, io};

use second::number::*;
use second::tape::Tape;

use crate::engine::Call;
use crate::refusals::{refusal_14, refusals};
use crate::script::{call, Expected, Row, Step, Workload};
use crate::setup::*;

fn short_calls(pages: usize) -> Workload {
    let rows = Rows {
        group: "Short calls",
        pages,
    };
    let enter = call(ENTER, 0, &[0, 0]);
    let leave = call(LEAVE, 0, &[]);
    let mut cycle = vec![enter, leave];
    cycle.extend(fence());
    let mut work = Workload::default();
    work.quiet(runnable(pages));
    work.quiet(cycle.clone());
    let accepted = Expected::Accepted;
    work.measured(rows.row("enter (15)", 0), accepted, [enter]);
    work.measured(rows.row("leave (32)", 0), accepted, [leave]);
    let global = [call(GLOBAL_FENCE, 0, &[])];
    work.measured(rows.row("global fence (3)", 0), accepted, global);
    let local = (1..HARTS).map(|hart| call(LOCAL_FENCE, hart, &[]));
    work.measured(rows.row("local fence (4)", 0), accepted, local);
    let own = [call(TVM_FENCE, 0, &[0])];
    work.measured(rows.row("TVM fence (16)", 0), accepted, own);
    let name = "enter, leave, a global and three local fences, 500 times";
    let cycles: Vec<Step> = (0..500).flat_map(|_| cycle.clone()).collect();
    work.measured(rows.row(name, 0), accepted, cycles);
    work
}

fn all_pages(pages: usize) -> Workload {
    let rows = Rows {
        group: "All pages converted and reclaimed",
        pages,
    };
    let accepted = Expected::Accepted;
    let mut work = Workload::default();
    work.quiet([Step::Fresh(pages)]);
    let opening = [call(OPEN, 0, &[HARTS, pages as u64])];
    work.measured(rows.row("open (33)", pages), accepted, opening);
    let whole = [page(0), pages as u64];
    let convert = [call(CONVERT, 0, &whole)];
    work.measured(rows.row("convert (1)", pages), accepted, convert);
    work.quiet(fence());
    let reclaim = [call(RECLAIM, 0, &whole)];
    work.measured(rows.row("reclaim (2)", pages), accepted, reclaim);
    work
}

/// The last page stays the host's, as the source of what is measured.
fn built_by_pages(pages: usize) -> Workload {
    let rows = Rows {
        group: "A TVM built and destroyed",
        pages,
    };
    let accepted = Expected::Accepted;
    let last = pages - 1;
    let half = (OWN + last) / 2;
    let mut work = Workload::default();
    work.quiet(freed(pages, last));
    for (name, step) in ["create (5)", "region (9)", "vCPU (14)"].iter().zip(tvm()) {
        work.measured(rows.row(*name, 0), accepted, [step]);
    }
    let measured = (OWN..half).map(|index| {
        let args = [0, page(last), page(index), 0, 1, guest(index)];
        call(MEASURED, 0, &args)
    });
    work.measured(
        rows.row("measured (11), a page a call", 1),
        accepted,
        measured,
    );
    let finalize = [call(FINALIZE, 0, &[0])];
    work.measured(rows.row("finalize (6)", 0), accepted, finalize);
    let zeros = (half..last).map(|index| zero(index, false, 1, index));
    work.measured(rows.row("zero (12), a page a call", 1), accepted, zeros);
    let destroy = [call(DESTROY, 0, &[0])];
    let row = rows.looks("destroy (8), all pages the TVM's", 0, 1);
    work.measured(row, accepted, destroy);

    work.quiet(tvm());
    work.quiet([call(FINALIZE, 0, &[0])]);
    let count = last - OWN;
    let row = rows.row("zero (12), all pages in a call", count);
    work.measured(row, accepted, [zero(OWN, false, count, 0)]);
    work.quiet([call(DESTROY, 0, &[0])]);
    work.quiet(tvm());
    let destroy = [call(DESTROY, 0, &[0])];
    let row = rows.looks("destroy (8), six pages the TVM's", 0, 1);
    work.measured(row, accepted, destroy);
    work
}

/// Half of the pages from the other half.
fn measured_in_one(pages: usize) -> Workload {
    let rows = Rows {
        group: "A TVM built and destroyed",
        pages,
    };
    let half = pages / 2;
    let count = half - OWN;
    let mut work = Workload::default();
    work.quiet(freed(pages, half));
    work.quiet(tvm());
    let args = [0, page(half), page(OWN), 0, count as u64, guest(0)];
    let row = rows.row("measured (11), half the pages in a call", 2 * count);
    work.measured(row, Expected::Accepted, [call(MEASURED, 0, &args)]);
    work
}

fn built_by_large(pages: usize) -> Workload {
    let rows = Rows {
        group: "A TVM built and destroyed",
        pages,
    };
    let accepted = Expected::Accepted;
    let units = pages / LARGE - 1;
    let mut work = Workload::default();
    work.quiet(runnable(pages));
    let one = (1..=units).map(|unit| zero(unit * LARGE, true, 1, unit * LARGE));
    work.measured(
        rows.row("zero (12), a large page a call", LARGE),
        accepted,
        one,
    );
    let destroy = [call(DESTROY, 0, &[0])];
    let row = rows.looks("destroy (8), of large pages", units * LARGE, 1);
    work.measured(row, accepted, destroy);
    work.quiet(tvm());
    work.quiet([call(FINALIZE, 0, &[0])]);
    let row = rows.row("zero (12), all large pages in a call", units * LARGE);
    work.measured(row, accepted, [zero(LARGE, true, units, LARGE)]);
    work
}

/// Blocks, fences and validates a range, then blocks, fences and removes it.
fn moved(work: &mut Workload, rows: &Rows, name: &str, at: usize, count: usize) {
    let accepted = Expected::Accepted;
    let range = [0, guest(at), count as u64 * PAGE];
    let part = |number, verb: &str| {
        let name = format!("{verb} ({number}), {name}");
        (rows.looks(name, count, 2), [call(number, 0, &range)])
    };
    let (row, steps) = part(INVALIDATE, "invalidate");
    work.measured(row, accepted, steps);
    work.quiet([call(TVM_FENCE, 0, &[0])]);
    let (row, steps) = part(VALIDATE, "validate");
    work.measured(row, accepted, steps);
    work.quiet([call(INVALIDATE, 0, &range), call(TVM_FENCE, 0, &[0])]);
    let (row, steps) = part(REMOVE, "remove");
    work.measured(row, accepted, steps);
}

/// `count` of the guest pages of a TVM that has all pages; `None` is all of them.
fn blocked(pages: usize, count: Option<usize>) -> Workload {
    let rows = Rows {
        group: "Guest pages blocked and removed",
        pages,
    };
    let all = pages - OWN;
    let mut work = Workload::default();
    work.quiet(runnable(pages));
    work.quiet([zero(OWN, false, all, 0)]);
    match count {
        None => moved(&mut work, &rows, "all guest pages", 0, all),
        Some(1) => moved(&mut work, &rows, "1 guest page", all / 2, 1),
        Some(count) => {
            let name = format!("{count} guest pages");
            moved(&mut work, &rows, &name, (all - count) / 2, count);
        }
    }
    work
}

/// The one guest page of a TVM; all other records are free ones.
fn blocked_only(pages: usize) -> Workload {
    let rows = Rows {
        group: "Guest pages blocked and removed",
        pages,
    };
    let mut work = Workload::default();
    work.quiet(runnable(pages));
    work.quiet([zero(pages / 2, false, 1, 0)]);
    moved(&mut work, &rows, "the TVM's only guest page", 0, 1);
    work
}

fn blocked_large(pages: usize) -> Workload {
    let rows = Rows {
        group: "Guest pages blocked and removed",
        pages,
    };
    let units = pages / LARGE - 1;
    let mut work = Workload::default();
    work.quiet(runnable(pages));
    work.quiet([zero(LARGE, true, units, 0)]);
    moved(&mut work, &rows, "all large pages", 0, units * LARGE);
    work
}

/// The tapes of a folder, in order of their names. A tape's table has as many
/// pages as its first record's a1; what doesn't read ends it.
fn season(folder: &Path) -> io::Result<Workload> {
    let mut paths = Vec::new();
    for file in fs::read_dir(folder)? {
        paths.push(file?.path());
    }
    paths.sort();
    let mut steps = Vec::new();
    for path in &paths {
        let bytes = fs::read(path)?;
        let calls: Vec<Call> = Tape::new(&bytes)
            .map_while(Result::ok)
            .map(|entry| Call {
                number: entry.call.into(),
                hart: entry.hart.into(),
                args: entry.args(),
            })
            .collect();
        let pages = match calls.first() {
            Some(first) if first.args[1] <= 4_096 => first.args[1] as usize,
            _ => 0,
        };
        steps.push(Step::Fresh(pages));
        steps.extend(calls.into_iter().map(Step::Call));
    }
    let row = Row {
        group: "A season of tapes",
        name: format!("{} tapes", paths.len()),
        pages: 0,
        range: 0,
        looks: None,
        grows: false,
    };
    let mut work = Workload::default();
    work.measured(row, Expected::Any, steps);
    Ok(work)
}

pub fn all(small: bool, tapes: &Path) -> io::Result<Vec<Workload>> {
    let (sizes, large): (&[usize], &[usize]) = if small {
        (&[16], &[1_024])
    } else {
        (&[16, 512, 4_096], &[1_024, 4_096])
    };
    let mut works = Vec::new();
    works.extend(sizes.iter().map(|&pages| short_calls(pages)));
    works.extend(sizes.iter().map(|&pages| all_pages(pages)));
    works.extend(sizes.iter().map(|&pages| built_by_pages(pages)));
    works.extend(sizes.iter().map(|&pages| measured_in_one(pages)));
    works.extend(large.iter().map(|&pages| built_by_large(pages)));
    works.extend(sizes.iter().map(|&pages| blocked_only(pages)));
    works.extend(sizes.iter().map(|&pages| blocked(pages, Some(1))));
    if !small {
        works.push(blocked(4_096, Some(512)));
    }
    works.extend(sizes.iter().map(|&pages| blocked(pages, None)));
    works.extend(large.iter().map(|&pages| blocked_large(pages)));
    works.extend(sizes.iter().flat_map(|&pages| refusals(pages)));
    works.extend(large.iter().map(|&pages| refusal_14(pages)));
    works.push(season(tapes)?);
    Ok(works)
}
