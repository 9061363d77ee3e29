//! The workloads of refused calls: each refusal 200 times, since it changes nothing.

use second::number::*;

use crate::script::{call, Expected, Step, Workload};
use crate::setup::*;

/// Refusals on one ledger.
struct Refusals {
    work: Workload,
    pages: usize,
}

impl Refusals {
    fn after(pages: usize, steps: Vec<Step>) -> Refusals {
        let mut work = Workload::default();
        work.quiet(steps);
        Refusals { work, pages }
    }

    fn quiet(&mut self, steps: impl IntoIterator<Item = Step>) {
        self.work.quiet(steps);
    }

    fn refused(&mut self, number: u64, name: &str, range: usize, step: Step) {
        let rows = Rows {
            group: "Refusals",
            pages: self.pages,
        };
        let row = rows.row(format!("{number}: {name}"), range);
        let steps = vec![step; 200];
        self.work.measured(row, Expected::Refused(number), steps);
    }
}

/// The TVM runnable and all free pages but two mapped.
fn of_a_full_table(pages: usize) -> Workload {
    let all = pages - OWN - 2;
    let mut on = Refusals::after(pages, runnable(pages));
    on.quiet([zero(OWN, false, all, 0)]);
    on.refused(1, "call 7", 0, call(7, 0, &[]));
    on.refused(2, "finalize of an empty slot", 0, call(FINALIZE, 0, &[3]));
    let again = call(OPEN, 0, &[HARTS, pages as u64]);
    on.refused(3, "open again", 0, again);
    let none = call(CONVERT, 0, &[page(0), 0]);
    on.refused(4, "convert of no pages", 0, none);
    let below = call(CONVERT, 0, &[page(0) - PAGE, 1]);
    on.refused(5, "convert below memory", 0, below);
    let unmapped = call(INVALIDATE, 0, &[0, guest(all), PAGE]);
    on.refused(6, "invalidate of a guest page not mapped", 1, unmapped);
    let outside = [0, page(pages - 1), 0, 1, GUEST + GUEST_PAGES * PAGE];
    let outside = call(ZERO, 0, &outside);
    on.refused(10, "zero outside of the regions", 1, outside);
    let mapped = zero(pages - 1, false, 1, all - 1);
    on.refused(11, "zero at the last guest page mapped", 1, mapped);
    on.refused(15, "leave from outside", 0, call(LEAVE, 0, &[]));
    by_fences(&mut on, all / 2);
    on.work
}

/// From inside, and while a fence and a blocked guest page wait.
fn by_fences(on: &mut Refusals, at: usize) {
    on.quiet([call(ENTER, 0, &[0, 0])]);
    let local = call(LOCAL_FENCE, 0, &[]);
    on.refused(12, "local fence from inside", 0, local);
    let global = call(GLOBAL_FENCE, 0, &[]);
    on.quiet([call(LEAVE, 0, &[]), global.clone()]);
    on.refused(8, "global fence twice", 0, global);
    let one = [0, guest(at), PAGE];
    on.quiet([call(INVALIDATE, 0, &one)]);
    on.refused(7, "remove before the fence", 1, call(REMOVE, 0, &one));
}

/// All pages are converting: the last of them decides.
fn of_the_last_page(pages: usize) -> Workload {
    let mut on = Refusals::after(pages, open(pages));
    on.quiet([call(CONVERT, 0, &[page(pages - 1), 1])]);
    let whole = [page(0), pages as u64];
    let name = "convert of all, the last not the host's";
    on.refused(6, name, pages, call(CONVERT, 0, &whole));
    on.quiet([call(CONVERT, 0, &[page(0), pages as u64 - 1])]);
    let name = "reclaim of all before the fence";
    on.refused(7, name, pages, call(RECLAIM, 0, &whole));
    on.work
}

/// Eight regions.
fn of_regions(pages: usize) -> Workload {
    let mut on = Refusals::after(pages, freed(pages, pages));
    on.quiet([call(CREATE, 0, &[page(0), page(4)])]);
    let region = |index: u64| call(REGION, 0, &[0, GUEST + 2 * index * PAGE, PAGE]);
    on.quiet((0..7).map(region));
    on.refused(10, "region over another", 1, region(6));
    on.quiet([region(7)]);
    on.refused(9, "ninth region", 1, region(8));
    on.work
}

/// One hart, whose fences end at once, until the versions are spent.
fn of_spent_versions(pages: usize) -> Workload {
    let one_hart = vec![Step::Fresh(pages), call(OPEN, 0, &[1, pages as u64])];
    let mut on = Refusals::after(pages, one_hart);
    let fence = call(GLOBAL_FENCE, 0, &[]);
    on.quiet(vec![fence.clone(); 65_535]);
    on.refused(13, "global fence at version 65,535", 0, fence);
    on.work
}

pub fn refusals(pages: usize) -> Vec<Workload> {
    vec![
        of_a_full_table(pages),
        of_the_last_page(pages),
        of_regions(pages),
        of_spent_versions(pages),
    ]
}

pub fn refusal_14(pages: usize) -> Workload {
    let mut on = Refusals::after(pages, runnable(pages));
    let units = pages / LARGE - 1;
    on.quiet([zero(LARGE, true, units, 0)]);
    let one = call(INVALIDATE, 0, &[0, guest(5), PAGE]);
    let name = "invalidate of a page of a large one";
    on.refused(14, name, units * LARGE, one);
    on.work
}
