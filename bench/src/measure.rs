//! The three ways to run the workloads: compared, counted and timed.

use std::slice;
use std::time::{Duration, Instant};

use crate::callgrind;
use crate::engine::{Engine, Proved, Reply, Second};
use crate::script::{Part, Row, Step, Workload};

/// The name of what callgrind counts of a call that is not made.
pub const NO_CALL: &str = "no call";

/// Shorter parts are not timed: the clock would be most of it.
const SHORTEST: Duration = Duration::from_micros(1);

/// Every part with a row, and the row.
pub fn rows(works: &[Workload]) -> impl Iterator<Item = (&Part, &Row)> {
    let parts = works.iter().flat_map(|work| &work.parts);
    parts.filter_map(|part| part.row.as_ref().map(|row| (part, row)))
}

/// The name of a row's count by one engine.
pub fn count_name<E: Engine>(row: usize) -> String {
    format!("row {row} {}", E::NAME)
}

/// Makes the calls; the answers together, so that none can be left out.
fn run<E: Engine>(engine: &mut E, steps: &[Step]) -> u64 {
    let mut sum = 0u64;
    for step in steps {
        match step {
            Step::Fresh(pages) => *engine = E::fresh(*pages),
            Step::Call(call) => {
                let Reply { error, value } = engine.call(call);
                sum = sum.wrapping_add(value).wrapping_add(error as u64);
            }
        }
    }
    sum
}

/// Makes every call of every workload on both and compares answers, and after
/// each part and each tape the tables; gives how many calls were made.
pub fn compare(works: &[Workload]) -> Result<usize, String> {
    let mut calls = 0;
    for (index, work) in works.iter().enumerate() {
        let mut proved = Proved::fresh(0);
        let mut second = Second::fresh(0);
        let first = rows(slice::from_ref(work)).next();
        let mut last = first.map_or(String::new(), |(_, row)| named_as("before ", row));
        for part in &work.parts {
            if let Some(row) = &part.row {
                last = named_as("", row);
            }
            let place = |step: usize| format!("workload {}, {last}, step {step}", index + 1);
            for (at, step) in part.steps.iter().enumerate() {
                match step {
                    Step::Fresh(pages) => {
                        same_tables(&proved, &second).map_err(|e| format!("{}: {e}", place(at)))?;
                        proved = Proved::fresh(*pages);
                        second = Second::fresh(*pages);
                    }
                    Step::Call(call) => {
                        calls += 1;
                        let one = proved.call(call);
                        let other = second.call(call);
                        if one != other {
                            let why = format!("proved {one:?}, second {other:?}");
                            return Err(format!("{}: {call:?}: {why}", place(at)));
                        }
                        if !part.expected.is(one) {
                            let why = format!("{one:?} is not {:?}", part.expected);
                            return Err(format!("{}: {call:?}: {why}", place(at)));
                        }
                    }
                }
            }
            same_tables(&proved, &second)
                .map_err(|e| format!("{}: {e}", place(part.steps.len())))?;
        }
    }
    Ok(calls)
}

fn named_as(before: &str, row: &Row) -> String {
    let Row {
        group, name, pages, ..
    } = row;
    format!("{before}\"{group}: {name}\", {pages} pages")
}

fn same_tables(proved: &Proved, second: &Second) -> Result<(), String> {
    let pairs = proved.table().chunks(8).zip(second.table().chunks(8));
    match pairs.enumerate().find(|(_, (one, other))| one != other) {
        None => Ok(()),
        Some((page, (one, other))) => Err(format!("page {page}: proved {one:?}, second {other:?}")),
    }
}

/// Makes the calls as `run` does, and callgrind counts within each alone, so that
/// neither the loop nor a fresh table is counted.
fn run_counted<E: Engine>(engine: &mut E, steps: &[Step]) -> u64 {
    let mut sum = 0u64;
    for step in steps {
        match step {
            Step::Fresh(pages) => *engine = E::fresh(*pages),
            Step::Call(call) => {
                callgrind::toggle();
                let Reply { error, value } = engine.call(call);
                callgrind::toggle();
                sum = sum.wrapping_add(value).wrapping_add(error as u64);
            }
        }
    }
    sum
}

/// Runs every workload on one engine, with a dump of callgrind's for each row, and
/// before them one of a call that is not made.
pub fn count<E: Engine>(works: &[Workload]) -> u64 {
    callgrind::zero();
    callgrind::toggle();
    callgrind::toggle();
    callgrind::dump(NO_CALL);
    let mut row = 0;
    let mut sum = 0u64;
    for work in works {
        let mut engine = E::fresh(0);
        for part in &work.parts {
            callgrind::zero();
            sum = sum.wrapping_add(run_counted(&mut engine, &part.steps));
            if part.row.is_some() {
                callgrind::dump(&count_name::<E>(row));
                row += 1;
            }
        }
    }
    sum
}

/// The time of the calls, without that of a fresh table.
fn time<E: Engine>(engine: &mut E, steps: &[Step]) -> Duration {
    let mut spent = Duration::ZERO;
    for stretch in steps.split_inclusive(|step| matches!(step, Step::Fresh(_))) {
        let (calls, fresh) = match stretch.split_last() {
            Some((Step::Fresh(pages), calls)) => (calls, Some(*pages)),
            _ => (stretch, None),
        };
        let start = Instant::now();
        let sum = run(engine, calls);
        spent += start.elapsed();
        if sum == u64::MAX {
            spent += Duration::from_nanos(1); // so that the sum is used
        }
        if let Some(pages) = fresh {
            *engine = E::fresh(pages);
        }
    }
    spent
}

/// For each row, the proved ledger's time over the second's: the median
/// over rounds in which one follows the other, from the same state.
pub fn times(works: &[Workload], most: usize) -> Vec<Option<f64>> {
    let mut ratios = Vec::new();
    for work in works {
        let mut proved = Proved::fresh(0);
        let mut second = Second::fresh(0);
        for part in &work.parts {
            if part.row.is_some() {
                ratios.push(ratio(&proved, &second, &part.steps, most));
            }
            run(&mut proved, &part.steps);
            run(&mut second, &part.steps);
        }
    }
    ratios
}

fn ratio(proved: &Proved, second: &Second, steps: &[Step], most: usize) -> Option<f64> {
    let first = time(&mut second.clone(), steps).as_secs_f64();
    let rounds = ((0.1 / first) as usize).max(7).min(most);
    let mut ratios = Vec::new();
    let mut least = Duration::MAX;
    for round in 0..rounds {
        let mut proved = proved.clone();
        let mut second = second.clone();
        let (one, other) = if round % 2 == 0 {
            let one = time(&mut proved, steps);
            (one, time(&mut second, steps))
        } else {
            let other = time(&mut second, steps);
            (time(&mut proved, steps), other)
        };
        ratios.push(one.as_secs_f64() / other.as_secs_f64());
        least = least.min(other);
    }
    ratios.sort_by(f64::total_cmp);
    (least >= SHORTEST).then(|| ratios[ratios.len() / 2])
}
