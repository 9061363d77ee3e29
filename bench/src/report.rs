//! The tables, in Markdown.

use std::collections::HashMap;

use crate::engine::{Proved, Second};
use crate::measure::{count_name, rows, NO_CALL};
use crate::script::{Row, Workload};

/// At most 8.5 times the cost for 8 times the pages.
const GROWTH: f64 = 8.5 / 8.0;
/// Instructions a record looked at.
const A_RECORD: f64 = 12.0;

/// One measured row: instructions a call of each.
struct Line<'w> {
    row: &'w Row,
    calls: usize,
    proved: f64,
    second: f64,
    ns: Option<f64>,
}

impl Line<'_> {
    fn ratio(&self) -> f64 {
        self.proved / self.second
    }

    /// Instructions for each record of the table, and for each look at one.
    fn a_record(&self) -> Option<(f64, f64)> {
        let looks = self.row.looks? as f64;
        let of_table = self.proved / self.row.pages as f64;
        Some((of_table, of_table / looks))
    }

    fn key(&self) -> (&str, &str) {
        (self.row.group, &self.row.name)
    }
}

fn lines<'w>(
    works: &'w [Workload],
    counts: &HashMap<String, u64>,
    times: &[Option<f64>],
) -> Result<Vec<Line<'w>>, String> {
    let requests = *counts
        .get(NO_CALL)
        .ok_or("callgrind has no count of a call that is not made")? as f64;
    rows(works)
        .enumerate()
        .map(|(index, (part, row))| {
            let calls = part.calls();
            let count = |name: String| match counts.get(&name) {
                Some(&count) if count > 0 => Ok(count as f64 / calls as f64 - requests),
                _ => Err(format!(
                    "callgrind counted nothing for {name}, {}",
                    row.name
                )),
            };
            Ok(Line {
                row,
                calls,
                proved: count(count_name::<Proved>(index))?,
                second: count(count_name::<Second>(index))?,
                ns: times[index],
            })
        })
        .collect()
}

/// A number with commas: whole from 100 on, else with a digit behind the point.
fn number(value: f64) -> String {
    if value < 100.0 {
        return format!("{value:.1}");
    }
    let digits = format!("{value:.0}");
    let mut text = String::new();
    for (index, digit) in digits.chars().enumerate() {
        if index > 0 && (digits.len() - index) % 3 == 0 {
            text.push(',');
        }
        text.push(digit);
    }
    text
}

fn maybe(value: Option<f64>) -> String {
    value.map_or("–".to_string(), |value| format!("{value:.2}"))
}

fn pages(count: usize) -> String {
    match count {
        0 => "various".to_string(),
        count if count < 100 => count.to_string(),
        count => number(count as f64),
    }
}

/// The lines of each name together, refusals in order of their numbers, and in
/// each the sizes rising.
fn sorted<'l, 'w>(lines: &'l [Line<'w>]) -> Vec<&'l Line<'w>> {
    let place = |line: &Line| {
        let first = lines.iter().position(|other| other.key() == line.key());
        let number = line
            .row
            .name
            .split_once(':')
            .map(|(number, _)| number.parse::<u64>());
        let group = lines
            .iter()
            .position(|other| other.row.group == line.row.group);
        (group, number.and_then(Result::ok), first, line.row.pages)
    };
    let mut sorted: Vec<_> = lines.iter().collect();
    sorted.sort_by_key(|line| place(line));
    sorted
}

fn joined(texts: impl Iterator<Item = String>) -> String {
    let texts: Vec<String> = texts.collect();
    if texts.iter().all(|text| *text == texts[0]) {
        return texts[0].clone();
    }
    texts.join(" / ")
}

/// Sizes of one name whose counts are the same are one row.
fn workloads(lines: &[Line]) {
    let lines = sorted(lines);
    let mut group = "";
    let mut rest = &lines[..];
    while let Some(line) = rest.first() {
        if line.row.group != group {
            group = line.row.group;
            println!("\n### {group}\n");
            println!("| workload | pages | calls | proved | second | ratio | ns ratio |");
            println!("|---|--:|--:|--:|--:|--:|--:|");
        }
        let same = |other: &&&Line| {
            let count = |line: &Line| (line.calls, line.proved as u64, line.second as u64);
            other.key() == line.key() && count(other) == count(line)
        };
        let (these, others) = rest.split_at(rest.iter().take_while(same).count());
        rest = others;
        println!(
            "| {} | {} | {} | {} | {} | {:.2} | {} |",
            line.row.name,
            joined(these.iter().map(|line| pages(line.row.pages))),
            pages(line.calls),
            number(line.proved),
            number(line.second),
            line.ratio(),
            joined(these.iter().map(|line| maybe(line.ns)))
        );
    }
}

/// The line of the same name at the next lower size.
fn lower<'l, 'w>(lines: &'l [Line<'w>], line: &Line) -> Option<&'l Line<'w>> {
    lines
        .iter()
        .filter(|other| other.key() == line.key() && other.row.pages < line.row.pages)
        .max_by_key(|other| other.row.pages)
}

/// Of a further record there is nothing to say where large pages take another
/// share of the table.
fn records(lines: &[Line]) {
    println!("\n### Instructions a record\n");
    println!("| workload | pages | proved, a record of the table | looks | a record looked at | each further one looked at | second, a record of the table |");
    println!("|---|--:|--:|--:|--:|--:|--:|");
    for line in sorted(lines) {
        if let (Some((of_table, of_look)), Some(looks)) = (line.a_record(), line.row.looks) {
            let further = lower(lines, line)
                .filter(|_| !line.row.name.contains("large"))
                .map(|less| {
                    let more = line.row.pages - less.row.pages;
                    (line.proved - less.proved) / (more * looks) as f64
                });
            println!(
                "| {} | {} | {of_table:.1} | {looks} | {of_look:.1} | {} | {:.1} |",
                line.row.name,
                pages(line.row.pages),
                further.map_or("–".to_string(), |further| format!("{further:.1}")),
                line.second / line.row.pages as f64
            );
        }
    }
}

/// A row at its largest size but one, and at its largest.
fn grown<'l, 'w>(lines: &'l [Line<'w>]) -> Vec<(&'l Line<'w>, &'l Line<'w>)> {
    let mut pairs = Vec::new();
    for large in lines.iter().filter(|line| line.row.grows) {
        let more = |line: &Line| line.key() == large.key() && line.row.pages > large.row.pages;
        if let (Some(less), false) = (lower(lines, large), lines.iter().any(more)) {
            pairs.push((less, large));
        }
    }
    pairs
}

/// The goal: a cost that is linear in table and range grows by no more than the
/// one of them that grows more, and a sixteenth is allowed on top. From 512 to
/// 4,096 pages that is 8.5.
fn goal(less: &Line, large: &Line) -> f64 {
    let growth = |of: fn(&Row) -> usize| of(large.row) as f64 / of(less.row).max(1) as f64;
    let table = growth(|row| row.pages);
    if table == 8.0 {
        return GROWTH * table;
    }
    GROWTH * table.max(growth(|row| row.range))
}

fn growth(lines: &[Line]) {
    println!("\n### Growth\n");
    println!("| workload | from pages | to pages | proved | second | at most |");
    println!("|---|--:|--:|--:|--:|--:|");
    let (flat, grown): (Vec<_>, Vec<_>) = grown(lines)
        .into_iter()
        .partition(|(less, large)| less.proved == large.proved);
    for (less, large) in grown {
        println!(
            "| {} | {} | {} | {:.2} | {:.2} | {:.2} |",
            large.row.name,
            pages(less.row.pages),
            pages(large.row.pages),
            large.proved / less.proved,
            large.second / less.second,
            goal(less, large)
        );
    }
    let names: Vec<&str> = flat
        .iter()
        .map(|(_, line)| line.row.name.as_str())
        .collect();
    println!(
        "\nThe proved ledger's cost is the same at all sizes for: {}.",
        names.join("; ")
    );
}

fn goals(lines: &[Line]) {
    println!("\n### Goals\n");
    let over: Vec<_> = lines.iter().filter(|line| line.ratio() > 1.0).collect();
    println!(
        "- At most 1.0 times the second's instructions: {} of {} rows.",
        lines.len() - over.len(),
        lines.len()
    );
    let looked: Vec<_> = lines.iter().filter_map(Line::a_record).collect();
    println!(
        "- At most {A_RECORD} instructions: a record of the table {} of {} rows, a record looked at {} of {}.",
        looked.iter().filter(|(table, _)| *table <= A_RECORD).count(),
        looked.len(),
        looked.iter().filter(|(_, look)| *look <= A_RECORD).count(),
        looked.len()
    );
    let pairs = grown(lines);
    let linear = pairs
        .iter()
        .filter(|(less, large)| large.proved / less.proved <= goal(less, large));
    println!(
        "- Linear growth: {} of {} rows.",
        linear.count(),
        pairs.len()
    );
}

pub fn print(
    works: &[Workload],
    counts: &HashMap<String, u64>,
    times: &[Option<f64>],
) -> Result<(), String> {
    let lines = lines(works, counts, times)?;
    workloads(&lines);
    records(&lines);
    growth(&lines);
    goals(&lines);
    Ok(())
}
