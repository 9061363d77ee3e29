//! Counts, over a range of seeds, which calls were accepted or refused how.

use crate::propose::CALLS;
use crate::world::Record;
use crate::write::write;

/// Column 0 is for accepted calls, the others for the refusal numbers.
type Row = [u64; 16];

/// Prints the counts. False if too few or too many calls were accepted, or a
/// refusal number never came; 13 cannot come on a tape (see PAIRS.md).
pub fn print(first: u64, count: u64) -> bool {
    // Row 0 is for numbers that are not in the table of calls.
    let mut rows = [[0; 16]; 20];
    let mut all = [0; 16];
    let mut large = 0;
    for seed in first..first + count {
        for (record, error, value) in write(seed).answers {
            let row = CALLS.iter().position(|&call| call == record.call);
            let column = if error == 0 { 0 } else { value as usize };
            rows[row.map_or(0, |row| row + 1)][column] += 1;
            all[column] += 1;
            large += u64::from(error == 0 && is_large(&record));
        }
    }
    println!("{count} tapes from seed {first}; refusals by number");
    heading();
    line("other", &rows[0]);
    for (call, row) in CALLS.iter().zip(&rows[1..]) {
        line(&call.to_string(), row);
    }
    line("all", &all);
    println!("{large} accepted calls of measured and zero with large pages");
    let missing = (1..16).any(|number| number != 13 && all[number] == 0);
    (60..=85).contains(&share(&all)) && !missing && large > 0
}

fn is_large(record: &Record) -> bool {
    match record.call {
        11 => record.args[3] == 1,
        12 => record.args[2] == 1,
        _ => false,
    }
}

/// Accepted calls in a hundred.
fn share(row: &Row) -> u64 {
    let total: u64 = row.iter().sum();
    100 * row[0] / total.max(1)
}

fn heading() {
    print!("{:>5} {:>8} {:>3}%", "call", "accepted", "");
    for number in 1..16 {
        print!("{number:>7}");
    }
    println!();
}

fn line(name: &str, row: &Row) {
    print!("{name:>5} {:>8} {:>3}%", row[0], share(row));
    for cell in &row[1..] {
        print!("{cell:>7}");
    }
    println!();
}
