//! Writes a whole tape from a seed.

use crate::damage::damage;
use crate::dice::Dice;
use crate::mutate::{near_miss, wild};
use crate::pick::{address, Fair};
use crate::propose::{propose, CALLS};
use crate::world::{Record, World};

/// A tape's bytes, and each undamaged record with its error and value.
pub struct Written {
    pub bytes: Vec<u8>,
    pub answers: Vec<(Record, i64, u64)>,
}

/// How likely each call is, in the order of CALLS, for five sorts of tape.
#[rustfmt::skip]
const TEMPERS: [[u64; 19]; 5] = [
    // 1  2   3   4   5  6  8   9 10  11  12  14  15  16  17  18  19  32 33
    [  6, 3,  6, 10,  6, 5, 3,  8, 4, 10, 16,  8, 14,  9, 12,  8,  8, 12, 1], // a bit of all
    [  6, 2,  6, 10, 40, 6, 3,  6, 3,  6,  8,  6,  5,  3,  5,  4,  4,  6, 1], // many TVMs
    [  4, 2,  4,  8,  3, 8, 1, 10, 2, 16, 36,  4,  6, 12, 24, 16, 14,  8, 1], // much mapping
    [  3, 2, 10, 14,  3, 8, 6,  4, 2,  4, 12, 10, 34, 20, 14,  8,  8, 26, 1], // much running
    [  6, 3,  6, 10, 10, 4, 9, 30, 4, 20,  8, 12,  5,  3,  6,  4,  4,  5, 1], // much building
];

pub fn write(seed: u64) -> Written {
    let mut dice = Dice::new(seed);
    // Now and then the first record asks for what no table has.
    let none = dice.below(64) == 0;
    let pages = if none { 0 } else { table_pages(&mut dice) };
    let asked = if none {
        dice.pick(&[0, 4_097, 1 << 32, u64::MAX]).unwrap_or(0)
    } else {
        pages
    };
    let harts = dice.pick(&[1, 2, 2, 3, 3, 4, 8]).unwrap_or(2);
    let length = match dice.below(16) {
        0 => dice.within(0, 12),
        1 => dice.within(600, 1_260),
        _ => dice.within(60, 360),
    };
    let mut pen = Pen {
        world: World::new(pages),
        answers: Vec::new(),
        weights: dice.pick(&TEMPERS).unwrap_or(TEMPERS[0]),
    };
    pen.begin(&mut dice, harts, asked);
    while (pen.answers.len() as u64) < length {
        pen.step(&mut dice);
    }
    pen.answers.truncate(length as usize);
    let mut bytes: Vec<u8> = pen
        .answers
        .iter()
        .flat_map(|(record, _, _)| record.bytes())
        .collect();
    if dice.below(8) == 0 {
        damage(&mut bytes, &mut dice);
    }
    Written {
        bytes,
        answers: pen.answers,
    }
}

/// 1 to 4,096, mostly enough for a few large pages.
fn table_pages(dice: &mut Dice) -> u64 {
    match dice.below(12) {
        0 => dice.within(1, 16),
        1 | 2 => dice.within(17, 200),
        3 => dice.within(200, 1_023),
        4 => 1_024,
        5 => 2_048,
        6 | 7 => 4_096,
        _ => dice.within(1_024, 4_096),
    }
}

struct Pen {
    world: World,
    answers: Vec<(Record, i64, u64)>,
    weights: [u64; 19],
}

impl Pen {
    fn put(&mut self, call: u8, hart: u64, args: [u64; 6]) -> bool {
        let record = Record {
            call,
            hart: hart as u8,
            args,
        };
        let (error, value) = self.world.attempt(&record);
        self.answers.push((record, error, value));
        error == 0
    }

    /// Opens, mostly at once, then mostly converts a good part of memory. The
    /// first record's a1 always gives the table's length, as the printer has it.
    fn begin(&mut self, dice: &mut Dice, harts: u64, pages: u64) {
        match dice.below(16) {
            0 => drop(self.put(1, 0, [0x8000_0000, pages, 0, 0, 0, 0])),
            1 => drop(self.put(33, 1, [harts, pages, 0, 0, 0, 0])),
            2 => drop(self.put(33, 0, [9, pages, 0, 0, 0, 0])),
            3 => drop(self.put(6, 0, [dice.below(3), pages, 0, 0, 0, 0])),
            _ => {}
        }
        if self.answers.len() == 1 && dice.percent(50) {
            let record = wild(&self.world, dice);
            self.put(record.call, 0, record.args);
            self.put(33, 0, [harts, pages ^ 1, 0, 0, 0, 0]);
        }
        self.put(33, 0, [harts, pages, 0, 0, 0, 0]);
        if dice.percent(85) && self.world.pages > 0 {
            let share = if dice.percent(50) {
                pages
            } else {
                dice.within(pages / 2, pages).max(1)
            };
            let first = if dice.percent(70) { 0 } else { pages - share };
            self.put(1, 0, [address(first), share, 0, 0, 0, 0]);
            self.put(3, 0, [0; 6]);
            for hart in 1..harts {
                self.put(4, hart, [0; 6]);
            }
        }
    }

    /// One more record: mostly one that is accepted, sometimes a miss.
    fn step(&mut self, dice: &mut Dice) {
        let record = match dice.below(100) {
            0..=3 => wild(&self.world, dice),
            4..=12 => match self.choose(dice, Fair::ALL) {
                Some(record) => near_miss(&self.world, dice, record),
                None => wild(&self.world, dice),
            },
            13..=34 => {
                let fair = Fair::all_but_one(dice);
                match self.choose(dice, fair) {
                    Some(record) => record,
                    None => wild(&self.world, dice),
                }
            }
            _ => return self.accepted(dice),
        };
        self.put(record.call, record.hart.into(), record.args);
    }

    /// Tries calls until one is accepted. A refused one is not put on the
    /// tape: it wrote nothing.
    fn accepted(&mut self, dice: &mut Dice) {
        for _ in 0..24 {
            if let Some(record) = self.choose(dice, Fair::ALL) {
                let (error, value) = self.world.attempt(&record);
                if error == 0 {
                    return self.answers.push((record, error, value));
                }
            }
        }
        let record = wild(&self.world, dice);
        self.put(record.call, record.hart.into(), record.args);
    }

    fn choose(&mut self, dice: &mut Dice, fair: Fair) -> Option<Record> {
        for _ in 0..24 {
            let call = CALLS[dice.weighted(&self.weights)];
            let found = propose(&self.world, dice, call, fair);
            if found.is_some() {
                return found;
            }
        }
        None
    }
}
