//! Calls that miss by a little, and wild ones.

use crate::dice::Dice;
use crate::pick::address;
use crate::propose::CALLS;
use crate::world::{Record, World, GUEST_END, LARGE, MEMORY, PAGE};

/// Numbers on the edges of the rules.
const EDGES: [u64; 22] = [
    0,
    1,
    2,
    7,
    8,
    9,
    15,
    16,
    512,
    4_095,
    4_096,
    4_097,
    LARGE * PAGE,
    4_096 * PAGE,
    MEMORY - PAGE,
    MEMORY,
    GUEST_END - PAGE,
    GUEST_END,
    1 << 52,
    1 << 55,
    1 << 63,
    u64::MAX,
];

/// How many arguments each call names (document 01, "Calls").
fn named(call: u8) -> usize {
    match call {
        3 | 4 | 32 => 0,
        6 | 8 | 16 => 1,
        1 | 2 | 5 | 15 | 33 => 2,
        12 => 5,
        11 => 6,
        _ => 3,
    }
}

/// Spoils a call in one place.
pub fn near_miss(world: &World, dice: &mut Dice, mut record: Record) -> Record {
    let names = named(record.call);
    let which = dice.below(names.max(1) as u64) as usize;
    match dice.below(12) {
        0 => record.hart = dice.below(8) as u8,
        1 => record.hart = dice.pick(&[world.harts as u8, 8, 255]).unwrap_or(8),
        2 if names < 6 => {
            let unnamed = dice.within(names as u64, 5) as usize;
            record.args[unnamed] = dice.pick(&[1, 1 << 31, 1 << 63]).unwrap_or(1);
        }
        3 => record.args[0] = dice.below(18),
        4 => record.call = sibling(record.call),
        5 if names > 1 => record.args[which] = address(dice.below(world.pages + 2)),
        6 => record.args[which] = dice.pick(&EDGES).unwrap_or(0),
        7 if names > 1 => {
            let step = dice
                .pick(&[1, 8, 0x800, 2 * PAGE, LARGE * PAGE / 2])
                .unwrap_or(1);
            record.args[which] = record.args[which].wrapping_add(step);
        }
        8 => record.args[which] = record.args[which].wrapping_add(1),
        9 => record.args[which] = record.args[which].wrapping_sub(1),
        10 => record.args[which] = record.args[which].wrapping_add(PAGE),
        _ => record.args[which] = record.args[which].wrapping_sub(PAGE),
    }
    record
}

/// The call that takes the same arguments and wants another state.
fn sibling(call: u8) -> u8 {
    match call {
        1 => 2,
        2 => 1,
        3 => 4,
        17 => 18,
        18 => 19,
        19 => 17,
        6 => 16,
        other => other,
    }
}

/// Anything at all, but mostly a known call from a known hart.
pub fn wild(world: &World, dice: &mut Dice) -> Record {
    let known = dice.pick(&CALLS).unwrap_or(1);
    let call = if dice.percent(70) {
        known
    } else {
        dice.bits() as u8
    };
    let hart = if dice.percent(80) {
        dice.below(world.harts) as u8
    } else {
        dice.bits() as u8
    };
    let mut args = [0; 6];
    let count = if dice.percent(80) { named(call) } else { 6 };
    for arg in args.iter_mut().take(count) {
        *arg = match dice.below(6) {
            0 => dice.bits(),
            1 => dice.bits() >> dice.below(64),
            2 => address(dice.below(world.pages + 1)),
            3 => dice.below(4),
            4 => PAGE * dice.below(64),
            _ => dice.pick(&EDGES).unwrap_or(0),
        };
    }
    Record { call, hart, args }
}
