//! One call with arguments that make sense.

use crate::dice::Dice;
use crate::pick::{address, free, guest, hart, mapping, new_region, run, slot, stretch, Fair};
use crate::world::Phase::{Initializing, Runnable};
use crate::world::{Record, World, LARGE, PAGE};

/// The calls of document 01.
pub const CALLS: [u8; 19] = [
    1, 2, 3, 4, 5, 6, 8, 9, 10, 11, 12, 14, 15, 16, 17, 18, 19, 32, 33,
];

fn record(call: u8, hart: u64, args: &[u64]) -> Option<Record> {
    let mut all = [0; 6];
    all[..args.len()].copy_from_slice(args);
    Some(Record {
        call,
        hart: hart as u8,
        args: all,
    })
}

/// A call that should be accepted if all is fair; None where there is none.
pub fn propose(world: &World, dice: &mut Dice, call: u8, fair: Fair) -> Option<Record> {
    if call == 32 {
        return leave(world, dice, fair);
    }
    let at = hart(world, dice, fair.hart)?;
    match call {
        1 | 2 => convert(world, dice, call, at, fair),
        3 if fair.fence == (world.global.awaited != 0) => None,
        3 => record(3, at, &[]),
        4 => local_fence(world, dice, at, fair),
        5 => create(world, dice, at, fair),
        6 => finalize(world, dice, at, fair),
        8 => destroy(world, dice, at, fair),
        9 => region(world, dice, at, fair),
        10 => {
            let (first, count) = pages(world, dice, fair, 4)?;
            let tvm = slot(world, dice, fair.slot, &[Initializing, Runnable])?;
            record(10, at, &[tvm, address(first), count])
        }
        11 | 12 => map(world, dice, call, at, fair),
        14 => vcpu(world, dice, at, fair),
        15 => enter(world, dice, at, fair),
        16 => tvm_fence(world, dice, at, fair),
        17..=19 => change(world, dice, call, at, fair),
        _ => record(33, 0, &[dice.within(1, 8), world.pages]),
    }
}

/// A run of free pages.
fn pages(world: &World, dice: &mut Dice, fair: Fair, most: u64) -> Option<(u64, u64)> {
    let waiting = dice.percent(50);
    run(
        world,
        dice,
        |index| free(world, fair.pages, waiting, index),
        most,
    )
}

fn convert(world: &World, dice: &mut Dice, call: u8, at: u64, fair: Fair) -> Option<Record> {
    let few = dice.percent(if call == 2 { 95 } else { 70 });
    let most = if few { 8 } else { world.pages };
    let (first, count) = if call == 2 {
        pages(world, dice, fair, most)?
    } else {
        run(
            world,
            dice,
            |index| !fair.pages || world.is_ordinary(index),
            most,
        )?
    };
    record(call, at, &[address(first), count])
}

/// Mostly from a hart that is awaited.
fn local_fence(world: &World, dice: &mut Dice, at: u64, fair: Fair) -> Option<Record> {
    for other in 0..world.harts {
        let waits = world.global.awaited >> other & 1 == 1;
        if waits && world.seats[other as usize].is_none() && fair.hart && dice.percent(80) {
            return record(4, other, &[]);
        }
    }
    // Lawful when none is awaited, but worth less.
    if dice.percent(30) {
        record(4, at, &[])
    } else {
        None
    }
}

fn create(world: &World, dice: &mut Dice, at: u64, fair: Fair) -> Option<Record> {
    let waiting = dice.percent(50);
    let want = |index| free(world, fair.pages, waiting, index);
    let directory = stretch(world, dice, want, 4, 4)?;
    let state = stretch(
        world,
        dice,
        |index| want(index) && index / 4 != directory / 4,
        1,
        1,
    )?;
    record(5, at, &[address(directory), address(state)])
}

/// Mostly of a TVM that can do something afterwards.
fn finalize(world: &World, dice: &mut Dice, at: u64, fair: Fair) -> Option<Record> {
    let tvm = slot(world, dice, fair.slot, &[Initializing])?;
    let bare = world.slots[tvm as usize].regions.is_empty() || world.slots[tvm as usize].vcpus == 0;
    if bare && dice.percent(90) {
        return None;
    }
    record(6, at, &[tvm])
}

fn destroy(world: &World, dice: &mut Dice, at: u64, fair: Fair) -> Option<Record> {
    let tvm = slot(world, dice, fair.slot, &[Initializing, Runnable])?;
    let busy = world.inside(tvm) != 0;
    // A TVM should live long enough to be worth destroying.
    if (fair.guest && busy) || dice.percent(70) {
        return None;
    }
    record(8, at, &[tvm])
}

fn region(world: &World, dice: &mut Dice, at: u64, fair: Fair) -> Option<Record> {
    let tvm = slot(world, dice, fair.slot, &[Initializing])?;
    let (mut guest, length) = new_region(dice);
    if !fair.guest {
        let (start, old) = dice.pick(&world.slots[tvm as usize].regions)?;
        guest = dice.pick(&[
            start,
            start + old - PAGE,
            start.saturating_sub(length) + PAGE,
        ])?;
    }
    record(9, at, &[tvm, guest, length])
}

/// Measured and zero, with small or large pages.
fn map(world: &World, dice: &mut Dice, call: u8, at: u64, fair: Fair) -> Option<Record> {
    let tvm = slot(
        world,
        dice,
        fair.slot,
        &[if call == 11 { Initializing } else { Runnable }],
    )?;
    let kind = u64::from(world.pages >= 2 * LARGE && dice.percent(65));
    let waiting = dice.percent(50);
    let (first, count) = if kind == 1 {
        let units = dice.pick(&[1, 1, 1, 1, 2, 3])?;
        let want = |index| free(world, fair.pages, waiting, index);
        (stretch(world, dice, want, units * LARGE, LARGE)?, units)
    } else {
        pages(world, dice, fair, 6)?
    };
    let size = if kind == 1 { LARGE } else { 1 };
    let mut tries = 0..4;
    let guest =
        tries.find_map(|_| guest(world, dice, tvm, count * size, size * PAGE, fair.guest))?;
    if call == 12 {
        return record(12, at, &[tvm, address(first), kind, count, guest]);
    }
    let ordinary = |index| !fair.fence || world.is_ordinary(index);
    let source = stretch(world, dice, ordinary, count * size, 1)?;
    record(
        11,
        at,
        &[tvm, address(source), address(first), kind, count, guest],
    )
}

fn vcpu(world: &World, dice: &mut Dice, at: u64, fair: Fair) -> Option<Record> {
    let tvm = slot(world, dice, fair.slot, &[Initializing])?;
    let made = world.slots[tvm as usize].vcpus;
    let spare: Vec<u64> = (0..8)
        .filter(|number| !fair.guest || made >> number & 1 == 0)
        .collect();
    let number = dice.pick(&spare)?;
    record(
        14,
        at,
        &[tvm, number, address(pages(world, dice, fair, 1)?.0)],
    )
}

fn enter(world: &World, dice: &mut Dice, at: u64, fair: Fair) -> Option<Record> {
    let tvm = slot(world, dice, fair.slot, &[Runnable])?;
    let made = world.slots[tvm as usize].vcpus;
    let fit =
        |number: &u64| made >> number & 1 == 1 && world.runs_somewhere(tvm, *number) != fair.guest;
    let ready: Vec<u64> = (0..8).filter(fit).collect();
    match dice.pick(&ready) {
        None if !fair.guest => record(15, at, &[tvm, dice.below(9)]),
        number => record(15, at, &[tvm, number?]),
    }
}

fn tvm_fence(world: &World, dice: &mut Dice, at: u64, fair: Fair) -> Option<Record> {
    let tvm = slot(world, dice, fair.slot, &[Runnable])?;
    let running = world.slots[tvm as usize].fence.awaited != 0;
    let idle = mapping(
        world,
        dice,
        tvm,
        8,
        Fair {
            fence: false,
            ..fair
        },
    )
    .is_none();
    if fair.fence == running || (idle && dice.percent(80)) {
        return None;
    }
    record(16, at, &[tvm])
}

fn leave(world: &World, dice: &mut Dice, fair: Fair) -> Option<Record> {
    let fit = |hart: &u64| world.seats[*hart as usize].is_some() == fair.hart;
    let harts: Vec<u64> = (0..world.harts).filter(fit).collect();
    record(32, dice.pick(&harts)?, &[])
}

/// Invalidate, validate and remove.
fn change(world: &World, dice: &mut Dice, call: u8, at: u64, fair: Fair) -> Option<Record> {
    let tvm = slot(world, dice, fair.slot, &[Runnable])?;
    let kind = if (call == 17) == fair.pages { 7 } else { 8 };
    let (guest, length) = mapping(world, dice, tvm, kind, fair)?;
    record(call, at, &[tvm, guest, length])
}
