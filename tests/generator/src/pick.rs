//! Choosing harts, slots, pages and guest ranges. A fair choice should lead to
//! an accepted call; an unfair one misses what the call needs.

use crate::dice::Dice;
use crate::world::{Phase, World, GUEST_END, LARGE, MEMORY, PAGE};

/// Which choices of one call are fair.
#[derive(Clone, Copy)]
pub struct Fair {
    pub hart: bool,
    pub slot: bool,
    pub pages: bool,
    pub guest: bool,
    pub fence: bool,
}

impl Fair {
    pub const ALL: Fair = Fair {
        hart: true,
        slot: true,
        pages: true,
        guest: true,
        fence: true,
    };

    /// All but one, so that just one thing is wrong with the call.
    pub fn all_but_one(dice: &mut Dice) -> Fair {
        let mut fair = Fair::ALL;
        match dice.below(6) {
            0 => fair.hart = false,
            1 => fair.slot = false,
            2 => fair.pages = false,
            3 => fair.fence = false,
            _ => fair.guest = false,
        }
        fair
    }
}

pub fn address(index: u64) -> u64 {
    MEMORY + index * PAGE
}

/// A hart that is outside, or, unfairly, one that is inside if any is.
pub fn hart(world: &World, dice: &mut Dice, fair: bool) -> Option<u64> {
    let fit = |hart: &u64| world.seats[*hart as usize].is_none() == fair;
    let harts: Vec<u64> = (0..world.harts).filter(fit).collect();
    match dice.pick(&harts) {
        None if !fair => Some(dice.below(world.harts)),
        found => found,
    }
}

/// A slot in one of the phases, or, unfairly, any.
pub fn slot(world: &World, dice: &mut Dice, fair: bool, phases: &[Phase]) -> Option<u64> {
    let fit = |slot: &u64| phases.contains(&world.slots[*slot as usize].phase) == fair;
    let slots: Vec<u64> = (0..16).filter(fit).collect();
    let known: Vec<u64> = slots
        .iter()
        .copied()
        .filter(|&slot| world.slots[slot as usize].phase != Phase::Empty)
        .collect();
    if !fair && !known.is_empty() {
        return dice.pick(&known);
    }
    dice.pick(&slots)
}

/// Whether a free page is wanted here: free if fair; if not, rather one that
/// is converting, else any.
pub fn free(world: &World, fair: bool, waiting: bool, index: u64) -> bool {
    if fair {
        world.is_free(index)
    } else {
        !waiting || (world.page(index).kind == 1 && !world.is_free(index))
    }
}

/// First page and length of a run of wanted pages, at most `most` long. The
/// lowest fit is preferred, so that whole large pages remain elsewhere.
pub fn run(
    world: &World,
    dice: &mut Dice,
    want: impl Fn(u64) -> bool,
    most: u64,
) -> Option<(u64, u64)> {
    let wanted: Vec<u64> = (0..world.pages).filter(|&index| want(index)).collect();
    let first = if dice.percent(96) {
        wanted.first().copied()
    } else {
        dice.pick(&wanted)
    }?;
    let most = dice.within(1, most);
    let end = (first..world.pages.min(first + most)).find(|&index| !want(index));
    Some((
        first,
        end.unwrap_or_else(|| world.pages.min(first + most)) - first,
    ))
}

/// First page of `length` wanted pages in a row, on a multiple of `align`.
pub fn stretch(
    world: &World,
    dice: &mut Dice,
    want: impl Fn(u64) -> bool,
    length: u64,
    align: u64,
) -> Option<u64> {
    let mut fits = Vec::new();
    let mut row = 0;
    for index in 0..world.pages {
        row = if want(index) { row + 1 } else { 0 };
        if row >= length && (index + 1 - length) % align == 0 {
            fits.push(index + 1 - length);
        }
    }
    if align < LARGE && dice.percent(96) {
        return fits.first().copied();
    }
    dice.pick(&fits)
}

/// A new region's guest address and byte length.
pub fn new_region(dice: &mut Dice) -> (u64, u64) {
    let large = LARGE * PAGE;
    match dice.below(20) {
        0 => (0, GUEST_END),
        1 => {
            let length = large * dice.within(1, 4);
            (GUEST_END - length, length)
        }
        2..=13 => (large * dice.below(64), large * dice.within(1, 4)),
        _ => (PAGE * dice.below(1 << 15), PAGE * dice.within(1, 64)),
    }
}

/// A guest address for `pages` pages inside one of a slot's regions; if not
/// fair, one that is mapped already or that sticks out of a region.
pub fn guest(
    world: &World,
    dice: &mut Dice,
    slot: u64,
    pages: u64,
    align: u64,
    fair: bool,
) -> Option<u64> {
    let (start, length) = dice.pick(&world.slots.get(slot as usize)?.regions)?;
    if !fair && dice.percent(70) {
        let kind = dice.pick(&[7, 7, 8])?;
        return Some(mapping(world, dice, slot, kind, Fair::ALL)?.0 / align * align);
    }
    if !fair {
        return Some((start + length) / align * align - align * dice.below(2));
    }
    let first = (start + align - 1) / align * align;
    let room = (start + length).checked_sub(first + pages * PAGE)?;
    // Mostly low in the region, so that neighbours make longer ranges.
    let steps = if dice.percent(60) {
        (room / align).min(16)
    } else {
        room / align
    };
    Some(first + align * dice.below(steps + 1))
}

/// A slot's guest pages of one kind in order, and whether each is large. If
/// the fence is to be fair, blocked ones must be done.
fn mapped(world: &World, slot: u64, kind: u8, fair: Fair) -> Vec<(u64, bool)> {
    let fence = match world.slots.get(slot as usize) {
        Some(slot) => slot.fence,
        None => return Vec::new(),
    };
    let mut found: Vec<(u64, bool)> = (0..world.pages)
        .map(|index| world.page(index))
        .filter(|page| page.kind == kind && page.slot == slot)
        .filter(|page| kind == 7 || !fair.fence || fence.done(page.version))
        .map(|page| (page.guest, page.large))
        .collect();
    found.sort_unstable();
    found
}

/// A guest range of a slot's mappings of one kind: whole large mappings, small
/// ones in a row, or both. If its guest is not to be fair, a large one may
/// stick out, or a page too many be in it.
pub fn mapping(
    world: &World,
    dice: &mut Dice,
    slot: u64,
    kind: u8,
    fair: Fair,
) -> Option<(u64, u64)> {
    let found = mapped(world, slot, kind, fair);
    let (guest, large) = dice.pick(&found)?;
    let whole = large && fair.guest;
    let first = if whole { guest / LARGE * LARGE } else { guest };
    let want = dice.pick(&[1, 1, 2, 4, 600, 1_200])?;
    let place = |guest: u64| found.binary_search_by_key(&guest, |entry| entry.0).ok();
    let mut end = first;
    while end < first + want && place(end).is_some() {
        end += 1;
    }
    let last = place(end.saturating_sub(1)).map_or(false, |at| found[at].1);
    if fair.guest && last {
        end = (end + LARGE - 1) / LARGE * LARGE;
    } else if !fair.guest && !large {
        end += 1;
    }
    Some((first * PAGE, (end - first).max(1) * PAGE))
}
