//! Spoils a tape's bytes: cut, flipped, unmarked, shifted or too long.

use crate::dice::Dice;

const RECORD: usize = 52;
const LIMIT: usize = 64 * 1_024;

pub fn damage(bytes: &mut Vec<u8>, dice: &mut Dice) {
    let length = bytes.len() as u64;
    let place = dice.below(length) as usize;
    match dice.below(8) {
        0 => bytes.truncate(place),
        1 | 2 if length > 0 => bytes[place] ^= 1 << dice.below(8),
        3 if length > 0 => bytes[place / RECORD * RECORD + place % 2] ^= dice.within(1, 255) as u8,
        4 if length > 0 => drop(bytes.remove(place)),
        5 => bytes.insert(place, dice.bits() as u8),
        6 => {
            let long = LIMIT + dice.pick(&[0, 1, 2, RECORD, 5_000]).unwrap_or(1);
            repeat_to(bytes, long);
        }
        _ => {
            for _ in 0..dice.within(1, 60) {
                bytes.push(dice.bits() as u8);
            }
        }
    }
}

/// Repeats the tape from its start up to a length.
fn repeat_to(bytes: &mut Vec<u8>, length: usize) {
    let again = if bytes.is_empty() {
        vec![0x43]
    } else {
        bytes.clone()
    };
    while bytes.len() < length {
        bytes.extend_from_slice(&again);
    }
    bytes.truncate(length);
}
