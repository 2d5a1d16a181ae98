//! Making input: lanes, modes, lengths and lists.

use crate::dice::Dice;
use crate::document01::Mode;
use crate::entries::first_of;

pub const GOOD_LANES: [usize; 3] = [1, 4, 8];

/// The last three would be 1, 8 and 4, were their upper bits lost.
pub const BAD_LANES: [usize; 13] = [
    0,
    2,
    3,
    5,
    7,
    9,
    16,
    32,
    usize::MAX,
    usize::MAX / 32 + 1,
    257,
    65_544,
    usize::MAX - u32::MAX as usize + 4,
];

pub fn some_lanes(dice: &mut Dice, bad_once_in: usize) -> usize {
    if dice.once_in(bad_once_in) {
        dice.pick(&BAD_LANES)
    } else {
        dice.pick(&GOOD_LANES)
    }
}

/// The length of a block; for bad lanes that of some block.
pub fn block_length(lanes: usize) -> usize {
    if GOOD_LANES.contains(&lanes) {
        32 * lanes
    } else {
        128
    }
}

pub fn some_first(dice: &mut Dice) -> u32 {
    match dice.below(9) {
        0 => 0,
        1 => 1,
        2 => dice.below(1_000) as u32,
        3 => u32::MAX,
        4 => u32::MAX - 1,
        5 => u32::MAX - dice.below(5_000) as u32,
        6 => 1 << dice.below(32),
        _ => dice.number(),
    }
}

pub fn some_mode(dice: &mut Dice) -> Mode {
    let first = some_first(dice);
    match dice.below(4) {
        0 => Mode::Plain,
        1 => Mode::Sorted(first),
        2 => Mode::Strict(Some(first)),
        _ => Mode::Strict(None),
    }
}

/// Lengths at the edges of blocks and of a list, and others.
pub fn some_count(dice: &mut Dice, lanes: usize) -> usize {
    let block = block_length(lanes);
    match dice.below(18) {
        0 => 0,
        1 => 1,
        2 => block - 1,
        3 => block,
        4 => block + 1,
        5 => 2 * block - 1 + dice.below(3),
        6 => 4_095 + dice.below(3),
        7 => dice.pick(&[4_097, 4_096 + block, 5_000, 8_192]),
        8 => dice.below(4_097),
        9..=13 => dice.below(2 * block + 1),
        _ => dice.below(700),
    }
}

/// Lengths of one, two or three blocks.
pub fn small_count(dice: &mut Dice, lanes: usize) -> usize {
    let block = block_length(lanes);
    match dice.below(8) {
        0 => dice.below(3),
        1 => block,
        2 => 2 * block,
        _ => dice.below(3 * block),
    }
}

/// A list in the mode's order with gaps of many magnitudes: so many values, or as many as there are
/// numbers left for.
pub fn ordered_list(dice: &mut Dice, mode: Mode, count: usize) -> Vec<u32> {
    let mut bits = dice.below(33) as u32;
    if mode == Mode::Plain {
        return (0..count).map(|_| dice.bits(bits)).collect();
    }
    let step = match mode {
        Mode::Strict(_) => 1,
        _ => 0,
    };
    // The least value that may come next, in whole numbers.
    let mut least: u64 = match mode {
        Mode::Strict(None | Some(u32::MAX)) => 0,
        _ => u64::from(first_of(mode)) + step,
    };
    let mut values = Vec::new();
    while values.len() < count && least <= u64::from(u32::MAX) {
        if dice.once_in(60) {
            bits = dice.below(33) as u32;
        }
        // Values that must still find place behind this one.
        let behind = step * (count - values.len() - 1) as u64;
        let most = u64::from(u32::MAX).saturating_sub(behind).max(least);
        let value = (least + u64::from(dice.bits(bits))).min(most);
        values.push(value as u32);
        least = value + step;
    }
    values
}

/// Changes a list at one place, so that its order breaks there more often than not: at the front, at the
/// edge of a block, at the end, or anywhere.
pub fn break_order(dice: &mut Dice, lanes: usize, mode: Mode, values: &mut [u32]) {
    if values.is_empty() {
        return;
    }
    let block = block_length(lanes);
    let last = values.len() - 1;
    let at = match dice.below(6) {
        0 => 0,
        1 | 2 => block * dice.below(last / block + 1),
        3 => last,
        _ => dice.below(last + 1),
    };
    let before = match at {
        0 => first_of(mode),
        _ => values[at - 1],
    };
    match dice.below(6) {
        0 => values[at] = before,
        1 => values[at] = before.wrapping_sub(1),
        2 => values[at] = dice.number(),
        3 if at > 0 => values.swap(at - 1, at),
        4 if at > 0 => {
            // Behind 4,294,967,295 the list goes on as if it wrapped.
            values[at - 1] = u32::MAX;
            for (value, wrapped) in values[at..].iter_mut().zip(0..) {
                *value = wrapped;
            }
        }
        _ => {
            values[at] = dice.number();
            if at > 0 {
                values[at - 1] = u32::MAX;
            }
        }
    }
}

/// Lanes, a mode and a list, which is out of order now and then.
pub fn some_list(dice: &mut Dice) -> (usize, Mode, Vec<u32>) {
    let lanes = some_lanes(dice, 25);
    let mode = some_mode(dice);
    let count = some_count(dice, lanes);
    let mut list = ordered_list(dice, mode, count);
    if dice.once_in(3) {
        break_order(dice, lanes, mode, &mut list);
    }
    (lanes, mode, list)
}
