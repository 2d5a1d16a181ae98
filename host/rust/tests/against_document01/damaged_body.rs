//! Damaging bodies, and telling their reader the wrong lanes, mode or count.

use crate::body::{body_of_blocks, some_slips};
use crate::dice::Dice;
use crate::document01::Mode;
use crate::entries::{first_of, mode_behind};
use crate::input::{
    block_length, break_order, ordered_list, small_count, some_count, some_first, some_lanes, some_mode,
};

/// A body with something wrong in it, now and then more than one thing, now and then nothing.
pub fn some_body(dice: &mut Dice, lanes: usize, mode: Mode) -> (usize, Vec<u8>) {
    let count = match dice.below(12) {
        0 => some_count(dice, lanes).min(4_096),
        _ => small_count(dice, lanes),
    };
    let mut list = ordered_list(dice, mode, count);
    if dice.once_in(4) {
        break_order(dice, lanes, mode, &mut list);
    }
    let slips = some_slips(dice, lanes, list.len());
    let mut body = body_of_blocks(lanes, mode, &list, slips);
    damage_body(dice, lanes, &mut body);
    (list.len(), body)
}

/// Where the width bytes of a sound body are.
fn width_places(lanes: usize, body: &[u8]) -> Vec<usize> {
    let mut places = Vec::new();
    let mut at = 0;
    while at < body.len() {
        places.push(at);
        at += 1 + 4 * lanes * usize::from(body[at]);
    }
    places
}

/// Damages the bytes of a body, or leaves them as they are.
fn damage_body(dice: &mut Dice, lanes: usize, body: &mut Vec<u8>) {
    let places = width_places(lanes, body);
    if body.is_empty() {
        if dice.once_in(3) {
            let more = 1 + dice.below(3);
            *body = dice.bytes(more);
        }
        return;
    }
    let anywhere = dice.below(body.len());
    let place = dice.pick(&places);
    match dice.below(16) {
        0 => body[anywhere] ^= 1 << dice.below(8),
        1 => body[anywhere] = dice.byte(),
        2 => body.truncate(anywhere),
        3 => body.truncate(place),
        4 => body.truncate(place + 1),
        5 => body.truncate(body.len() - 1),
        6 => body.push(0),
        7 => {
            let more = 1 + dice.below(40);
            body.extend(dice.bytes(more));
        }
        8 => body[place] = dice.byte(),
        9 => body[place] = dice.pick(&[0, 1, 31, 32, 33, 34, 64, 128, 255]),
        10 => body[place] = body[place].wrapping_add(dice.pick(&[1, 255])),
        _ => (),
    }
}

/// The count that a reader is told, most often the right one.
pub fn told_count(dice: &mut Dice, lanes: usize, count: usize) -> usize {
    let block = block_length(lanes);
    match dice.below(30) {
        0 => count + 1,
        1 => count.saturating_sub(1),
        2 => count + block,
        3 => count.saturating_sub(block),
        4 => 0,
        5 => dice.pick(&[4_096, 4_097, 65_536, usize::MAX, usize::MAX / 4 + 2]),
        6 => dice.below(4_097),
        _ => count,
    }
}

/// The mode that a reader is told, most often the right one.
pub fn told_mode(dice: &mut Dice, mode: Mode) -> Mode {
    match dice.below(24) {
        0 => some_mode(dice),
        1 => mode_behind(mode, some_first(dice)),
        2 => mode_behind(mode, first_of(mode).wrapping_add(1)),
        _ => mode,
    }
}

/// The lanes that a reader is told, most often the right ones.
pub fn told_lanes(dice: &mut Dice, lanes: usize) -> usize {
    if dice.once_in(24) {
        some_lanes(dice, 2)
    } else {
        lanes
    }
}
