//! Single blocks: payload size, pack, unpack and width.

use crate::compare::{library_mode, same_answer, same_output};
use crate::dice::Dice;
use crate::document01::{self as model, Mode};
use crate::entries::values_with;
use crate::input::{block_length, some_mode, BAD_LANES, GOOD_LANES};
use crate::lent::{lent_bytes, lent_values, some_room};
use crate::tally::{report, Tally};

#[derive(Default)]
struct BlockTallies {
    size: Tally,
    pack: Tally,
    unpack: Tally,
    width: Tally,
}

/// One call of each kind with these lanes, at this width or near it.
fn compare_block_calls(dice: &mut Dice, tallies: &mut BlockTallies, lanes: usize, width: u32) {
    let mode = some_mode(dice);
    compare_size(&mut tallies.size, lanes, width);
    let block = some_block(dice, lanes, mode, width);
    compare_width(&mut tallies.width, lanes, mode, &block);
    compare_pack(dice, &mut tallies.pack, lanes, mode, &block, width);
    compare_unpack(dice, &mut tallies.unpack, lanes, mode, width);
}

/// Values whose entries fit the width, or break it at one place; sometimes not as many as a block has.
fn some_block(dice: &mut Dice, lanes: usize, mode: Mode, width: u32) -> Vec<u32> {
    let block = block_length(lanes);
    let length = match dice.below(16) {
        0 => dice.pick(&[0, 1, 32, 128, 256, 257]),
        1 => block - 1,
        2 => block + 1,
        _ => block,
    };
    let bits = match dice.below(8) {
        0 => width.min(32).saturating_sub(1),
        1 => dice.below(33) as u32,
        _ => width.min(32),
    };
    let mut entries: Vec<u32> = (0..length).map(|_| dice.bits(bits)).collect();
    if dice.once_in(4) && length > 0 {
        // The least entry that is too wide, or another.
        let at = dice.below(length);
        entries[at] = match dice.below(2) {
            0 => 1u32.checked_shl(width).unwrap_or(u32::MAX),
            _ => dice.number(),
        };
    }
    if dice.once_in(8) {
        // One entry only, so that nothing hides where it goes.
        let named = dice.below(length.max(1));
        for (at, entry) in entries.iter_mut().enumerate() {
            if at != named {
                *entry = 0;
            }
        }
    }
    values_with(mode, &entries)
}

fn compare_size(tally: &mut Tally, lanes: usize, width: u32) {
    same_answer(
        tally,
        &("size", lanes, width),
        model::payload_size(lanes, width),
        sisalshed::compressed_block_size(lanes, width),
    );
}

fn compare_width(tally: &mut Tally, lanes: usize, mode: Mode, block: &[u32]) {
    same_answer(
        tally,
        &("width", lanes, mode, block),
        model::least_width(lanes, mode, block),
        sisalshed::num_bits(lanes, library_mode(mode), block),
    );
}

fn compare_pack(dice: &mut Dice, tally: &mut Tally, lanes: usize, mode: Mode, block: &[u32], width: u32) {
    let needed = model::payload_size(lanes, width).unwrap_or(500);
    let room = some_room(dice, needed);
    let mut lent = lent_bytes(dice, room);
    let expected = model::pack(lanes, mode, block, room, width);
    let answer = sisalshed::compress(lanes, library_mode(mode), block, &mut lent.now, width);
    let case = ("pack", lanes, mode, block, room, width);
    same_output(tally, &case, &expected, needed, answer, &lent);
}

fn compare_unpack(dice: &mut Dice, tally: &mut Tally, lanes: usize, mode: Mode, width: u32) {
    let size = model::payload_size(lanes, width).unwrap_or(500);
    let length = some_room(dice, size);
    let payload = if dice.once_in(8) { vec![0; length] } else { dice.bytes(length) };
    let room = some_room(dice, block_length(lanes));
    let mut lent = lent_values(dice, room);
    let expected = model::unpack(lanes, mode, &payload, room, width);
    let answer = sisalshed::decompress(lanes, library_mode(mode), &payload, &mut lent.now, width);
    let case = ("unpack", lanes, mode, &payload, room, width);
    same_output(tally, &case, &expected, size, answer, &lent);
}

#[test]
fn blocks_agree() {
    let mut dice = Dice::new(1);
    let mut tallies = BlockTallies::default();
    let other_widths = [64, 256, 260, 1 << 31, u32::MAX];
    for width in (0..=40).chain(other_widths) {
        for lanes in GOOD_LANES {
            for _ in 0..20 {
                compare_block_calls(&mut dice, &mut tallies, lanes, width);
            }
        }
        for lanes in BAD_LANES {
            compare_block_calls(&mut dice, &mut tallies, lanes, width);
        }
    }
    let BlockTallies { size, pack, unpack, width } = &tallies;
    report("blocks_agree", "calls compared", &[size, pack, unpack, width]);
    size.reaches("payload size", &[0, 1, 2], 100);
    pack.reaches("pack", &[0, 1, 2, 3, 4, 6], 100);
    unpack.reaches("unpack", &[0, 1, 2, 4, 5], 100);
    width.reaches("width", &[0, 1, 3], 100);
}
