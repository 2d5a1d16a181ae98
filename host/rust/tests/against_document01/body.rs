//! Making bodies: well made, or with a slip on purpose.

use crate::dice::Dice;
use crate::document01::{self as model, Mode};
use crate::entries::{entries_with, mode_behind, values_with};

/// What may be wrong on purpose in a body that is otherwise well made.
#[derive(Clone, Copy, Debug, Default)]
pub struct Slips {
    /// This block is packed so many bits wider than its least width.
    wider: Option<(usize, u32)>,
    /// This entry of the filling, counted from its front, is this number.
    filling: Option<(usize, u32)>,
}

pub fn some_slips(dice: &mut Dice, lanes: usize, count: usize) -> Slips {
    let mut slips = Slips::default();
    if dice.once_in(5) {
        let blocks = count.div_ceil(32 * lanes);
        slips.wider = Some((dice.below(blocks + 1), dice.pick(&[1, 1, 1, 2, 9, 32])));
    }
    if dice.once_in(5) {
        let entry = match dice.below(3) {
            0 => 1,
            1 => 1 << dice.below(32),
            _ => dice.number(),
        };
        slips.filling = Some((dice.pick(&[0, 0, 1, 30, 31, 77, 127]), entry));
    }
    slips
}

/// The body of a list, put together from blocks, whether the list is in order or not.
pub fn body_of_blocks(lanes: usize, mode: Mode, values: &[u32], slips: Slips) -> Vec<u8> {
    let mut body = Vec::new();
    let mut mode = mode;
    for (index, real) in values.chunks(32 * lanes).enumerate() {
        let mut entries = entries_with(mode, real);
        entries.resize(32 * lanes, 0);
        if let (Some((at, entry)), true) = (slips.filling, real.len() < 32 * lanes) {
            let free = 32 * lanes - real.len();
            entries[real.len() + at % free] = entry;
        }
        let block = values_with(mode, &entries);
        let mut width = model::least_width(lanes, mode, &block).unwrap();
        if let Some((which, bits)) = slips.wider {
            if which == index {
                width = 32.min(width + bits);
            }
        }
        body.push(width as u8);
        body.extend(model::pack(lanes, mode, &block, usize::MAX, width).unwrap());
        mode = mode_behind(mode, real[real.len() - 1]);
    }
    body
}
