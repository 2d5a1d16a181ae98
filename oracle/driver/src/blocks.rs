//! The blocks that are compared, as entries that fit a width, and as values of any size and order.

use crate::mode::Mode;
use crate::random::Random;

/// The modes of one round: none, the edges and a random number.
pub fn modes(random: &mut Random) -> Vec<Mode> {
    vec![
        Mode::Plain,
        Mode::Sorted(0),
        Mode::Sorted(random.next()),
        Mode::Sorted(u32::MAX),
        Mode::Strict(None),
        Mode::Strict(Some(0)),
        Mode::Strict(Some(random.next())),
        Mode::Strict(Some(u32::MAX - 1)),
        Mode::Strict(Some(u32::MAX)),
    ]
}

/// Entries with a structure: each a function of the place.
pub fn structured(lanes: usize, width: u32) -> Vec<Vec<u32>> {
    let count = 32 * lanes;
    let ones = ((1u64 << width) - 1) as u32;
    let top = ones - ones / 2;
    let mut blocks = Vec::new();
    let mut add = |entry: &dyn Fn(usize) -> u32| blocks.push((0..count).map(entry).collect());
    // all 0, all ones, the two in turn by place and by row, a count, mixed bits
    add(&|_| 0);
    add(&|_| ones);
    add(&|k| if k % 2 == 0 { ones } else { 0 });
    add(&|k| if k / lanes % 2 == 0 { ones } else { 0 });
    add(&|k| k as u32 & ones);
    add(&|k| (k as u32).wrapping_mul(0x9e37_79b9) & ones);
    // at each place: only it is wide, only its top bit, only its lowest bit, only it is 0
    for place in 0..count {
        add(&|k| if k == place { ones } else { 0 });
        add(&|k| if k == place { top } else { 0 });
        add(&|k| if k == place { 1 & ones } else { 0 });
        add(&|k| if k == place { 0 } else { ones });
    }
    // at each row: a step up, a step down, only this row
    for row in 0..32 {
        add(&|k| if k / lanes < row { 0 } else { ones });
        add(&|k| if k / lanes < row { ones } else { 0 });
        add(&|k| if k / lanes == row { ones } else { 0 });
    }
    blocks
}

/// Random entries that fit: wide ones, small ones or a few wide ones among zeros.
pub fn random_entries(random: &mut Random, lanes: usize, width: u32) -> Vec<u32> {
    let kind = random.below(4);
    let small = random.below(width as usize + 1) as u32;
    (0..32 * lanes)
        .map(|_| match kind {
            0 | 1 => random.bits(width),
            2 => random.bits(small),
            _ if random.below(8) == 0 => random.bits(width),
            _ => 0,
        })
        .collect()
}

/// Random values, in order or not: any, small, ascending, descending, constant, around a wrap.
pub fn any_values(random: &mut Random, lanes: usize) -> Vec<u32> {
    let kind = random.below(6);
    let bits = random.below(33) as u32;
    let mut value = random.next();
    (0..32 * lanes)
        .map(|k| {
            let step = random.bits(bits);
            match kind {
                0 => value = random.next(),
                1 => value = step,
                2 => value = value.wrapping_add(step),
                3 => value = value.wrapping_sub(step),
                4 => {}
                _ => value = (k as u32).wrapping_sub(lanes as u32 * 16),
            }
            value
        })
        .collect()
}

/// Values with a structure, for width finding: descending, constant, wraps, one step at each place.
pub fn structured_values(lanes: usize) -> Vec<Vec<u32>> {
    let count = 32 * lanes;
    let mut blocks = Vec::new();
    let mut add = |value: &dyn Fn(usize) -> u32| blocks.push((0..count).map(value).collect());
    add(&|_| 0);
    add(&|_| u32::MAX);
    add(&|k| k as u32);
    add(&|k| (count - k) as u32);
    add(&|k| u32::MAX - k as u32);
    add(&|k| if k % 2 == 0 { 0 } else { u32::MAX });
    for place in 0..count {
        add(&|k| if k < place { 0 } else { 1 });
        add(&|k| if k < place { 1 } else { 0 });
        add(&|k| (k as u32).wrapping_sub(place as u32));
    }
    blocks
}
