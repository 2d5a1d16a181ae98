//! Outputs that are lent to the library, full of marks, and how much room they have.

use crate::dice::Dice;

/// An output that is lent to the library, and the marks it was full of.
pub struct Lent<T> {
    pub marks: Vec<T>,
    pub now: Vec<T>,
}

/// Bytes to lend, each with a mark from its position and a salt.
pub fn lent_bytes(dice: &mut Dice, room: usize) -> Lent<u8> {
    let salt = dice.byte();
    let marks: Vec<u8> = (0..room).map(|at| ((at * 167 + at / 256) as u8).wrapping_add(salt)).collect();
    Lent { now: marks.clone(), marks }
}

/// Values to lend, each with a mark from its position and a salt.
pub fn lent_values(dice: &mut Dice, room: usize) -> Lent<u32> {
    let salt = dice.roll() as u32;
    let marks: Vec<u32> = (0..room).map(|at| (at as u32).wrapping_mul(0x9E37_79B1) ^ salt).collect();
    Lent { now: marks.clone(), marks }
}

/// The room to lend for a call that needs so much of it: often more than enough, sometimes just enough,
/// one too few, too few or none at all.
pub fn some_room(dice: &mut Dice, needed: usize) -> usize {
    match dice.below(24) {
        0 => 0,
        1 | 2 => needed.saturating_sub(1),
        3 => dice.below(needed + 1),
        4..=10 => needed,
        11 | 12 => needed + 1,
        _ => needed + dice.below(300),
    }
}

/// What the model writes where there is room for anything.
pub type Sound = Result<Vec<u8>, u32>;

/// The room that a writer needs; any where it refuses.
pub fn needed_room(sound: &Sound) -> usize {
    match sound {
        Ok(bytes) => bytes.len(),
        Err(_) => 500,
    }
}
