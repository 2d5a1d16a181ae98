//! One call on one input, and what is seen when a side runs it.

use crate::mode::Mode;
use crate::side::{Said, Side};

#[derive(Clone, Copy, Debug)]
pub struct At {
    pub lanes: usize,
    pub mode: Mode,
    pub width: u32,
}

#[derive(Clone, Debug)]
pub enum Call {
    Size,
    /// Of these values.
    Pack(Vec<u32>),
    /// Of these bytes.
    Unpack(Vec<u8>),
    /// Of these values. The case's own width says nothing here.
    Width(Vec<u32>),
}

#[derive(Clone, Debug)]
pub struct Case {
    pub at: At,
    pub call: Call,
    /// How much is lent for the answer: bytes for packing, values for unpacking.
    pub room: usize,
}

/// The calls as the counts name them.
pub const CALLS: [&str; 4] = ["size", "pack", "unpack", "width"];

impl Call {
    /// Its place in `CALLS`.
    pub fn group(&self) -> usize {
        match self {
            Call::Size => 0,
            Call::Pack(_) => 1,
            Call::Unpack(_) => 2,
            Call::Width(_) => 3,
        }
    }
}

impl At {
    pub fn new(lanes: usize, mode: Mode, width: u32) -> At {
        At { lanes, mode, width }
    }

    /// How many values a block has.
    pub fn block(self) -> usize {
        32 * self.lanes
    }

    /// How many bytes a payload has.
    pub fn payload(self) -> usize {
        4 * self.lanes * self.width as usize
    }

    fn case(self, call: Call, room: usize) -> Case {
        Case { at: self, call, room }
    }

    pub fn size(self) -> Case {
        self.case(Call::Size, 0)
    }

    pub fn pack(self, values: Vec<u32>, room: usize) -> Case {
        self.case(Call::Pack(values), room)
    }

    pub fn unpack(self, bytes: Vec<u8>, room: usize) -> Case {
        self.case(Call::Unpack(bytes), room)
    }

    pub fn width_of(self, values: Vec<u32>) -> Case {
        self.case(Call::Width(values), 0)
    }
}

/// Untouched memory on each side of what is lent. It is odd, so that lent bytes are not aligned.
const GUARD: usize = 61;

/// What a side said, and all of the memory afterwards: guard, what was lent, guard.
#[derive(Clone, PartialEq, Eq)]
pub struct Seen {
    pub said: Said,
    pub bytes: Vec<u8>,
    pub values: Vec<u32>,
}

/// What memory holds before a call. `flip` changes every bit of it.
fn marker(place: usize, flip: bool) -> u32 {
    let mark = (place as u32).wrapping_mul(0x9e37_79b9) ^ 0xa55a_c33c;
    if flip {
        !mark
    } else {
        mark
    }
}

impl Case {
    fn seen(&self, side: &Side, flip: bool) -> Seen {
        let At { lanes, mode, width } = self.at;
        let mut bytes = Vec::new();
        let mut values = Vec::new();
        let whole = self.room + 2 * GUARD;
        let lent = GUARD..GUARD + self.room;
        let said = match &self.call {
            Call::Size => (side.size)(lanes, width),
            Call::Pack(block) => {
                bytes.extend((0..whole).map(|place| marker(place, flip) as u8));
                (side.pack)(lanes, mode, block, &mut bytes[lent], width)
            }
            Call::Unpack(payload) => {
                values.extend((0..whole).map(|place| marker(place, flip)));
                (side.unpack)(lanes, mode, payload, &mut values[lent], width)
            }
            Call::Width(block) => (side.width)(lanes, mode, block),
        };
        Seen { said, bytes, values }
    }

    /// Runs the call on one side.
    pub fn run(&self, side: &Side) -> Seen {
        self.seen(side, false)
    }

    /// How much of the front of what was lent a side writes, in bytes or values: what comes out
    /// the same whatever was there. None where it writes anything else.
    pub fn written(&self, side: &Side) -> Option<usize> {
        let (one, other) = (self.seen(side, false), self.seen(side, true));
        let bytes = one.bytes.iter().zip(&other.bytes).map(|(a, b)| a == b);
        let values = one.values.iter().zip(&other.values).map(|(a, b)| a == b);
        let places: Vec<bool> = bytes.chain(values).collect();
        let count = places.iter().filter(|&&is_written| is_written).count();
        let is_front = places.iter().skip(GUARD).take(count).all(|&is_written| is_written);
        if is_front && count <= self.room {
            Some(count)
        } else {
            None
        }
    }
}

impl Seen {
    /// The bytes that were lent, as they are afterwards.
    pub fn lent_bytes(&self) -> &[u8] {
        &self.bytes[GUARD..self.bytes.len() - GUARD]
    }

    /// The values that were lent, as they are afterwards.
    pub fn lent_values(&self) -> &[u32] {
        &self.values[GUARD..self.values.len() - GUARD]
    }

    /// The first place in memory at which this is not the other, counted from what was lent, and
    /// what each has there.
    pub fn first_difference(&self, other: &Seen) -> Option<(isize, u32, u32)> {
        let all = |seen: &Seen| -> Vec<u32> {
            let bytes = seen.bytes.iter().map(|&byte| u32::from(byte));
            bytes.chain(seen.values.iter().copied()).collect()
        };
        let (own, others) = (all(self), all(other));
        let place = (0..own.len()).find(|&k| own[k] != others[k])?;
        Some((place as isize - GUARD as isize, own[place], others[place]))
    }
}
