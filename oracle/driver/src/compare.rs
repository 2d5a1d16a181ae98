//! The comparison: the same calls on every side, every answer and every byte of lent memory equal.

use crate::blocks;
use crate::case::{At, Case, Seen, CALLS};
use crate::document::{self, DOCUMENT};
use crate::mode::{Mode, GROUPS};
use crate::ours::OURS;
use crate::random::Random;
use crate::rust::BUILDS;
use crate::smallest;

/// Whether three builds of the Rust, and the model of document 01, say and write what ours did.
pub fn agree(case: &Case, ours: &Seen) -> bool {
    let mut others = BUILDS.iter().chain(Some(&DOCUMENT));
    others.all(|side| case.run(side) == *ours)
}

/// From this size on every structured block is compared, below it a part of them.
const WHOLE: usize = 100;

/// So many differing inputs are enough.
const ENOUGH: u64 = 1000;

#[derive(Default)]
pub struct Compared {
    /// By lanes, mode and call.
    counts: [[[u64; CALLS.len()]; GROUPS.len()]; 9],
    pub total: u64,
    pub differing: u64,
    smallest: Option<Case>,
}

impl Compared {
    /// One call on all sides; what ours said and wrote.
    fn case(&mut self, case: &Case) -> Seen {
        let ours = case.run(&OURS);
        self.total += 1;
        self.counts[case.at.lanes][case.at.mode.group()][case.call.group()] += 1;
        if !agree(case, &ours) {
            self.differing += 1;
            let is_smaller = |kept: &Case| smallest::key(case) < smallest::key(kept);
            if self.smallest.as_ref().map_or(true, is_smaller) {
                self.smallest = Some(case.clone());
            }
        }
        ours
    }

    /// A block that fits: packed, unpacked again, and its least width.
    fn block(&mut self, at: At, entries: &[u32], slack: usize) {
        let values = document::values(at.mode, entries);
        let packed = self.case(&at.pack(values.clone(), at.payload() + slack));
        let bytes = packed.lent_bytes().to_vec();
        let unpacked = self.case(&at.unpack(bytes, at.block() + slack));
        let is_back = unpacked.lent_values()[..at.block()] == values[..];
        assert!(is_back || self.differing > 0, "all sides agree, and lose a block");
        self.case(&at.width_of(values));
    }

    /// Everything of one lane count, mode and width.
    fn at(&mut self, at: At, structured: &[Vec<u32>], random: &mut Random, size: usize) {
        let step = (WHOLE / size.max(1)).max(1);
        for (k, entries) in structured.iter().step_by(step).enumerate() {
            self.block(at, entries, k % 2 * 5);
        }
        for _ in 0..size {
            let slack = random.below(2) * random.below(40);
            let entries = blocks::random_entries(random, at.lanes, at.width);
            self.block(at, &entries, slack);
            let bytes = random.bytes(at.payload() + slack);
            self.case(&at.unpack(bytes, at.block() + slack));
            self.case(&at.width_of(blocks::any_values(random, at.lanes)));
        }
    }

    /// Lanes 1, 4, 8, widths 0 to 32, every mode. `size`: random blocks for each.
    pub fn run(&mut self, seed: u64, size: usize) {
        let mut random = Random::new(seed);
        for lanes in [1, 4, 8] {
            for width in 0..=32 {
                self.case(&At::new(lanes, Mode::Plain, width).size());
                let structured = blocks::structured(lanes, width);
                for mode in blocks::modes(&mut random) {
                    self.at(At::new(lanes, mode, width), &structured, &mut random, size);
                    if self.differing > ENOUGH {
                        return;
                    }
                }
            }
            for mode in blocks::modes(&mut random) {
                for values in blocks::structured_values(lanes) {
                    self.case(&At::new(lanes, mode, 0).width_of(values));
                }
            }
        }
    }

    pub fn print(&self) {
        println!("lanes  mode                    size      pack    unpack     width");
        for lanes in [1, 4, 8] {
            for (mode, counts) in GROUPS.iter().zip(&self.counts[lanes]) {
                let [size, pack, unpack, width] = counts;
                println!("{lanes:5}  {mode:18} {size:9} {pack:9} {unpack:9} {width:9}");
            }
        }
    }

    /// Where something differs: the smallest input that was found, made smaller still.
    pub fn smallest(&self) -> Option<Case> {
        self.smallest.clone().map(smallest::reduce)
    }
}
