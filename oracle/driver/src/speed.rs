//! Nanoseconds a block: ours, the simple scalar Rust without checks, and the unrolled Rust.

use crate::case::At;
use crate::document;
use crate::mode::Mode;
use crate::ours;
use crate::random::Random;
use crate::rust::{processor, unchecked, unrolled};
use std::hint::black_box;
use std::time::{Duration, Instant};

const PASSES: usize = 5;
const RUNS: usize = 3;
const LEAST: Duration = Duration::from_millis(4);

/// The best of several runs, in nanoseconds a call.
fn time(mut call: impl FnMut() -> usize) -> f64 {
    let mut calls = 16;
    let mut best = f64::MAX;
    let mut run = 0;
    while run < RUNS {
        let start = Instant::now();
        for _ in 0..calls {
            black_box(call());
        }
        let took = start.elapsed();
        if took < LEAST {
            calls *= 2;
            continue;
        }
        best = best.min(took.as_nanos() as f64 / calls as f64);
        run += 1;
    }
    best
}

/// The calls of one of those that are timed.
struct Party {
    pack: fn(usize, Mode, &[u32], &mut [u8], u32) -> usize,
    unpack: fn(usize, Mode, &[u8], &mut [u32], u32) -> usize,
    width: fn(usize, Mode, &[u32]) -> usize,
}

const PARTIES: [Party; 3] = [
    Party {
        pack: |lanes, mode, values, bytes, width| {
            ours::compress(lanes, mode.kind(), mode.first(), values, bytes, width).length
        },
        unpack: |lanes, mode, bytes, values, width| {
            ours::decompress(lanes, mode.kind(), mode.first(), bytes, values, width).length
        },
        width: |lanes, mode, values| ours::num_bits(lanes, mode.kind(), mode.first(), values).length,
    },
    Party { pack: unchecked::pack, unpack: unchecked::unpack, width: unchecked::width },
    Party { pack: unrolled::pack, unpack: unrolled::unpack, width: unrolled::width },
];

struct Block {
    mode_name: &'static str,
    at: At,
    values: Vec<u32>,
    payload: Vec<u8>,
}

fn pack(party: &Party, block: &Block) -> f64 {
    let At { lanes, mode, width } = block.at;
    let mut bytes = vec![0; block.payload.len()];
    let call = black_box(party.pack);
    let best = time(|| call(lanes, mode, black_box(&block.values), &mut bytes, width));
    assert!(bytes == block.payload);
    best
}

fn unpack(party: &Party, block: &Block) -> f64 {
    let At { lanes, mode, width } = block.at;
    let mut values = vec![0; block.values.len()];
    let call = black_box(party.unpack);
    let best = time(|| call(lanes, mode, black_box(&block.payload), &mut values, width));
    assert!(values == block.values);
    best
}

fn width(party: &Party, block: &Block) -> f64 {
    let call = black_box(party.width);
    time(|| call(block.at.lanes, block.at.mode, black_box(&block.values)))
}

fn table(name: &str, blocks: &[Block], timed: fn(&Party, &Block) -> f64) {
    println!("\n## {name}\n");
    println!("| L | Mode | n | ours | simple | release | ours / simple | ours / release |");
    println!("|---|---|---|---|---|---|---|---|");
    let mut best = vec![[f64::MAX; 3]; blocks.len()];
    for _ in 0..PASSES {
        for (block, best) in blocks.iter().zip(&mut best) {
            for (party, best) in PARTIES.iter().zip(best) {
                *best = best.min(timed(party, block));
            }
        }
    }
    for (block, [ours, simple, release]) in blocks.iter().zip(best) {
        let (to_simple, to_release) = (ours / simple, ours / release);
        println!(
            "| {} | {} | {} | {ours:.0} | {simple:.0} | {release:.0} | {to_simple:.1} | {to_release:.1} |",
            block.at.lanes, block.mode_name, block.at.width,
        );
    }
}

pub fn run() -> bool {
    println!("release Rust: {}; best of {} runs of at least {LEAST:?}", processor(), PASSES * RUNS);
    let mut random = Random::new(1);
    let mut blocks = Vec::new();
    for lanes in [1, 4, 8] {
        for (mode_name, mode) in
            [("plain", Mode::Plain), ("sorted", Mode::Sorted(5)), ("strict", Mode::Strict(None))]
        {
            for width in [1, 13, 32] {
                let at = At::new(lanes, mode, width);
                let entries: Vec<u32> = (0..at.block()).map(|_| random.bits(width)).collect();
                let values = document::values(mode, &entries);
                let payload = document::payload(lanes, &entries, width);
                blocks.push(Block { mode_name, at, values, payload });
            }
        }
    }
    table("Pack", &blocks, pack);
    table("Unpack", &blocks, unpack);
    table("Width", &blocks, width);
    true
}
