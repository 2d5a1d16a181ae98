//! The fixed list of the Rust's answers. oracle/README.md has the layout.

use crate::blocks;
use crate::case::{At, Case, Seen};
use crate::document;
use crate::mode::Mode;
use crate::random::Random;
use crate::rust::BUILDS;
use crate::side::{accepted, Said};

const SEED: u64 = 93;

/// What every build says and writes. They agree, or there is no list.
fn rust(case: &Case) -> Seen {
    let [checked, unchecked, unrolled] = BUILDS.map(|build| case.run(&build));
    assert!(checked == unchecked && unchecked == unrolled, "the builds differ");
    checked
}

/// One record: a payload, its values and their least width, each as the Rust answers it.
fn record(at: At, random: &mut Random) -> Vec<u8> {
    // at odd widths arbitrary bytes, at even ones the payload of a block
    let payload = if at.width % 2 == 1 {
        random.bytes(at.payload())
    } else {
        let entries = blocks::random_entries(random, at.lanes, at.width);
        let values = document::values(at.mode, &entries);
        rust(&at.pack(values, at.payload())).lent_bytes().to_vec()
    };
    let unpacked = rust(&at.unpack(payload.clone(), at.block()));
    let values = unpacked.lent_values().to_vec();
    let packed = rust(&at.pack(values.clone(), at.payload()));
    assert!(unpacked.said == accepted(at.payload()) && packed.said == unpacked.said);
    assert!(packed.lent_bytes() == payload);
    let least = match rust(&at.width_of(values.clone())).said {
        Said::Answered { length, .. } => length as u8,
        _ => panic!("width finding answers"),
    };
    let mut record = vec![at.lanes as u8, at.mode.kind() as u8, at.width as u8, least];
    record.extend(at.mode.first().to_le_bytes());
    record.extend(&payload);
    record.extend(values.iter().flat_map(|value| value.to_le_bytes()));
    record
}

pub fn write(file: &str) -> bool {
    let mut random = Random::new(SEED);
    let mut list = Vec::new();
    let mut records = 0;
    for lanes in [1, 4, 8] {
        for kind in 0..4 {
            for width in 0..=32 {
                // the edges, then any number
                let first = match width % 6 {
                    0 => 0,
                    1 => u32::MAX,
                    2 => u32::MAX - 1,
                    _ => random.next(),
                };
                let mode = match kind {
                    0 => Mode::Plain,
                    1 => Mode::Sorted(first),
                    2 => Mode::Strict(None),
                    _ => Mode::Strict(Some(first)),
                };
                list.extend(record(At::new(lanes, mode, width), &mut random));
                records += 1;
            }
        }
    }
    std::fs::write(file, &list).expect("the list is written");
    println!("{records} records, {} answers, {} bytes", 3 * records, list.len());
    true
}
