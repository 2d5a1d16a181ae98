//! The smallest input on which two sides differ.

use crate::case::{At, Call, Case, Seen};
use crate::compare::agree;
use crate::document::{self, DOCUMENT};
use crate::ours::OURS;
use crate::rust::BUILDS;

/// What makes one case smaller than another: fewer numbers that are not 0, fewer lanes, a lesser
/// width, a lesser first number, lesser numbers.
pub fn key(case: &Case) -> (usize, usize, u32, u32, u64) {
    let numbers = numbers(case);
    let count = numbers.iter().filter(|&&number| number != 0).count();
    let sum = numbers.iter().map(|&number| u64::from(number)).sum();
    let At { lanes, mode, width } = case.at;
    (count, lanes, width, mode.first(), sum)
}

/// The numbers of a case: entries, or bytes.
fn numbers(case: &Case) -> Vec<u32> {
    match &case.call {
        Call::Size => Vec::new(),
        Call::Pack(values) | Call::Width(values) => document::entries(case.at.mode, values),
        Call::Unpack(bytes) => bytes.iter().map(|&byte| u32::from(byte)).collect(),
    }
}

/// The same call with other numbers, as many as it takes, and no more room than it needs.
fn with_numbers(call: &Call, at: At, mut numbers: Vec<u32>) -> Case {
    if let Call::Unpack(_) = call {
        numbers.resize(at.payload(), 0);
        let bytes = numbers.iter().map(|&number| number as u8).collect();
        return at.unpack(bytes, at.block());
    }
    numbers.resize(at.block(), 0);
    let values = document::values(at.mode, &numbers);
    match call {
        Call::Pack(_) => at.pack(values, at.payload()),
        Call::Width(_) => at.width_of(values),
        _ => at.size(),
    }
}

/// The cases next to this one that are smaller.
fn smaller(case: &Case) -> Vec<Case> {
    let (at, own) = (case.at, numbers(case));
    let mut ats = vec![at];
    ats.extend([1, 4].map(|lanes| At { lanes, ..at }));
    ats.extend((0..at.width).map(|width| At { width, ..at }));
    for first in [0, 1, at.mode.first() / 2] {
        let mode = at.mode.with_first(first);
        ats.push(At { mode, ..at });
    }
    let mut cases = Vec::new();
    for at in ats {
        cases.push(with_numbers(&case.call, at, own.clone()));
    }
    for (k, &number) in own.iter().enumerate().filter(|(_, &number)| number != 0) {
        for less in [0, 1, number / 2, number & (number - 1), number - 1] {
            let mut numbers = own.clone();
            numbers[k] = less;
            cases.push(with_numbers(&case.call, at, numbers));
        }
    }
    cases.retain(|other| key(other) < key(case));
    cases
}

/// Whether it is a case of the comparison (a block to pack fits), and the sides differ.
fn differs(case: &Case) -> bool {
    if let Call::Pack(values) = &case.call {
        if !document::fits(&document::entries(case.at.mode, values), case.at.width) {
            return false;
        }
    }
    !agree(case, &case.run(&OURS))
}

/// A smaller case with a single bit, at any place, if there is one.
fn single_bit(case: &Case) -> Option<Case> {
    for lanes in [1, 4, 8].into_iter().filter(|&lanes| lanes <= case.at.lanes) {
        for width in 0..=case.at.width {
            let at = At { lanes, width, ..case.at };
            let none = numbers(&with_numbers(&case.call, at, Vec::new()));
            let bits = match case.call {
                Call::Unpack(_) => 8,
                Call::Width(_) => 32,
                _ => width,
            };
            for place in 0..none.len() {
                for bit in 0..bits {
                    let mut numbers = none.clone();
                    numbers[place] = 1 << bit;
                    let other = with_numbers(&case.call, at, numbers);
                    if key(&other) < key(case) && differs(&other) {
                        return Some(other);
                    }
                }
            }
        }
    }
    None
}

/// Smaller and smaller cases, for as long as the sides differ.
pub fn reduce(mut case: Case) -> Case {
    while let Some(less) = smaller(&case).into_iter().find(differs) {
        case = less;
    }
    single_bit(&case).unwrap_or(case)
}

/// Numbers: how many, the most frequent, and the others by their places.
fn listed(numbers: &[u32]) -> String {
    let count = |number: u32| numbers.iter().filter(|&&other| other == number).count();
    let usual = match numbers.iter().max_by_key(|&&number| count(number)) {
        None => return "none".to_string(),
        Some(&number) => number,
    };
    let mut text = format!("{}, all {usual}", numbers.len());
    for (k, &number) in numbers.iter().enumerate() {
        if number != usual {
            text += &format!(", but {k} is {number}");
        }
    }
    text
}

/// Where a side left something else in memory than ours.
fn left(call: &Call, seen: &Seen, ours: &Seen) -> String {
    match (call, seen.first_difference(ours)) {
        (_, None) => String::new(),
        (Call::Pack(_), Some((place, byte, ours))) => {
            format!("; leaves byte {place} as {byte:02x}, ours {ours:02x}")
        }
        (_, Some((place, value, ours))) => {
            format!("; leaves value {place} as {value}, ours {ours}")
        }
    }
}

pub fn print(case: &Case) {
    let At { lanes, mode, width } = case.at;
    match &case.call {
        Call::Size => println!("  size, lanes {lanes}, width {width}"),
        Call::Pack(values) => {
            println!("  pack, lanes {lanes}, {mode}, width {width}, room for {} bytes", case.room);
            println!("  values: {}", listed(values));
            println!("  entries: {}", listed(&numbers(case)));
        }
        Call::Unpack(_) => {
            println!("  unpack, lanes {lanes}, {mode}, width {width}, room for {} values", case.room);
            println!("  bytes: {}", listed(&numbers(case)));
        }
        Call::Width(values) => {
            println!("  width, lanes {lanes}, {mode}");
            println!("  values: {}", listed(values));
            println!("  entries: {}", listed(&numbers(case)));
        }
    }
    let ours = case.run(&OURS);
    for side in [&OURS, &DOCUMENT].into_iter().chain(&BUILDS) {
        let seen = case.run(side);
        println!("  {:12} {}{}", side.name, seen.said, left(&case.call, &seen, &ours));
    }
}
