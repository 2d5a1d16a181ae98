//! Entries and values, each from the other.

use crate::document01::Mode;

/// The value that stands before the first one.
pub fn first_of(mode: Mode) -> u32 {
    match mode {
        Mode::Plain => 0,
        Mode::Sorted(first) => first,
        Mode::Strict(first) => first.unwrap_or(u32::MAX),
    }
}

/// The mode of a block that stands behind `previous`.
pub fn mode_behind(mode: Mode, previous: u32) -> Mode {
    match mode {
        Mode::Plain => Mode::Plain,
        Mode::Sorted(_) => Mode::Sorted(previous),
        Mode::Strict(_) => Mode::Strict(Some(previous)),
    }
}

/// The values with these entries.
pub fn values_with(mode: Mode, entries: &[u32]) -> Vec<u32> {
    let mut previous = first_of(mode);
    let mut values = Vec::new();
    for &entry in entries {
        previous = match mode {
            Mode::Plain => entry,
            Mode::Sorted(_) => previous.wrapping_add(entry),
            Mode::Strict(_) => previous.wrapping_add(entry).wrapping_add(1),
        };
        values.push(previous);
    }
    values
}

/// The entries of these values.
pub fn entries_with(mode: Mode, values: &[u32]) -> Vec<u32> {
    let mut previous = first_of(mode);
    let mut entries = Vec::new();
    for &value in values {
        entries.push(match mode {
            Mode::Plain => value,
            Mode::Sorted(_) => value.wrapping_sub(previous),
            Mode::Strict(_) => value.wrapping_sub(previous).wrapping_sub(1),
        });
        previous = value;
    }
    entries
}
