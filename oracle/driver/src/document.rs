//! A model of document 01, bit by bit: what each call answers and writes, for any input.

use crate::mode::Mode;
use crate::side::{accepted, refused, Said, Side};

/// The previous value of a block's first.
fn initial(mode: Mode) -> u32 {
    match mode {
        Mode::Plain => 0,
        Mode::Sorted(first) => first,
        Mode::Strict(initial) => initial.unwrap_or(4_294_967_295),
    }
}

pub fn entries(mode: Mode, values: &[u32]) -> Vec<u32> {
    let mut previous = initial(mode);
    let mut entries = Vec::with_capacity(values.len());
    for &value in values {
        entries.push(match mode {
            Mode::Plain => value,
            Mode::Sorted(_) => value.wrapping_sub(previous),
            Mode::Strict(_) => value.wrapping_sub(previous).wrapping_sub(1),
        });
        previous = value;
    }
    entries
}

pub fn values(mode: Mode, entries: &[u32]) -> Vec<u32> {
    let mut previous = initial(mode);
    let mut values = Vec::with_capacity(entries.len());
    for &entry in entries {
        previous = match mode {
            Mode::Plain => entry,
            Mode::Sorted(_) => previous.wrapping_add(entry),
            Mode::Strict(_) => previous.wrapping_add(entry).wrapping_add(1),
        };
        values.push(previous);
    }
    values
}

pub fn fits(entries: &[u32], width: u32) -> bool {
    entries.iter().all(|&entry| u64::from(entry) < 1 << width)
}

pub fn least_width(entries: &[u32]) -> u32 {
    (0..32).find(|&width| fits(entries, width)).unwrap_or(32)
}

/// The byte of bit p of a lane, and the bit of that byte.
fn place(lanes: usize, lane: usize, p: usize) -> (usize, usize) {
    let (word, bit) = (p / 32, p % 32);
    (4 * (word * lanes + lane) + bit / 8, bit % 8)
}

pub fn payload(lanes: usize, entries: &[u32], width: u32) -> Vec<u8> {
    let n = width as usize;
    let mut bytes = vec![0; 4 * lanes * n];
    for (k, &entry) in entries.iter().enumerate() {
        let (lane, row) = (k % lanes, k / lanes);
        for j in 0..n {
            let (byte, bit) = place(lanes, lane, row * n + j);
            bytes[byte] |= ((entry >> j & 1) as u8) << bit;
        }
    }
    bytes
}

pub fn entries_of(lanes: usize, bytes: &[u8], width: u32) -> Vec<u32> {
    let n = width as usize;
    let mut entries = vec![0; 32 * lanes];
    for (k, entry) in entries.iter_mut().enumerate() {
        let (lane, row) = (k % lanes, k / lanes);
        for j in 0..n {
            let (byte, bit) = place(lanes, lane, row * n + j);
            *entry |= u32::from(bytes[byte] >> bit & 1) << j;
        }
    }
    entries
}

fn is_lanes(lanes: usize) -> bool {
    lanes == 1 || lanes == 4 || lanes == 8
}

fn size(lanes: usize, width: u32) -> Said {
    if !is_lanes(lanes) {
        return refused(1);
    }
    if width > 32 {
        return refused(2);
    }
    accepted(4 * lanes * width as usize)
}

fn pack(lanes: usize, mode: Mode, values: &[u32], bytes: &mut [u8], width: u32) -> Said {
    if !is_lanes(lanes) {
        return refused(1);
    }
    if width > 32 {
        return refused(2);
    }
    if values.len() != 32 * lanes {
        return refused(3);
    }
    let size = 4 * lanes * width as usize;
    if bytes.len() < size {
        return refused(4);
    }
    let entries = entries(mode, values);
    if !fits(&entries, width) {
        return refused(6);
    }
    bytes[..size].copy_from_slice(&payload(lanes, &entries, width));
    accepted(size)
}

fn unpack(lanes: usize, mode: Mode, bytes: &[u8], output: &mut [u32], width: u32) -> Said {
    if !is_lanes(lanes) {
        return refused(1);
    }
    if width > 32 {
        return refused(2);
    }
    if output.len() < 32 * lanes {
        return refused(4);
    }
    let size = 4 * lanes * width as usize;
    if bytes.len() < size {
        return refused(5);
    }
    output[..32 * lanes].copy_from_slice(&values(mode, &entries_of(lanes, bytes, width)));
    accepted(size)
}

fn width(lanes: usize, mode: Mode, values: &[u32]) -> Said {
    if !is_lanes(lanes) {
        return refused(1);
    }
    if values.len() != 32 * lanes {
        return refused(3);
    }
    accepted(least_width(&entries(mode, values)) as usize)
}

pub const DOCUMENT: Side = Side { name: "document 01", size, pack, unpack, width };
