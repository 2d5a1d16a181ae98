//! The model itself on the document's numbers at the edges.

use crate::dice::Dice;
use crate::document01::{self as model, Mode};
use crate::input::GOOD_LANES;
use crate::tally::{report, Tally};
use std::fmt::Debug;

/// Checks what the model gives, and counts the answer.
fn is<T: PartialEq + Debug>(tally: &mut Tally, answer: Result<T, u32>, expected: Result<T, u32>) {
    assert_eq!(answer, expected);
    tally.add(answer.err().unwrap_or(0));
}

/// A block that is 0 except for these values.
fn block_with(lanes: usize, named: &[(usize, u32)]) -> Vec<u32> {
    let mut block = vec![0; 32 * lanes];
    for &(at, value) in named {
        block[at] = value;
    }
    block
}

/// Bytes that are 0 except for these: "Unnamed bytes are 0."
fn bytes_with(length: usize, named: &[(usize, u8)]) -> Vec<u8> {
    let mut bytes = vec![0; length];
    for &(at, byte) in named {
        bytes[at] = byte;
    }
    bytes
}

/// Checks both ways between a plain block and its payload.
fn plain_block_is(tally: &mut Tally, lanes: usize, width: u32, block: Vec<u32>, payload: Vec<u8>) {
    let length = payload.len();
    is(tally, model::payload_size(lanes, width), Ok(length));
    let packed = model::pack(lanes, Mode::Plain, &block, length, width);
    is(tally, packed, Ok(payload.clone()));
    let unpacked = model::unpack(lanes, Mode::Plain, &payload, block.len(), width);
    is(tally, unpacked, Ok(block));
}

/// Checks both ways between a list and its body.
fn list_is(tally: &mut Tally, lanes: usize, mode: Mode, list: &[u32], body: &[u8]) {
    let written = model::write_list(lanes, mode, list, body.len());
    is(tally, written, Ok(body.to_vec()));
    let read = model::read_list(lanes, mode, list.len(), body, list.len());
    is(tally, read, Ok(list.to_vec()));
}

/// The model itself on "Numbers at the edges", 1 to 13.
#[test]
fn edges() {
    let mut tally = Tally::default();
    edges_of_plain_blocks(&mut tally);
    every_bit_of_blocks(&mut tally);
    edges_of_entries(&mut tally);
    edges_of_widths(&mut tally);
    edges_of_lists(&mut tally);
    edges_of_files(&mut tally);
    report("edges", "answers held to the document", &[&tally]);
    tally.reaches("edges", &[0, 2, 6, 8, 9, 10, 11], 1);
}

fn edges_of_plain_blocks(tally: &mut Tally) {
    // 1. L=1, plain, n=2, entries 1, 2, 3, then 0: 8 bytes, the first 39 hex.
    let block = block_with(1, &[(0, 1), (1, 2), (2, 3)]);
    plain_block_is(tally, 1, 2, block, bytes_with(8, &[(0, 0x39)]));
    // 2. L=4, plain, n=1: only entry 1 is 1: byte 4 is 01.
    let block = block_with(4, &[(1, 1)]);
    plain_block_is(tally, 4, 1, block, bytes_with(16, &[(4, 0x01)]));
    // 2. Only entry 4 is 1: byte 0 is 02.
    let block = block_with(4, &[(4, 1)]);
    plain_block_is(tally, 4, 1, block, bytes_with(16, &[(0, 0x02)]));
    // 3. L=1, plain, n=31, only entry 1 is 3: byte 3 is 80 hex, byte 4 is 01, of 124.
    let block = block_with(1, &[(1, 3)]);
    let payload = bytes_with(124, &[(3, 0x80), (4, 0x01)]);
    plain_block_is(tally, 1, 31, block, payload);
    // 4. L=8, plain, n=32, only entry 9 is 01020304 hex: bytes 36 to 39 are 04 03 02 01.
    let block = block_with(8, &[(9, 0x0102_0304)]);
    let payload = bytes_with(1024, &[(36, 4), (37, 3), (38, 2), (39, 1)]);
    plain_block_is(tally, 8, 32, block, payload);
}

/// The payload of a plain block, written one bit at a time.
fn payload_by_bits(lanes: usize, width: u32, block: &[u32]) -> Vec<u8> {
    let n = width as usize;
    let mut payload = vec![0; 4 * lanes * n];
    for (k, &entry) in block.iter().enumerate() {
        for j in 0..n {
            let (lane, row) = (k % lanes, k / lanes);
            let p = row * n + j;
            let (word, bit) = (p / 32, p % 32);
            let byte = 4 * (word * lanes + lane) + bit / 8;
            payload[byte] |= ((entry >> j) as u8 & 1) << (bit % 8);
        }
    }
    payload
}

/// "Bit layout" at every width, beside the numbers at the edges.
fn every_bit_of_blocks(tally: &mut Tally) {
    let mut dice = Dice::new(0);
    for lanes in GOOD_LANES {
        for width in 0..=32 {
            let block: Vec<u32> = (0..32 * lanes).map(|_| dice.bits(width)).collect();
            let payload = payload_by_bits(lanes, width, &block);
            plain_block_is(tally, lanes, width, block, payload);
        }
    }
}

fn edges_of_entries(tally: &mut Tally) {
    for lanes in GOOD_LANES {
        // 5. Strict, none, value 0: entry 0.
        let counting: Vec<u32> = (0..32 * lanes as u32).collect();
        let strict = Mode::Strict(None);
        is(tally, model::least_width(lanes, strict, &counting), Ok(0));
        is(tally, model::pack(lanes, strict, &counting, 0, 0), Ok(vec![]));
        // 5. Sorted, first 5, value 3: entry 4,294,967,294.
        let threes = vec![3; 32 * lanes];
        let payload = bytes_with(128 * lanes, &[(0, 0xFE), (1, 0xFF), (2, 0xFF), (3, 0xFF)]);
        let packed = model::pack(lanes, Mode::Sorted(5), &threes, 128 * lanes, 32);
        is(tally, packed, Ok(payload));
        // 6. Strict, first 4,294,967,294, n=0: the block is 4,294,967,295, 0, 1, 2 and on.
        let mut block = vec![4_294_967_295];
        block.extend(&counting[..32 * lanes - 1]);
        let strict = Mode::Strict(Some(4_294_967_294));
        let unpacked = model::unpack(lanes, strict, &[], 32 * lanes, 0);
        is(tally, unpacked, Ok(block.clone()));
        is(tally, model::pack(lanes, strict, &block, 0, 0), Ok(vec![]));
        // 11. Strict, none, 4,294,967,295, 0: as neighbours in a block they pack.
        let payload = bytes_with(128 * lanes, &[(0, 0xFF), (1, 0xFF), (2, 0xFF), (3, 0xFF)]);
        let packed = model::pack(lanes, Mode::Strict(None), &block, 128 * lanes, 32);
        is(tally, packed, Ok(payload));
    }
}

fn edges_of_widths(tally: &mut Tally) {
    for lanes in GOOD_LANES {
        for at in [0, 1, lanes, 32 * lanes - 1] {
            // 7. n=2: entry 3 packs, entry 4 is 6.
            let three = block_with(lanes, &[(at, 3)]);
            let four = block_with(lanes, &[(at, 4)]);
            let room = 128 * lanes;
            let packed = model::pack(lanes, Mode::Plain, &three, room, 2);
            is(tally, packed.map(|payload| payload.len()), Ok(8 * lanes));
            is(tally, model::pack(lanes, Mode::Plain, &four, room, 2), Err(6));
            // 7. n=0 packs only entries of 0.
            let one = block_with(lanes, &[(at, 1)]);
            let zeros = block_with(lanes, &[]);
            is(tally, model::pack(lanes, Mode::Plain, &one, room, 0), Err(6));
            is(tally, model::pack(lanes, Mode::Plain, &zeros, room, 0), Ok(vec![]));
            // 7. n=32 fits all; 33 is 2.
            let widest = block_with(lanes, &[(at, u32::MAX)]);
            let packed = model::pack(lanes, Mode::Plain, &widest, room, 32);
            is(tally, packed.map(|payload| payload.len()), Ok(128 * lanes));
            is(tally, model::pack(lanes, Mode::Plain, &widest, room, 33), Err(2));
        }
        is(tally, model::payload_size(lanes, 33), Err(2));
    }
}

fn edges_of_lists(tally: &mut Tally) {
    // 8. L=4, strict, none, list 0, 1, 2: body 00.
    list_is(tally, 4, Mode::Strict(None), &[0, 1, 2], &[0]);
    for mode in [Mode::Plain, Mode::Sorted(7), Mode::Strict(None)] {
        // 8. An empty list has an empty body; body 00 with count 0 is 11.
        list_is(tally, 4, mode, &[], &[]);
        is(tally, model::read_list(4, mode, 0, &[0], 0), Err(11));
    }
    // 9. L=1, plain: lists (1) and (1, 0) both have body 01 01 00 00 00.
    list_is(tally, 1, Mode::Plain, &[1], &[1, 1, 0, 0, 0]);
    list_is(tally, 1, Mode::Plain, &[1, 0], &[1, 1, 0, 0, 0]);
    // 10. L=1, plain, count 1: body 01 03 00 00 00 is 10.
    let read = model::read_list(1, Mode::Plain, 1, &[1, 3, 0, 0, 0], 1);
    is(tally, read, Err(10));
    // 10. Body 02 01 and seven 00 is 9.
    let read = model::read_list(1, Mode::Plain, 1, &[2, 1, 0, 0, 0, 0, 0, 0, 0], 1);
    is(tally, read, Err(9));
    // 11. Strict, none, list 4,294,967,295, 0: 8.
    let strict = Mode::Strict(None);
    let written = model::write_list(1, strict, &[4_294_967_295, 0], usize::MAX);
    is(tally, written, Err(8));
    // 12. Strict, first 4,294,967,294, list (4,294,967,295), L=1: body 00, accepted.
    let strict = Mode::Strict(Some(4_294_967_294));
    list_is(tally, 1, strict, &[4_294_967_295], &[0]);
    // 11. The neighbours that pack are no list.
    is(tally, model::read_list(1, strict, 2, &[0], 2), Err(8));
}

fn edges_of_files(tally: &mut Tally) {
    // 13. Whole file, L=1, plain, list 1, 2, 3, in 56 bytes.
    let mut file = b"lanes=1\nmode=plain\nfirst=none\ncount=3\nbytes=9\n\n".to_vec();
    file.extend([0x02, 0x39, 0, 0, 0, 0, 0, 0, 0]);
    assert_eq!(file.len(), 56);
    let written = model::write_file(1, Mode::Plain, &[1, 2, 3], 56);
    is(tally, written, Ok(file.clone()));
    let header = model::Header { lanes: 1, mode: Mode::Plain, count: 3, bytes: 9 };
    is(tally, model::header(&file), Ok((header, 47)));
    is(tally, model::read_file(&file, 3), Ok(vec![1, 2, 3]));
}
