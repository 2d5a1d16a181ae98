//! Our library, through its C interface.

use crate::mode::Mode;
use crate::side::{Said, Side};

#[repr(C)]
pub struct CAnswer {
    pub number: u32,
    pub length: usize,
}

impl CAnswer {
    pub fn said(self) -> Said {
        Said::Answered { number: self.number, length: self.length }
    }
}

extern "C" {
    fn sisalshed_compressed_block_size(lanes: usize, width: u32) -> CAnswer;
    fn sisalshed_compress(
        lanes: usize,
        kind: u32,
        first: u32,
        decompressed: *const u32,
        decompressed_length: usize,
        compressed: *mut u8,
        compressed_length: usize,
        width: u32,
    ) -> CAnswer;
    fn sisalshed_decompress(
        lanes: usize,
        kind: u32,
        first: u32,
        compressed: *const u8,
        compressed_length: usize,
        decompressed: *mut u32,
        decompressed_length: usize,
        width: u32,
    ) -> CAnswer;
    fn sisalshed_num_bits(
        lanes: usize,
        kind: u32,
        first: u32,
        decompressed: *const u32,
        decompressed_length: usize,
    ) -> CAnswer;
}

pub fn compressed_block_size(lanes: usize, width: u32) -> CAnswer {
    unsafe { sisalshed_compressed_block_size(lanes, width) }
}

pub fn compress(
    lanes: usize,
    kind: u32,
    first: u32,
    values: &[u32],
    bytes: &mut [u8],
    width: u32,
) -> CAnswer {
    unsafe {
        sisalshed_compress(
            lanes,
            kind,
            first,
            values.as_ptr(),
            values.len(),
            bytes.as_mut_ptr(),
            bytes.len(),
            width,
        )
    }
}

pub fn decompress(
    lanes: usize,
    kind: u32,
    first: u32,
    bytes: &[u8],
    values: &mut [u32],
    width: u32,
) -> CAnswer {
    unsafe {
        sisalshed_decompress(
            lanes,
            kind,
            first,
            bytes.as_ptr(),
            bytes.len(),
            values.as_mut_ptr(),
            values.len(),
            width,
        )
    }
}

pub fn num_bits(lanes: usize, kind: u32, first: u32, values: &[u32]) -> CAnswer {
    unsafe { sisalshed_num_bits(lanes, kind, first, values.as_ptr(), values.len()) }
}

pub const OURS: Side = Side {
    name: "ours",
    size: |lanes, width| compressed_block_size(lanes, width).said(),
    pack: |lanes, mode: Mode, values, bytes, width| {
        compress(lanes, mode.kind(), mode.first(), values, bytes, width).said()
    },
    unpack: |lanes, mode: Mode, bytes, values, width| {
        decompress(lanes, mode.kind(), mode.first(), bytes, values, width).said()
    },
    width: |lanes, mode: Mode, values| num_bits(lanes, mode.kind(), mode.first(), values).said(),
};
