//! The declarations of `include/sisalshed.h`. `checks/declarations.py` holds them to the source, and the tests to the library.

#[repr(C)]
pub struct Answer {
    pub number: u32,
    pub length: usize,
}

#[repr(C)]
pub struct Header {
    pub number: u32,
    pub lanes: u32,
    pub kind: u32,
    pub first: u32,
    pub count: u32,
    pub bytes: u32,
}

#[repr(C)]
pub struct Body {
    pub number: u32,
    pub start: usize,
    pub length: usize,
}

extern "C" {
    pub fn sisalshed_compressed_block_size(lanes: usize, width: u32) -> Answer;
    pub fn sisalshed_compress(
        lanes: usize,
        kind: u32,
        first: u32,
        decompressed: *const u32,
        decompressed_length: usize,
        compressed: *mut u8,
        compressed_length: usize,
        width: u32,
    ) -> Answer;
    pub fn sisalshed_decompress(
        lanes: usize,
        kind: u32,
        first: u32,
        compressed: *const u8,
        compressed_length: usize,
        decompressed: *mut u32,
        decompressed_length: usize,
        width: u32,
    ) -> Answer;
    pub fn sisalshed_num_bits(
        lanes: usize,
        kind: u32,
        first: u32,
        decompressed: *const u32,
        decompressed_length: usize,
    ) -> Answer;
    pub fn sisalshed_measure_list(
        lanes: usize,
        kind: u32,
        first: u32,
        values: *const u32,
        values_length: usize,
    ) -> Answer;
    pub fn sisalshed_write_list(
        lanes: usize,
        kind: u32,
        first: u32,
        values: *const u32,
        values_length: usize,
        body: *mut u8,
        body_length: usize,
    ) -> Answer;
    pub fn sisalshed_read_list(
        lanes: usize,
        kind: u32,
        first: u32,
        count: usize,
        body: *const u8,
        body_length: usize,
        values: *mut u32,
        values_length: usize,
    ) -> Answer;
    pub fn sisalshed_header(file: *const u8, file_length: usize) -> Header;
    pub fn sisalshed_body(file: *const u8, file_length: usize) -> Body;
    pub fn sisalshed_read_file(
        file: *const u8,
        file_length: usize,
        values: *mut u32,
        values_length: usize,
    ) -> Answer;
    pub fn sisalshed_write_file(
        lanes: usize,
        kind: u32,
        first: u32,
        values: *const u32,
        values_length: usize,
        file: *mut u8,
        file_length: usize,
    ) -> Answer;
}
