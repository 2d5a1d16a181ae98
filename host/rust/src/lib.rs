//! Packed page lists: safe functions over the proved static library of Sisalshed.
//!
//! A single block reads whatever bytes it is given. A whole list, or a list file, is read only if it is exactly what the packer
//! writes for some list. Every function ends on any input and asks nothing of its caller; what it cannot do it refuses, with a
//! [`Refusal`], and then the memory that it was lent is as it was. Memory past what a function writes is always as it was.
//!
//! No heap, no threads, no standard library.
//!
//! ```
//! use sisalshed::{read_file, write_file, Mode, LARGEST_FILE, MOST_VALUES};
//!
//! let pages = [4096, 4097, 4100];
//! let mut slot = [0; LARGEST_FILE];
//! let length = write_file(4, Mode::Strict(None), &pages, &mut slot)?;
//!
//! let mut read = [0; MOST_VALUES];
//! let count = read_file(&slot[..length], &mut read)?;
//! assert_eq!(read[..count], pages);
//! # Ok::<(), sisalshed::Refusal>(())
//! ```
#![no_std]
#![warn(missing_docs)]

mod c;
mod mode;
mod refusal;

pub use mode::Mode;
pub use refusal::Refusal;

/// The values of the longest list: room that every list fits.
pub const MOST_VALUES: usize = 4096;
/// The values of the largest block, that of 8 lanes.
pub const LARGEST_BLOCK: usize = 256;
/// The bytes of the largest packed block: 8 lanes, width 32.
pub const LARGEST_PAYLOAD: usize = 1024;
/// The bytes of the largest body: room that every body fits.
pub const LARGEST_BODY: usize = 16512;
/// The bytes of the largest file: room that every file fits. Whoever fetches a file into an array lends one byte more, so as to see
/// that it is not longer.
pub const LARGEST_FILE: usize = 16566;

/// The values of a block: 32, 128 or 256 for 1, 4 or 8 lanes.
///
/// Refuses [`BadLanes`](Refusal::BadLanes).
///
/// ```
/// use sisalshed::{block, Refusal};
/// assert_eq!(block(4), Ok(128));
/// assert_eq!(block(2), Err(Refusal::BadLanes));
/// ```
pub const fn block(lanes: usize) -> Result<usize, Refusal> {
    match lanes {
        1 | 4 | 8 => Ok(32 * lanes),
        _ => Err(Refusal::BadLanes),
    }
}

fn length(answer: c::Answer) -> Result<usize, Refusal> {
    match Refusal::of(answer.number) {
        None => Ok(answer.length),
        Some(refusal) => Err(refusal),
    }
}

/// The bytes of a packed block: 4 for each lane and bit of width.
///
/// Refuses [`BadLanes`](Refusal::BadLanes), [`BadWidth`](Refusal::BadWidth).
///
/// ```
/// use sisalshed::{compressed_block_size, Refusal};
/// assert_eq!(compressed_block_size(4, 7), Ok(112));
/// assert_eq!(compressed_block_size(3, 7), Err(Refusal::BadLanes));
/// ```
pub fn compressed_block_size(lanes: usize, width: u32) -> Result<usize, Refusal> {
    length(unsafe { c::sisalshed_compressed_block_size(lanes, width) })
}

/// Packs exactly a block of values at a width, to the front of `compressed`. Answers the payload's bytes.
///
/// Refuses [`BadLanes`](Refusal::BadLanes), [`BadWidth`](Refusal::BadWidth), [`BadBlock`](Refusal::BadBlock),
/// [`NoRoom`](Refusal::NoRoom), [`TooWide`](Refusal::TooWide).
///
/// ```
/// use sisalshed::{compress, Mode};
/// let mut values = [0; 32];
/// values[..3].copy_from_slice(&[1, 2, 3]);
/// let mut payload = [0xff; 9];
/// assert_eq!(compress(1, Mode::Plain, &values, &mut payload, 2), Ok(8));
/// assert_eq!(payload, [0x39, 0, 0, 0, 0, 0, 0, 0, 0xff]);
/// ```
pub fn compress(
    lanes: usize,
    mode: Mode,
    decompressed: &[u32],
    compressed: &mut [u8],
    width: u32,
) -> Result<usize, Refusal> {
    length(unsafe {
        c::sisalshed_compress(
            lanes,
            mode.kind(),
            mode.first(),
            decompressed.as_ptr(),
            decompressed.len(),
            compressed.as_mut_ptr(),
            compressed.len(),
            width,
        )
    })
}

/// Unpacks a block from any bytes that are long enough, to the front of `decompressed`. Answers the bytes used, and not how many
/// values there are: that is [`block`]. Nothing is tested of what the bytes say.
///
/// Refuses [`BadLanes`](Refusal::BadLanes), [`BadWidth`](Refusal::BadWidth), [`NoRoom`](Refusal::NoRoom),
/// [`CutShort`](Refusal::CutShort).
///
/// ```
/// use sisalshed::{decompress, Mode};
/// let mut values = [7; 32];
/// assert_eq!(decompress(1, Mode::Strict(Some(99)), &[], &mut values, 0), Ok(0));
/// assert_eq!(values[..3], [100, 101, 102]);
/// ```
pub fn decompress(
    lanes: usize,
    mode: Mode,
    compressed: &[u8],
    decompressed: &mut [u32],
    width: u32,
) -> Result<usize, Refusal> {
    length(unsafe {
        c::sisalshed_decompress(
            lanes,
            mode.kind(),
            mode.first(),
            compressed.as_ptr(),
            compressed.len(),
            decompressed.as_mut_ptr(),
            decompressed.len(),
            width,
        )
    })
}

/// The least width that exactly a block of values fits.
///
/// Refuses [`BadLanes`](Refusal::BadLanes), [`BadBlock`](Refusal::BadBlock).
///
/// ```
/// use sisalshed::{num_bits, Mode};
/// let values: [u32; 32] = core::array::from_fn(|k| 5000 + 9 * k as u32);
/// assert_eq!(num_bits(1, Mode::Plain, &values), Ok(13));
/// assert_eq!(num_bits(1, Mode::Sorted(5000), &values), Ok(4));
/// ```
pub fn num_bits(lanes: usize, mode: Mode, decompressed: &[u32]) -> Result<u32, Refusal> {
    length(unsafe {
        c::sisalshed_num_bits(lanes, mode.kind(), mode.first(), decompressed.as_ptr(), decompressed.len())
    })
    .map(|width| width as u32)
}

/// The bytes of the body that a list has.
///
/// Refuses [`BadLanes`](Refusal::BadLanes), [`TooMany`](Refusal::TooMany), [`OutOfOrder`](Refusal::OutOfOrder).
///
/// ```
/// use sisalshed::{measure_list, Mode};
/// assert_eq!(measure_list(1, Mode::Plain, &[1, 2, 3]), Ok(9));
/// ```
pub fn measure_list(lanes: usize, mode: Mode, values: &[u32]) -> Result<usize, Refusal> {
    length(unsafe {
        c::sisalshed_measure_list(lanes, mode.kind(), mode.first(), values.as_ptr(), values.len())
    })
}

/// Writes the body of a list to the front of `body`. Answers its bytes.
///
/// Refuses [`BadLanes`](Refusal::BadLanes), [`TooMany`](Refusal::TooMany), [`OutOfOrder`](Refusal::OutOfOrder),
/// [`NoRoom`](Refusal::NoRoom).
///
/// ```
/// use sisalshed::{write_list, Mode, Refusal};
/// let mut body = [0; 9];
/// assert_eq!(write_list(1, Mode::Plain, &[1, 2, 3], &mut body), Ok(9));
/// assert_eq!(body, [2, 0x39, 0, 0, 0, 0, 0, 0, 0]);
/// assert_eq!(write_list(1, Mode::Strict(None), &[1, 2, 2], &mut body), Err(Refusal::OutOfOrder));
/// ```
pub fn write_list(lanes: usize, mode: Mode, values: &[u32], body: &mut [u8]) -> Result<usize, Refusal> {
    length(unsafe {
        c::sisalshed_write_list(
            lanes,
            mode.kind(),
            mode.first(),
            values.as_ptr(),
            values.len(),
            body.as_mut_ptr(),
            body.len(),
        )
    })
}

/// Reads a list of `count` values to the front of `values`, if the body is exactly what [`write_list`] writes for one. Answers the
/// count. The output needs room for the count only.
///
/// Refuses [`BadLanes`](Refusal::BadLanes), [`TooMany`](Refusal::TooMany), [`NoRoom`](Refusal::NoRoom); then block by block
/// [`CutShort`](Refusal::CutShort), [`BadWidth`](Refusal::BadWidth), `CutShort`, [`BadFill`](Refusal::BadFill),
/// [`NotLeast`](Refusal::NotLeast), [`OutOfOrder`](Refusal::OutOfOrder); at the end [`LeftOver`](Refusal::LeftOver).
///
/// ```
/// use sisalshed::{read_list, Mode, Refusal};
/// let body = [2, 0x39, 0, 0, 0, 0, 0, 0, 0];
/// let mut values = [0; 3];
/// assert_eq!(read_list(1, Mode::Plain, 3, &body, &mut values), Ok(3));
/// assert_eq!(values, [1, 2, 3]);
/// assert_eq!(read_list(1, Mode::Plain, 2, &body, &mut values), Err(Refusal::BadFill));
/// ```
pub fn read_list(
    lanes: usize,
    mode: Mode,
    count: usize,
    body: &[u8],
    values: &mut [u32],
) -> Result<usize, Refusal> {
    length(unsafe {
        c::sisalshed_read_list(
            lanes,
            mode.kind(),
            mode.first(),
            count,
            body.as_ptr(),
            body.len(),
            values.as_mut_ptr(),
            values.len(),
        )
    })
}

/// What the five lines of a list file say.
#[derive(Clone, Copy, Debug, PartialEq, Eq, Hash)]
pub struct Header {
    /// 1, 4 or 8.
    pub lanes: u32,
    /// With its first number.
    pub mode: Mode,
    /// How many values the list has. It may be more than [`MOST_VALUES`]: reading tests that.
    pub count: u32,
    /// How many bytes the body has. It may be more than [`LARGEST_BODY`]: reading tests that.
    pub bytes: u32,
}

/// The header of a list file. Of the body nothing is tested but its length.
///
/// Refuses [`BadHeader`](Refusal::BadHeader).
///
/// ```
/// use sisalshed::{header, Mode, Refusal};
/// let file = b"lanes=1\nmode=strict\nfirst=9\ncount=3\nbytes=1\n\n\0";
/// let said = header(file)?;
/// assert_eq!((said.lanes, said.mode, said.count, said.bytes), (1, Mode::Strict(Some(9)), 3, 1));
/// assert_eq!(header(b"lanes=2\n"), Err(Refusal::BadHeader));
/// # Ok::<(), Refusal>(())
/// ```
pub fn header(file: &[u8]) -> Result<Header, Refusal> {
    let said = unsafe { c::sisalshed_header(file.as_ptr(), file.len()) };
    match Refusal::of(said.number) {
        None => Ok(Header {
            lanes: said.lanes,
            mode: Mode::of(said.kind, said.first),
            count: said.count,
            bytes: said.bytes,
        }),
        Some(refusal) => Err(refusal),
    }
}

/// The body of a list file: the part of `file` from after the empty line to the end, which may be longer than [`LARGEST_BODY`]. Of
/// the body nothing is tested but that its length is what the header says.
///
/// Refuses [`BadHeader`](Refusal::BadHeader).
///
/// ```
/// let file = b"lanes=1\nmode=strict\nfirst=9\ncount=3\nbytes=1\n\n\0";
/// assert_eq!(sisalshed::body(file), Ok(&file[file.len() - 1..]));
/// ```
pub fn body(file: &[u8]) -> Result<&[u8], Refusal> {
    let part = unsafe { c::sisalshed_body(file.as_ptr(), file.len()) };
    match Refusal::of(part.number) {
        None => Ok(&file[part.start..part.start + part.length]),
        Some(refusal) => Err(refusal),
    }
}

/// Reads a list file to the front of `values`, if it is exactly what [`write_file`] writes for a list. Answers the count. The output
/// needs room for the count only.
///
/// Refuses [`BadHeader`](Refusal::BadHeader), then as [`read_list`].
///
/// ```
/// use sisalshed::{read_file, Refusal};
/// let file = b"lanes=1\nmode=strict\nfirst=9\ncount=3\nbytes=1\n\n\0";
/// let mut values = [0; 4];
/// assert_eq!(read_file(file, &mut values), Ok(3));
/// assert_eq!(values, [10, 11, 12, 0]);
/// assert_eq!(read_file(&file[..file.len() - 1], &mut values), Err(Refusal::BadHeader));
/// assert_eq!(read_file(file, &mut values[..2]), Err(Refusal::NoRoom));
/// ```
pub fn read_file(file: &[u8], values: &mut [u32]) -> Result<usize, Refusal> {
    length(unsafe { c::sisalshed_read_file(file.as_ptr(), file.len(), values.as_mut_ptr(), values.len()) })
}

/// Writes the file of a list, header and body, to the front of `file`. Answers its bytes.
///
/// Refuses [`BadLanes`](Refusal::BadLanes), [`TooMany`](Refusal::TooMany), [`OutOfOrder`](Refusal::OutOfOrder),
/// [`NoRoom`](Refusal::NoRoom).
///
/// ```
/// use sisalshed::{write_file, Mode};
/// let mut file = [0; 64];
/// let length = write_file(1, Mode::Plain, &[1, 2, 3], &mut file)?;
/// assert_eq!(length, 56);
/// assert!(file.starts_with(b"lanes=1\nmode=plain\nfirst=none\ncount=3\nbytes=9\n\n\x02\x39"));
/// # Ok::<(), sisalshed::Refusal>(())
/// ```
pub fn write_file(lanes: usize, mode: Mode, values: &[u32], file: &mut [u8]) -> Result<usize, Refusal> {
    length(unsafe {
        c::sisalshed_write_file(
            lanes,
            mode.kind(),
            mode.first(),
            values.as_ptr(),
            values.len(),
            file.as_mut_ptr(),
            file.len(),
        )
    })
}
