//! Document 01 in plain Rust: blocks, lists and list files.
//!
//! This is written from the document, without a look at the library, and shares nothing with it. What the
//! document leaves open is read as in docs/DECISIONS.md. It is meant to be held against the document
//! sentence by sentence: the sentences stand in the comments, in quotation marks.
//! It is slow where slow is plainer.
//!
//! `room` is the length of the output that a caller lends: bytes for writing, values for reading. An
//! `Err` is a number of refusal.

/// "The mode is one of plain; sorted, which carries a first number; and strict, which itself carries
/// none or a number."
#[derive(Clone, Copy, Debug, PartialEq, Eq)]
pub enum Mode {
    Plain,
    Sorted(u32),
    Strict(Option<u32>),
}

// "Numbers of refusal"
const BAD_LANES: u32 = 1;
const BAD_WIDTH: u32 = 2;
const BAD_BLOCK: u32 = 3;
const NO_ROOM: u32 = 4;
const CUT_SHORT: u32 = 5;
const TOO_WIDE: u32 = 6;
const TOO_MANY: u32 = 7;
const OUT_OF_ORDER: u32 = 8;
const NOT_LEAST: u32 = 9;
const BAD_FILL: u32 = 10;
const LEFT_OVER: u32 = 11;
const BAD_HEADER: u32 = 12;

/// "A list has 0 to 4,096 values."
const MOST_VALUES: usize = 4_096;

/// "None stands for 4,294,967,295"
const NONE_STANDS_FOR: u32 = 4_294_967_295;

/// A refusal with this number, when it applies.
fn refuse_if(applies: bool, number: u32) -> Result<(), u32> {
    if applies {
        Err(number)
    } else {
        Ok(())
    }
}

// ---------------------------------------------------------------- Words

/// "L is the number of lanes: 1, 4 or 8."
fn lanes_are_known(lanes: usize) -> bool {
    lanes == 1 || lanes == 4 || lanes == 8
}

/// "A block has B = 32L values: 32, 128 or 256." Only for known lanes.
fn block_length(lanes: usize) -> usize {
    32 * lanes
}

/// "A payload has 4Ln bytes." Only for known lanes and widths up to 32.
fn payload_length(lanes: usize, width: u32) -> usize {
    4 * lanes * width as usize
}

// -------------------------------------------------------------- Entries

/// "All differences and sums are taken modulo 4,294,967,296."
fn modulo(number: i64) -> u32 {
    number.rem_euclid(4_294_967_296) as u32
}

/// "The previous value of the first is the first number." Plain has none and asks for none.
fn first_number(mode: Mode) -> u32 {
    match mode {
        Mode::Plain => 0,
        Mode::Sorted(first) => first,
        Mode::Strict(Some(first)) => first,
        Mode::Strict(None) => NONE_STANDS_FOR,
    }
}

/// "plain: entry = value. sorted: entry = value minus previous value. strict: entry = value minus
/// previous value minus 1."
fn entry(mode: Mode, previous: u32, value: u32) -> u32 {
    match mode {
        Mode::Plain => value,
        Mode::Sorted(_) => modulo(i64::from(value) - i64::from(previous)),
        Mode::Strict(_) => modulo(i64::from(value) - i64::from(previous) - 1),
    }
}

/// "Unpacking runs the same steps backward."
fn value(mode: Mode, previous: u32, entry: u32) -> u32 {
    match mode {
        Mode::Plain => entry,
        Mode::Sorted(_) => modulo(i64::from(previous) + i64::from(entry)),
        Mode::Strict(_) => modulo(i64::from(previous) + i64::from(entry) + 1),
    }
}

/// The entries of values that stand behind `previous`.
fn entries_of(mode: Mode, mut previous: u32, values: &[u32]) -> Vec<u32> {
    let mut entries = Vec::new();
    for &value in values {
        entries.push(entry(mode, previous, value));
        previous = value;
    }
    entries
}

/// The values of entries that stand behind `previous`.
fn values_of(mode: Mode, mut previous: u32, entries: &[u32]) -> Vec<u32> {
    let mut values = Vec::new();
    for &entry in entries {
        previous = value(mode, previous, entry);
        values.push(previous);
    }
    values
}

/// "A block fits n when every entry is below 2 to the power n."
fn fits(entries: &[u32], width: u32) -> bool {
    entries.iter().all(|&entry| u64::from(entry) < 1 << width)
}

/// "Least width is the least n that the block fits". Where the greatest entry fits, every entry does.
fn least(entries: &[u32]) -> u32 {
    let mut greatest = 0;
    for &entry in entries {
        if entry > greatest {
            greatest = entry;
        }
    }
    let mut width = 0;
    while !fits(&[greatest], width) {
        width += 1;
    }
    width
}

// ----------------------------------------------------------- Bit layout

/// So many bits of a row, which stand next to each other in this word of the payload, from this bit of
/// it on.
struct Piece {
    many: usize,
    word: usize,
    bit: usize,
}

/// Where the bits of entry k from bit j on go, as far as they go into one word.
///
/// "Entry k is in lane k mod L and row k div L. (...) Each lane is a string of 32n bits in n words. Bit
/// j of row r is bit p = rn + j of its lane: word p div 32, bit p mod 32 of that word, bit 0 lowest.
/// Word w of lane l starts at byte 4(wL + l)": it is word wL + l of the payload.
fn piece(lanes: usize, n: usize, k: usize, j: usize) -> Piece {
    let l = k % lanes;
    let r = k / lanes;
    let p = r * n + j;
    let w = p / 32;
    let left_in_row = n - j;
    let left_in_word = 32 - p % 32;
    Piece { many: left_in_row.min(left_in_word), word: w * lanes + l, bit: p % 32 }
}

/// The lowest `many` bits of a number, 1 to 32 of them.
fn lowest_bits(number: u32, many: usize) -> u32 {
    number & (u32::MAX >> (32 - many))
}

/// The payload of a block that fits. "lowest byte first."
fn lay_out(lanes: usize, entries: &[u32], width: u32) -> Vec<u8> {
    let n = width as usize;
    let mut words = vec![0; lanes * n];
    for (k, &entry) in entries.iter().enumerate() {
        let mut j = 0;
        while j < n {
            let piece = piece(lanes, n, k, j);
            words[piece.word] |= lowest_bits(entry >> j, piece.many) << piece.bit;
            j += piece.many;
        }
    }
    let mut payload = Vec::new();
    for word in words {
        payload.extend_from_slice(&u32::to_le_bytes(word));
    }
    payload
}

/// The entries of the block that has this payload.
fn take_up(lanes: usize, payload: &[u8], width: u32) -> Vec<u32> {
    let n = width as usize;
    let mut words = Vec::new();
    for four in payload.chunks_exact(4) {
        words.push(u32::from_le_bytes([four[0], four[1], four[2], four[3]]));
    }
    let mut entries = vec![0; block_length(lanes)];
    for (k, entry) in entries.iter_mut().enumerate() {
        let mut j = 0;
        while j < n {
            let piece = piece(lanes, n, k, j);
            *entry |= lowest_bits(words[piece.word] >> piece.bit, piece.many) << j;
            j += piece.many;
        }
    }
    entries
}

// ---------------------------------------------------------- Block calls

/// "Payload size: 1, 2."
pub fn payload_size(lanes: usize, width: u32) -> Result<usize, u32> {
    refuse_if(!lanes_are_known(lanes), BAD_LANES)?;
    refuse_if(width > 32, BAD_WIDTH)?;
    Ok(payload_length(lanes, width))
}

/// "Pack takes exactly B values and at least 4Ln bytes of output, writes the first 4Ln and answers 4Ln."
/// "Pack: 1, 2, 3, 4, 6."
pub fn pack(lanes: usize, mode: Mode, values: &[u32], room: usize, width: u32) -> Result<Vec<u8>, u32> {
    refuse_if(!lanes_are_known(lanes), BAD_LANES)?;
    refuse_if(width > 32, BAD_WIDTH)?;
    refuse_if(values.len() != block_length(lanes), BAD_BLOCK)?;
    refuse_if(room < payload_length(lanes, width), NO_ROOM)?;
    let entries = entries_of(mode, first_number(mode), values);
    refuse_if(!fits(&entries, width), TOO_WIDE)?;
    Ok(lay_out(lanes, &entries, width))
}

/// "Unpack takes at least 4Ln bytes and room for at least B values, writes the first B and answers 4Ln."
/// "Unpack: 1, 2, 4, 5."
pub fn unpack(lanes: usize, mode: Mode, bytes: &[u8], room: usize, width: u32) -> Result<Vec<u32>, u32> {
    refuse_if(!lanes_are_known(lanes), BAD_LANES)?;
    refuse_if(width > 32, BAD_WIDTH)?;
    refuse_if(room < block_length(lanes), NO_ROOM)?;
    refuse_if(bytes.len() < payload_length(lanes, width), CUT_SHORT)?;
    let payload = &bytes[..payload_length(lanes, width)];
    let entries = take_up(lanes, payload, width);
    Ok(values_of(mode, first_number(mode), &entries))
}

/// "Width: 1, 3."
pub fn least_width(lanes: usize, mode: Mode, values: &[u32]) -> Result<u32, u32> {
    refuse_if(!lanes_are_known(lanes), BAD_LANES)?;
    refuse_if(values.len() != block_length(lanes), BAD_BLOCK)?;
    Ok(least(&entries_of(mode, first_number(mode), values)))
}

// ---------------------------------------------------------------- Lists

/// Whether a value may stand behind `before`; `before` is `None` for the first of the list.
///
/// "In sorted mode each is at least the one before, in strict mode greater; the first is measured
/// against the first number. Strict with none, and strict with 4,294,967,295, put no bound on the first.
/// Plain has no order. The order is in whole numbers, without wrap."
fn may_follow(mode: Mode, before: Option<u32>, value: u32) -> bool {
    match (mode, before) {
        (Mode::Plain, _) => true,
        (Mode::Sorted(first), None) => value >= first,
        (Mode::Sorted(_), Some(before)) => value >= before,
        (Mode::Strict(None | Some(NONE_STANDS_FOR)), None) => true,
        (Mode::Strict(Some(first)), None) => value > first,
        (Mode::Strict(_), Some(before)) => value > before,
    }
}

/// Whether all of `values`, the first of them behind `before`, are in order.
fn in_order(mode: Mode, mut before: Option<u32>, values: &[u32]) -> bool {
    for &value in values {
        if !may_follow(mode, before, value) {
            return false;
        }
        before = Some(value);
    }
    true
}

/// "A body holds ceil(count / B) blocks one after another. Each is one byte, the least width of that
/// block, then its payload. The previous value of a block's first is the last value of the block before.
/// The last block is filled up with entries of 0." "Write a list: 1, 7, 8, 4."
pub fn write_list(lanes: usize, mode: Mode, values: &[u32], room: usize) -> Result<Vec<u8>, u32> {
    refuse_if(!lanes_are_known(lanes), BAD_LANES)?;
    refuse_if(values.len() > MOST_VALUES, TOO_MANY)?;
    refuse_if(!in_order(mode, None, values), OUT_OF_ORDER)?;
    let mut body = Vec::new();
    let mut previous = first_number(mode);
    for block in values.chunks(block_length(lanes)) {
        let mut entries = entries_of(mode, previous, block);
        entries.resize(block_length(lanes), 0);
        let width = least(&entries);
        body.push(width as u8);
        body.extend(lay_out(lanes, &entries, width));
        previous = block[block.len() - 1];
    }
    refuse_if(room < body.len(), NO_ROOM)?;
    Ok(body)
}

/// "Read a list: 1, 7, 4; then block by block 5 (no width byte), 2, 5, 10, 9, 8; at the end 11."
pub fn read_list(lanes: usize, mode: Mode, count: usize, body: &[u8], room: usize) -> Result<Vec<u32>, u32> {
    refuse_if(!lanes_are_known(lanes), BAD_LANES)?;
    refuse_if(count > MOST_VALUES, TOO_MANY)?;
    refuse_if(room < count, NO_ROOM)?;
    let mut values: Vec<u32> = Vec::new();
    let mut rest = body;
    while values.len() < count {
        let before = values.last().copied();
        let wanted = count - values.len();
        let (block, behind) = read_block(lanes, mode, before, wanted, rest)?;
        values.extend(block);
        rest = behind;
    }
    refuse_if(!rest.is_empty(), LEFT_OVER)?;
    Ok(values)
}

/// The list's values in the block at the front of `rest`, and the bytes behind that block. `before` is
/// the last value of the block before, `None` at the first block; `wanted` is how many values of the
/// list are still to come.
fn read_block(
    lanes: usize,
    mode: Mode,
    before: Option<u32>,
    wanted: usize,
    rest: &[u8],
) -> Result<(Vec<u32>, &[u8]), u32> {
    refuse_if(rest.is_empty(), CUT_SHORT)?;
    let width = u32::from(rest[0]);
    let rest = &rest[1..];
    refuse_if(width > 32, BAD_WIDTH)?;
    refuse_if(rest.len() < payload_length(lanes, width), CUT_SHORT)?;
    let (payload, behind) = rest.split_at(payload_length(lanes, width));
    let entries = take_up(lanes, payload, width);
    let (real, filling) = entries.split_at(wanted.min(entries.len()));
    refuse_if(filling.iter().any(|&entry| entry != 0), BAD_FILL)?;
    refuse_if(least(&entries) != width, NOT_LEAST)?;
    // "The values that filling stands for are not part of the list and are not tested for order."
    let values = values_of(mode, before.unwrap_or(first_number(mode)), real);
    refuse_if(!in_order(mode, before, &values), OUT_OF_ORDER)?;
    Ok((values, behind))
}

// ------------------------------------------------------------ List file

/// What the five lines say.
#[derive(Clone, Copy, Debug, PartialEq, Eq)]
pub struct Header {
    pub lanes: u32,
    pub mode: Mode,
    pub count: u32,
    pub bytes: u32,
}

/// The header of a file and where its body starts. "header is not as above, or `bytes` is not the body's
/// length" is 12.
pub fn header(file: &[u8]) -> Result<(Header, usize), u32> {
    sound_header(file).ok_or(BAD_HEADER)
}

/// "Five lines, then an empty line, then the body. (...) Order: `lanes=` 1, 4 or 8; `mode=` plain,
/// sorted or strict; `first=`; `count=`; `bytes=`, the body's length."
fn sound_header(file: &[u8]) -> Option<(Header, usize)> {
    let (lanes, rest) = named_line(file, b"lanes=")?;
    let (mode, rest) = named_line(rest, b"mode=")?;
    let (first, rest) = named_line(rest, b"first=")?;
    let (count, rest) = named_line(rest, b"count=")?;
    let (bytes, rest) = named_line(rest, b"bytes=")?;
    let (empty, body) = line(rest)?;
    let header = Header {
        lanes: number(lanes)?,
        mode: mode_and_first(mode, first)?,
        count: number(count)?,
        bytes: number(bytes)?,
    };
    let sound =
        empty.is_empty() && lanes_are_known(header.lanes as usize) && header.bytes as usize == body.len();
    sound.then_some((header, file.len() - body.len()))
}

/// "Each line ends in byte 10." The first line without that byte, and what stands behind it.
fn line(text: &[u8]) -> Option<(&[u8], &[u8])> {
    let end = text.iter().position(|&byte| byte == 10)?;
    Some((&text[..end], &text[end + 1..]))
}

/// What the first line says behind its name, and what stands behind the line.
fn named_line<'a>(text: &'a [u8], name: &[u8]) -> Option<(&'a [u8], &'a [u8])> {
    let (line, rest) = line(text)?;
    Some((line.strip_prefix(name)?, rest))
}

/// "Numbers are decimal, at most 4,294,967,295, without leading zeros."
fn number(text: &[u8]) -> Option<u32> {
    if text.is_empty() || (text.len() > 1 && text[0] == b'0') {
        return None;
    }
    let mut number: u64 = 0;
    for &digit in text {
        if !digit.is_ascii_digit() {
            return None;
        }
        number = 10 * number + u64::from(digit - b'0');
        if number > 4_294_967_295 {
            return None;
        }
    }
    Some(number as u32)
}

/// "`first` is `none` for plain, a number for sorted, and `none` or a number up to 4,294,967,294 for
/// strict"
fn mode_and_first(mode: &[u8], first: &[u8]) -> Option<Mode> {
    match (mode, first) {
        (b"plain", b"none") => Some(Mode::Plain),
        (b"sorted", first) => Some(Mode::Sorted(number(first)?)),
        (b"strict", b"none") => Some(Mode::Strict(None)),
        (b"strict", first) => {
            let first = number(first)?;
            (first <= 4_294_967_294).then_some(Mode::Strict(Some(first)))
        }
        _ => None,
    }
}

/// "Read a file: 12, then as a list."
pub fn read_file(file: &[u8], room: usize) -> Result<Vec<u32>, u32> {
    let (header, start) = header(file)?;
    let lanes = header.lanes as usize;
    let count = header.count as usize;
    read_list(lanes, header.mode, count, &file[start..], room)
}

/// "Write a file: 1, 7, 8, 4, with room for header and body."
pub fn write_file(lanes: usize, mode: Mode, values: &[u32], room: usize) -> Result<Vec<u8>, u32> {
    let body = write_list(lanes, mode, values, usize::MAX)?;
    let (mode, first) = mode_and_first_text(mode);
    let count = values.len();
    let bytes = body.len();
    let lines = format!("lanes={lanes}\nmode={mode}\nfirst={first}\ncount={count}\nbytes={bytes}\n\n");
    let mut file = lines.into_bytes();
    file.extend(body);
    refuse_if(room < file.len(), NO_ROOM)?;
    Ok(file)
}

/// "strict with 4,294,967,295 is written `none`"
fn mode_and_first_text(mode: Mode) -> (&'static str, String) {
    let none = "none".to_string();
    match mode {
        Mode::Plain => ("plain", none),
        Mode::Sorted(first) => ("sorted", first.to_string()),
        Mode::Strict(None | Some(NONE_STANDS_FOR)) => ("strict", none),
        Mode::Strict(Some(first)) => ("strict", first.to_string()),
    }
}
