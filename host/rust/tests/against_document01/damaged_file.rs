//! Damaging files: what their header says, how it is written, and their bytes.

use crate::body::{body_of_blocks, Slips};
use crate::damaged_body::some_body;
use crate::dice::Dice;
use crate::document01::Mode;
use crate::input::{ordered_list, small_count, some_mode, GOOD_LANES};

/// A file in parts: the lines of its header without their byte 10, the empty one too, and the body.
struct Parts {
    lines: Vec<Vec<u8>>,
    body: Vec<u8>,
}

const LANES: usize = 0;
const MODE: usize = 1;
const FIRST: usize = 2;
const COUNT: usize = 3;
const BYTES: usize = 4;
const EMPTY: usize = 5;

const NAMES: [&str; 5] = ["lanes", "mode", "first", "count", "bytes"];

impl Parts {
    fn new(lanes: usize, mode: Mode, count: usize, body: Vec<u8>) -> Parts {
        let (mode, first) = match mode {
            Mode::Plain => ("plain", "none".to_string()),
            Mode::Sorted(first) => ("sorted", first.to_string()),
            Mode::Strict(None | Some(u32::MAX)) => ("strict", "none".to_string()),
            Mode::Strict(Some(first)) => ("strict", first.to_string()),
        };
        let mut parts = Parts { lines: vec![Vec::new(); 6], body };
        parts.say(LANES, &lanes.to_string());
        parts.say(MODE, mode);
        parts.say(FIRST, &first);
        parts.say(COUNT, &count.to_string());
        parts.say_bytes();
        parts
    }

    /// Lets one of the five lines say this behind its name.
    fn say(&mut self, line: usize, text: &str) {
        self.lines[line] = format!("{}={text}", NAMES[line]).into_bytes();
    }

    /// Lets the last of the five lines agree with the body.
    fn say_bytes(&mut self) {
        let bytes = self.body.len().to_string();
        self.say(BYTES, &bytes);
    }

    fn header(&self) -> Vec<u8> {
        let mut header = Vec::new();
        for line in &self.lines {
            header.extend(line);
            header.push(10);
        }
        header
    }

    fn file(&self) -> Vec<u8> {
        let mut file = self.header();
        file.extend(&self.body);
        file
    }
}

/// Words that a line of the header may say rightly, wrongly or nearly rightly.
fn some_word(dice: &mut Dice) -> String {
    let words = [
        "0",
        "1",
        "2",
        "3",
        "4",
        "5",
        "8",
        "9",
        "10",
        "16",
        "32",
        "33",
        "4095",
        "4096",
        "4097",
        "65536",
        "2147483648",
        "4294967286",
        "4294967294",
        "4294967295",
        "4294967296",
        "4294967297",
        "4294967300",
        "9999999999",
        "42949672950",
        "99999999999",
        "18446744073709551616",
        "18446744073709551617",
        "00",
        "01",
        "04",
        "-1",
        "-0",
        "+4",
        "1_0",
        "1,000",
        "0x4",
        "4.0",
        "1e1",
        "",
        " ",
        "none",
        "None",
        "non",
        "nones",
        "plain",
        "sorted",
        "strict",
        "Plain",
        "STRICT",
        "plain ",
        "sorte",
        "stricter",
    ];
    match dice.below(4) {
        0 => dice.number().to_string(),
        _ => dice.pick(&words).to_string(),
    }
}

/// Puts a number of a line, or a body, out of agreement with the rest.
fn damage_meaning(dice: &mut Dice, lanes: usize, parts: &mut Parts) {
    match dice.below(7) {
        0 => {
            let line = dice.below(5);
            let word = some_word(dice);
            parts.say(line, &word);
        }
        1 => {
            let word = dice.pick(&["0", "1", "2", "3", "4", "5", "7", "8", "9", "12", "44"]);
            parts.say(LANES, word);
        }
        2 => {
            let mode = dice.pick(&["plain", "sorted", "strict"]);
            parts.say(MODE, mode);
            if dice.once_in(2) {
                let word = some_word(dice);
                parts.say(FIRST, &word);
            }
        }
        3 => {
            let near = ["none", "4294967293", "4294967294", "4294967295", "4294967296", "0", ""];
            let word = dice.pick(&near);
            parts.say(FIRST, word);
        }
        4 => {
            let block = 32 * lanes as i64;
            let change = dice.pick(&[1, -1, block, -block, 4_096]);
            let count: i64 = text_of(&parts.lines[COUNT][6..]).parse().unwrap();
            parts.say(COUNT, &(count + change).max(0).to_string());
        }
        5 => {
            let change = dice.pick(&[1, -1, 256, 1 << 32]);
            let bytes = (parts.body.len() as i64 + change).max(0);
            parts.say(BYTES, &bytes.to_string());
        }
        _ => {
            let word = dice.pick(&["0", "4095", "4096", "4097", "8192", "4294967295"]);
            parts.say(COUNT, word);
        }
    }
}

fn text_of(bytes: &[u8]) -> &str {
    std::str::from_utf8(bytes).unwrap()
}

/// Changes how the lines are written, and not what they say.
fn damage_form(dice: &mut Dice, parts: &mut Parts) {
    let line = dice.below(5);
    let value = NAMES[line].len() + 1;
    let end = parts.lines[line].len();
    match dice.below(12) {
        0 => {
            let other = dice.below(6);
            parts.lines.swap(line, other);
        }
        1 => parts.lines[line].push(13),
        2 => parts.lines[EMPTY].push(13),
        3 => parts.lines.iter_mut().for_each(|line| line.push(13)),
        4 => {
            for _ in 0..dice.pick(&[1, 1, 2, 12]) {
                parts.lines[line].insert(value, b'0');
            }
        }
        5 => parts.lines[line].insert(value, dice.pick(b"+-")),
        6 => {
            let at = dice.pick(&[0, value - 1, value, end]);
            parts.lines[line].insert(at, dice.pick(b" \t\0"));
        }
        7 => {
            // Without its empty line; a body that starts with byte 10 could stand in for it, and then
            // `bytes` is wrong.
            parts.lines.truncate(EMPTY);
            if dice.once_in(3) {
                parts.body.insert(0, 10);
            }
        }
        8 => {
            let copy = parts.lines[line].clone();
            let at = dice.below(6);
            parts.lines.insert(at, copy);
        }
        9 => {
            parts.lines.remove(line);
        }
        10 => {
            let at = dice.below(7);
            parts.lines.insert(at, Vec::new());
        }
        _ => {
            let name = dice.below(value - 1);
            parts.lines[line][name] = parts.lines[line][name].to_ascii_uppercase();
        }
    }
}

/// Changes bytes of the header, wherever they stand.
fn damage_header_bytes(dice: &mut Dice, parts: &Parts) -> Vec<u8> {
    let mut header = parts.header();
    let at = dice.below(header.len());
    match dice.below(7) {
        0 => header[at] = dice.byte(),
        1 => header[at] = dice.pick(b"0123456789=+-\n\r \0aelnps"),
        2 => header[at] ^= 1 << dice.below(8),
        3 => {
            header.remove(at);
        }
        4 => header.insert(at, header[at]),
        5 => header.insert(at, dice.pick(b"0123456789=+-\n\r \0")),
        _ => {
            let other = dice.below(header.len());
            header.swap(at, other);
        }
    }
    header.extend(&parts.body);
    header
}

/// A file that is no file of lists at all, or hardly one.
fn some_rubbish(dice: &mut Dice, sound: &[u8]) -> Vec<u8> {
    match dice.below(5) {
        0 => Vec::new(),
        1 => {
            let length = dice.below(200);
            dice.bytes(length)
        }
        2 => {
            let length = dice.below(60);
            (0..length).map(|_| dice.pick(b"lanes=148\n")).collect()
        }
        3 => vec![10; dice.below(8)],
        _ => {
            // The front of a sound file with random bytes behind.
            let mut file = sound[..dice.below(sound.len())].to_vec();
            let more = dice.below(20);
            file.extend(dice.bytes(more));
            file
        }
    }
}

/// The file cut anywhere, or with a byte too many.
fn cut_or_lengthened(dice: &mut Dice, parts: &Parts) -> Vec<u8> {
    let mut file = parts.file();
    match dice.below(3) {
        0 => file.push(dice.pick(&[0, 10, 13])),
        1 => file.truncate(dice.below(file.len() + 1)),
        _ => file.truncate(dice.below(parts.header().len() + 2)),
    }
    file
}

/// A file with something wrong in it, or now and then nothing. The body's own damage comes with `bytes`
/// in agreement.
pub fn some_file(dice: &mut Dice) -> Vec<u8> {
    let lanes = dice.pick(&GOOD_LANES);
    let mode = some_mode(dice);
    let (count, body) = if dice.once_in(3) {
        let count = small_count(dice, lanes);
        let list = ordered_list(dice, mode, count);
        let body = body_of_blocks(lanes, mode, &list, Slips::default());
        (list.len(), body)
    } else {
        some_body(dice, lanes, mode)
    };
    let mut parts = Parts::new(lanes, mode, count, body);
    match dice.below(16) {
        0..=3 => damage_meaning(dice, lanes, &mut parts),
        4 | 5 => damage_form(dice, &mut parts),
        6 | 7 => return damage_header_bytes(dice, &parts),
        8 => return cut_or_lengthened(dice, &parts),
        9 => return some_rubbish(dice, &parts.file()),
        _ => (),
    }
    parts.file()
}
