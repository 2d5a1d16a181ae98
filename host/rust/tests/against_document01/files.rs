//! List files: writing them, and their header, body and values, sound and damaged.

use crate::compare::{library_mode, same_answer, same_output};
use crate::damaged_file::some_file;
use crate::dice::Dice;
use crate::document01::{self as model, Mode};
use crate::input::some_list;
use crate::lent::{lent_bytes, lent_values, needed_room, some_room, Sound};
use crate::tally::{report, Tally};
use std::fmt::{self, Debug, Formatter};

#[derive(Default)]
struct FileTallies {
    header: Tally,
    body: Tally,
    read: Tally,
}

fn compare_write_file(
    dice: &mut Dice,
    tally: &mut Tally,
    lanes: usize,
    mode: Mode,
    list: &[u32],
    sound: &Sound,
) {
    let needed = needed_room(sound);
    let room = some_room(dice, needed);
    let mut lent = lent_bytes(dice, room);
    let expected = model::write_file(lanes, mode, list, room);
    let answer = sisalshed::write_file(lanes, library_mode(mode), list, &mut lent.now);
    let case = ("write a file", lanes, mode, room, list);
    same_output(tally, &case, &expected, needed, answer, &lent);
}

/// A file's bytes, as text in the message of a failure.
struct Shown<'a>(&'a [u8]);

impl Debug for Shown<'_> {
    fn fmt(&self, message: &mut Formatter<'_>) -> fmt::Result {
        write!(message, "{}", self.0.escape_ascii())
    }
}

fn compare_header(tally: &mut Tally, file: &[u8]) {
    let expected = model::header(file).map(|(header, _)| sisalshed::Header {
        lanes: header.lanes,
        mode: library_mode(header.mode),
        count: header.count,
        bytes: header.bytes,
    });
    let answer = sisalshed::header(file);
    same_answer(tally, &("header", Shown(file)), expected, answer);
}

/// The body must be the tail of the file's own memory, not a copy of it.
fn compare_body(tally: &mut Tally, file: &[u8]) {
    let expected = model::header(file).map(|(_, start)| &file[start..]);
    let answer = sisalshed::body(file);
    if let (Ok(expected), Ok(answer)) = (expected, answer) {
        assert!(expected.as_ptr() == answer.as_ptr(), "{:?}", Shown(file));
    }
    same_answer(tally, &("body", Shown(file)), expected, answer);
}

fn compare_read_file(dice: &mut Dice, tally: &mut Tally, file: &[u8]) {
    let count = model::header(file).map_or(20, |(header, _)| header.count as usize);
    let room = some_room(dice, count.min(6_000));
    let mut lent = lent_values(dice, room);
    let expected = model::read_file(file, room);
    let answer = sisalshed::read_file(file, &mut lent.now);
    let case = ("read a file", room, Shown(file));
    same_output(tally, &case, &expected, count, answer, &lent);
}

fn compare_opening(dice: &mut Dice, tallies: &mut FileTallies, file: &[u8]) {
    compare_header(&mut tallies.header, file);
    compare_body(&mut tallies.body, file);
    compare_read_file(dice, &mut tallies.read, file);
}

#[test]
fn files_agree() {
    let mut dice = Dice::new(4);
    let mut write = Tally::default();
    let mut opened = FileTallies::default();
    for _ in 0..3_500 {
        let (lanes, mode, list) = some_list(&mut dice);
        let sound = model::write_file(lanes, mode, &list, usize::MAX);
        compare_write_file(&mut dice, &mut write, lanes, mode, &list, &sound);
        if let Ok(file) = sound {
            let again = model::read_file(&file, list.len());
            assert_eq!(again.as_ref(), Ok(&list));
            compare_opening(&mut dice, &mut opened, &file);
        }
    }
    let FileTallies { header, body, read } = &opened;
    report("files_agree", "calls compared", &[&write, header, body, read]);
    write.reaches("write a file", &[0, 1, 4, 7, 8], 50);
    header.reaches("header", &[0], 1_000);
    body.reaches("body", &[0], 1_000);
    read.reaches("read a file", &[0, 4], 50);
}

#[test]
fn damaged_files_agree() {
    let mut dice = Dice::new(5);
    let mut opened = FileTallies::default();
    for _ in 0..8_000 {
        let file = some_file(&mut dice);
        compare_opening(&mut dice, &mut opened, &file);
    }
    let FileTallies { header, body, read } = &opened;
    report("damaged_files_agree", "calls compared", &[header, body, read]);
    header.reaches("header", &[0, 12], 1_000);
    body.reaches("body", &[0, 12], 1_000);
    let answers = [0, 2, 4, 5, 7, 8, 9, 10, 11, 12];
    read.reaches("read a damaged file", &answers, 50);
}
