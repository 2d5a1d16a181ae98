//! Lists: measuring and writing them, and reading bodies, sound and damaged.

use crate::body::{body_of_blocks, Slips};
use crate::compare::{library_mode, same_answer, same_output};
use crate::damaged_body::{some_body, told_count, told_lanes, told_mode};
use crate::dice::Dice;
use crate::document01::{self as model, Mode};
use crate::input::{some_list, some_mode, GOOD_LANES};
use crate::lent::{lent_bytes, lent_values, needed_room, some_room, Sound};
use crate::tally::{report, Tally};

fn compare_measure(tally: &mut Tally, lanes: usize, mode: Mode, list: &[u32], sound: &Sound) {
    same_answer(
        tally,
        &("measure", lanes, mode, list),
        sound.as_ref().map(|body| body.len()).map_err(|&number| number),
        sisalshed::measure_list(lanes, library_mode(mode), list),
    );
}

fn compare_write_list(
    dice: &mut Dice,
    tally: &mut Tally,
    lanes: usize,
    mode: Mode,
    list: &[u32],
    sound: &Sound,
) {
    let needed = needed_room(sound);
    let room = some_room(dice, needed);
    let mut lent = lent_bytes(dice, room);
    let expected = model::write_list(lanes, mode, list, room);
    let answer = sisalshed::write_list(lanes, library_mode(mode), list, &mut lent.now);
    let case = ("write a list", lanes, mode, room, list);
    same_output(tally, &case, &expected, needed, answer, &lent);
}

fn compare_read_list(
    dice: &mut Dice,
    tally: &mut Tally,
    lanes: usize,
    mode: Mode,
    count: usize,
    body: &[u8],
) {
    let room = some_room(dice, count.min(6_000));
    let mut lent = lent_values(dice, room);
    let expected = model::read_list(lanes, mode, count, body, room);
    let answer = sisalshed::read_list(lanes, library_mode(mode), count, body, &mut lent.now);
    let case = ("read a list", lanes, mode, count, room, body);
    same_output(tally, &case, &expected, count, answer, &lent);
}

#[test]
fn lists_agree() {
    let mut dice = Dice::new(2);
    let mut measure = Tally::default();
    let mut write = Tally::default();
    let mut read = Tally::default();
    for _ in 0..3_500 {
        let (lanes, mode, list) = some_list(&mut dice);
        let sound = model::write_list(lanes, mode, &list, usize::MAX);
        compare_measure(&mut measure, lanes, mode, &list, &sound);
        compare_write_list(&mut dice, &mut write, lanes, mode, &list, &sound);
        if let Ok(body) = sound {
            // The model agrees with itself: blocks make the body, and the body reads as the list.
            let made = body_of_blocks(lanes, mode, &list, Slips::default());
            assert_eq!(made, body);
            let again = model::read_list(lanes, mode, list.len(), &body, list.len());
            assert_eq!(again.as_ref(), Ok(&list));
            compare_read_list(&mut dice, &mut read, lanes, mode, list.len(), &body);
        }
    }
    report("lists_agree", "calls compared", &[&measure, &write, &read]);
    measure.reaches("measure a list", &[0, 1, 7, 8], 50);
    write.reaches("write a list", &[0, 1, 4, 7, 8], 50);
    read.reaches("read a list", &[0, 4], 50);
}

#[test]
fn damaged_bodies_agree() {
    let mut dice = Dice::new(3);
    let mut read = Tally::default();
    for _ in 0..6_000 {
        let lanes = dice.pick(&GOOD_LANES);
        let mode = some_mode(&mut dice);
        let (count, body) = some_body(&mut dice, lanes, mode);
        let count = told_count(&mut dice, lanes, count);
        let mode = told_mode(&mut dice, mode);
        let lanes = told_lanes(&mut dice, lanes);
        compare_read_list(&mut dice, &mut read, lanes, mode, count, &body);
    }
    report("damaged_bodies_agree", "calls compared", &[&read]);
    let answers = [0, 1, 2, 4, 5, 7, 8, 9, 10, 11];
    read.reaches("read a damaged list", &answers, 100);
}
