//! The library's answers and outputs beside those of document 01.

use crate::document01::Mode;
use crate::lent::Lent;
use crate::tally::Tally;
use sisalshed::Refusal;
use std::fmt::Debug;

/// The same mode in the library's type.
pub fn library_mode(mode: Mode) -> sisalshed::Mode {
    match mode {
        Mode::Plain => sisalshed::Mode::Plain,
        Mode::Sorted(first) => sisalshed::Mode::Sorted(first),
        Mode::Strict(first) => sisalshed::Mode::Strict(first),
    }
}

/// The document's number for the library's name, which the library must give too.
fn number_of(refusal: Refusal) -> u32 {
    let number = match refusal {
        Refusal::BadLanes => 1,
        Refusal::BadWidth => 2,
        Refusal::BadBlock => 3,
        Refusal::NoRoom => 4,
        Refusal::CutShort => 5,
        Refusal::TooWide => 6,
        Refusal::TooMany => 7,
        Refusal::OutOfOrder => 8,
        Refusal::NotLeast => 9,
        Refusal::BadFill => 10,
        Refusal::LeftOver => 11,
        Refusal::BadHeader => 12,
    };
    assert_eq!(refusal.number(), number, "{refusal:?}");
    number
}

/// Compares two answers without an output, and counts the answer.
pub fn same_answer<T: PartialEq + Debug>(
    tally: &mut Tally,
    case: &dyn Debug,
    expected: Result<T, u32>,
    answer: Result<T, Refusal>,
) {
    let answer = answer.map_err(number_of);
    assert_eq!(answer, expected, "{case:?}");
    tally.add(answer.err().unwrap_or(0));
}

/// Compares the answer and the whole output of a call, and counts the answer. An accepted call must
/// answer `length`.
pub fn same_output<T: PartialEq + Debug>(
    tally: &mut Tally,
    case: &dyn Debug,
    expected: &Result<Vec<T>, u32>,
    length: usize,
    answer: Result<usize, Refusal>,
    lent: &Lent<T>,
) {
    let front: &[T] = match expected {
        Ok(front) => front,
        Err(_) => &[],
    };
    let expected_answer = match expected {
        Ok(_) => Ok(length),
        Err(number) => Err(*number),
    };
    same_answer(tally, case, expected_answer, answer);
    let (now, past) = lent.now.split_at(front.len());
    assert!(now == front, "content of the output: {case:?}");
    assert!(past == &lent.marks[front.len()..], "memory past the output: {case:?}");
}
