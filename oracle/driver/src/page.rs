//! A row of docs/DIFFERENCES.md: what the page says of a call, and whether it is so.

use crate::case::{At, Call, Case};
use crate::ours::OURS;
use crate::rust::BUILDS;
use crate::side::{accepted, refused, Said, Side};

/// What the page says of a call.
pub enum Want {
    /// It answers this and writes nothing.
    Answers(usize),
    /// It answers how many bytes these are, and writes them.
    Bytes(Vec<u8>),
    /// It answers the length of a payload, and writes these.
    Values(Vec<u32>),
    /// It answers the length of a payload, and writes so many rows, which have no meaning.
    Meaningless(usize),
    /// It panics with this in the text, after it wrote so many rows.
    Panics(&'static str, usize),
    /// It refuses with this number, and writes nothing.
    Refuses(u32),
    /// It is undefined, and is not run.
    Undefined,
}
use Want::{Answers, Bytes, Meaningless, Panics, Refuses, Undefined, Values};

fn holds(case: &Case, side: &Side, want: &Want) -> bool {
    let seen = case.run(side);
    let wrote = case.written(side);
    let row = match case.call {
        Call::Pack(_) => 4 * case.at.lanes,
        _ => case.at.lanes,
    };
    match want {
        Answers(length) => seen.said == accepted(*length) && wrote == Some(0),
        Bytes(bytes) => {
            seen.said == accepted(bytes.len())
                && wrote == Some(bytes.len())
                && seen.lent_bytes()[..bytes.len()] == bytes[..]
        }
        Values(values) => {
            seen.said == accepted(case.at.payload())
                && wrote == Some(values.len())
                && seen.lent_values()[..values.len()] == values[..]
        }
        Meaningless(rows) => seen.said == accepted(case.at.payload()) && wrote == Some(rows * row),
        Panics(text, rows) => {
            matches!(&seen.said, Said::Panicked(said) if said.contains(text)) && wrote == Some(rows * row)
        }
        Refuses(number) => seen.said == refused(*number) && wrote == Some(0),
        Undefined => seen.said == Said::NotRun,
    }
}

/// What the page says: of the checked build, the unchecked, the unrolled, and of ours.
/// 8 lanes are the unrolled code in every build.
pub type Says<'a> = &'a dyn Fn(&Case) -> [Want; 4];

#[derive(Default)]
pub struct Page {
    pub rows: u64,
    pub inputs: u64,
    /// Rows that are not as the page says.
    pub wrong: u64,
}

impl Page {
    pub fn row(&mut self, text: &str, cases: &[Case], says: Says) {
        let mut wrong = Vec::new();
        for case in cases {
            let wants = says(case);
            for (build, side) in BUILDS.iter().enumerate() {
                let want = if case.at.lanes == 8 { &wants[2] } else { &wants[build] };
                if !holds(case, side, want) {
                    wrong.push((case, side));
                }
            }
            if !holds(case, &OURS, &wants[3]) {
                wrong.push((case, &OURS));
            }
        }
        self.rows += 1;
        self.inputs += cases.len() as u64;
        self.wrong += u64::from(!wrong.is_empty());
        self.print(text, cases.len(), wrong.len());
        for (case, side) in wrong.iter().take(3) {
            let At { lanes, mode, width } = case.at;
            println!("    lanes {lanes}, {mode}, width {width}");
            println!("    {} {}, writes {:?}", side.name, case.run(side).said, case.written(side));
        }
    }

    /// Ours alone: the Rust has no such call.
    pub fn ours_alone(&mut self, text: &str, are_so: &[bool]) {
        let wrong = are_so.iter().filter(|&&is_so| !is_so).count();
        self.rows += 1;
        self.inputs += are_so.len() as u64;
        self.wrong += u64::from(wrong > 0);
        self.print(text, are_so.len(), wrong);
    }

    fn print(&self, text: &str, inputs: usize, wrong: usize) {
        let inputs = if inputs == 1 { "1 input".to_string() } else { format!("{inputs} inputs") };
        println!("  {text}: {inputs}, {wrong} wrong");
    }
}
