//! Prints one block of a list, whatever its bytes are: for a technician with a list that is refused.
//!
//!     block FILE PLACE LANES MODE FIRST
//!
//! PLACE is where the block's width byte stands in the file, LANES is 1, 4 or 8, MODE is plain, sorted or strict, and FIRST is the
//! value before the block: `none`, or a number. The values follow, one on each line, then the line `next=` and the place behind
//! the block. A block that cannot be read is the line `refused=` and the number.
use sisalshed::{block, decompress, Mode, Refusal, LARGEST_BLOCK};
use std::io::Write;
use std::process::ExitCode;

fn mode(name: &str, first: &str) -> Option<Mode> {
    match (name, first.parse().ok()) {
        ("plain", _) => Some(Mode::Plain),
        ("sorted", Some(first)) => Some(Mode::Sorted(first)),
        ("strict", None) if first == "none" => Some(Mode::Strict(None)),
        ("strict", Some(first)) => Some(Mode::Strict(Some(first))),
        _ => None,
    }
}

/// The values of the block whose width byte stands at `place`, at the front of `values`, and the place behind the block.
fn block_at(
    file: &[u8],
    place: usize,
    lanes: usize,
    mode: Mode,
    values: &mut [u32],
) -> Result<usize, Refusal> {
    let (&width, payload) = file.get(place..).unwrap_or(&[]).split_first().ok_or(Refusal::CutShort)?;
    let size = decompress(lanes, mode, payload, values, width.into())?;
    Ok(place + 1 + size)
}

fn main() -> ExitCode {
    let words: Vec<String> = std::env::args().skip(1).collect();
    let [file, place, lanes, name, first] = &words[..] else {
        eprintln!("usage: block FILE PLACE LANES MODE FIRST");
        return ExitCode::from(2);
    };
    let (Ok(file), Ok(place), Ok(lanes), Some(mode)) =
        (std::fs::read(file), place.parse(), lanes.parse(), mode(name, first))
    else {
        eprintln!("block: the file cannot be read, or a word is not of its form");
        return ExitCode::from(2);
    };
    let mut values = [0; LARGEST_BLOCK];
    let length = block(lanes).unwrap_or(0);
    let (text, status) = match block_at(&file, place, lanes, mode, &mut values) {
        Ok(next) => {
            let lines: String = values[..length].iter().map(|value| format!("{value}\n")).collect();
            (format!("{lines}next={next}\n"), ExitCode::SUCCESS)
        }
        Err(refusal) => (format!("refused={}\n", refusal.number()), ExitCode::FAILURE),
    };
    match std::io::stdout().write_all(text.as_bytes()) {
        Ok(()) => status,
        Err(_) => ExitCode::from(2),
    }
}
