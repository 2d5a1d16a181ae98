//! The Rust crate and our library on the same inputs. See oracle/README.md.

mod answers;
mod blocks;
mod case;
mod compare;
mod differences;
mod document;
mod limits;
mod mode;
mod ours;
mod page;
mod random;
mod rust;
mod side;
mod smallest;
mod speed;

use std::process::exit;

fn number(text: Option<&String>, default: u64) -> u64 {
    match text {
        None => default,
        Some(text) => text.parse().expect("a number"),
    }
}

fn compare(seed: u64, size: u64) -> bool {
    println!("seed {seed}, size {size}; the Rust: checked, unchecked, unrolled ({})", rust::processor());
    println!("calls on blocks, each on ours, three builds of the Rust and a model of document 01:");
    let mut compared = compare::Compared::default();
    compared.run(seed, size as usize);
    compared.print();
    let count = format!("{} compared, {} differ", compared.total, compared.differing);
    if let Some(smallest) = compared.smallest() {
        println!("{count}");
        println!("the smallest differing input:");
        smallest::print(&smallest);
        return false;
    }
    println!();
    let limits = limits::run();
    println!();
    let differences = differences::run(seed);
    println!();
    if limits && differences {
        println!("{count}");
        return true;
    }
    println!("{count}, but something above is wrong");
    false
}

fn main() {
    rust::quiet_panics();
    let words: Vec<String> = std::env::args().skip(1).collect();
    let is_good = match words.first().map(String::as_str) {
        Some("compare") => compare(number(words.get(1), 1), number(words.get(2), 100)),
        Some("answers") => answers::write(words.get(1).expect("a file")),
        Some("speed") => speed::run(),
        _ => {
            eprintln!("driver compare [SEED [SIZE]] | driver answers FILE | driver speed");
            exit(2);
        }
    };
    exit(if is_good { 0 } else { 1 });
}
