//! The mode of a block.

use std::fmt;

#[derive(Clone, Copy, Debug, PartialEq, Eq)]
pub enum Mode {
    Plain,
    Sorted(u32),
    Strict(Option<u32>),
}

/// The modes as the counts name them.
pub const GROUPS: [&str; 5] = ["plain", "sorted", "strict, none", "strict, a number", "strict, 4294967295"];

impl Mode {
    /// The number by which a mode crosses to our library.
    pub fn kind(self) -> u32 {
        match self {
            Mode::Plain => 0,
            Mode::Sorted(_) => 1,
            Mode::Strict(None) => 2,
            Mode::Strict(Some(_)) => 3,
        }
    }

    /// The number that crosses beside the kind; 0 where it is ignored.
    pub fn first(self) -> u32 {
        match self {
            Mode::Plain | Mode::Strict(None) => 0,
            Mode::Sorted(first) | Mode::Strict(Some(first)) => first,
        }
    }

    /// The same mode with another first number.
    pub fn with_first(self, first: u32) -> Mode {
        match self {
            Mode::Sorted(_) => Mode::Sorted(first),
            Mode::Strict(Some(_)) => Mode::Strict(Some(first)),
            other => other,
        }
    }

    /// Its place in `GROUPS`.
    pub fn group(self) -> usize {
        match self {
            Mode::Strict(Some(u32::MAX)) => 4,
            other => other.kind() as usize,
        }
    }
}

impl fmt::Display for Mode {
    fn fmt(&self, f: &mut fmt::Formatter) -> fmt::Result {
        match self {
            Mode::Plain => write!(f, "plain"),
            Mode::Sorted(first) => write!(f, "sorted, first {first}"),
            Mode::Strict(None) => write!(f, "strict, none"),
            Mode::Strict(Some(first)) => write!(f, "strict, first {first}"),
        }
    }
}
