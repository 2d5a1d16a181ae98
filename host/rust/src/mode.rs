//! The mode, which crosses to the library as two numbers.

/// How values become entries, and the order that a list's values have.
#[derive(Clone, Copy, Debug, PartialEq, Eq, Hash)]
pub enum Mode {
    /// Each value as it is; a list in no order.
    Plain,
    /// Differences from the value before; a list whose values are each at least the one before, the first at least this number.
    Sorted(u32),
    /// Differences less one; a list whose values are each greater than the one before, the first greater than this number. `None`
    /// and 4,294,967,295 put no bound on the first.
    Strict(Option<u32>),
}

impl Mode {
    pub(crate) const fn kind(self) -> u32 {
        match self {
            Mode::Plain => 0,
            Mode::Sorted(_) => 1,
            Mode::Strict(None) => 2,
            Mode::Strict(Some(_)) => 3,
        }
    }

    /// The number that the mode carries; 0, which the library ignores, where it carries none.
    pub(crate) const fn first(self) -> u32 {
        match self {
            Mode::Plain | Mode::Strict(None) => 0,
            Mode::Sorted(first) | Mode::Strict(Some(first)) => first,
        }
    }

    /// The library gives no kind but 0 to 3.
    pub(crate) const fn of(kind: u32, first: u32) -> Mode {
        match kind {
            0 => Mode::Plain,
            1 => Mode::Sorted(first),
            2 => Mode::Strict(None),
            _ => Mode::Strict(Some(first)),
        }
    }
}
