//! The numbers of refusal.
use core::fmt;

/// Why a call did nothing. The number is document 01's; where a call is refused, memory that it was lent is as it was.
#[derive(Clone, Copy, Debug, PartialEq, Eq, Hash)]
#[repr(u32)]
pub enum Refusal {
    /// Lanes not 1, 4, 8.
    BadLanes = 1,
    /// Width over 32.
    BadWidth = 2,
    /// Values given are not exactly a block.
    BadBlock = 3,
    /// Output shorter than needed.
    NoRoom = 4,
    /// Bytes end before a width or payload does.
    CutShort = 5,
    /// Block does not fit the width.
    TooWide = 6,
    /// Count over 4,096.
    TooMany = 7,
    /// The mode's order is broken.
    OutOfOrder = 8,
    /// Stored width is not the least.
    NotLeast = 9,
    /// A filling entry is not 0.
    BadFill = 10,
    /// Bytes after the last block.
    LeftOver = 11,
    /// The header is not as it must be, or `bytes` is not the body's length.
    BadHeader = 12,
}

impl Refusal {
    /// Every refusal, by its number.
    pub const ALL: [Refusal; 12] = [
        Refusal::BadLanes,
        Refusal::BadWidth,
        Refusal::BadBlock,
        Refusal::NoRoom,
        Refusal::CutShort,
        Refusal::TooWide,
        Refusal::TooMany,
        Refusal::OutOfOrder,
        Refusal::NotLeast,
        Refusal::BadFill,
        Refusal::LeftOver,
        Refusal::BadHeader,
    ];

    /// The number, 1 to 12.
    ///
    /// ```
    /// assert_eq!(sisalshed::Refusal::BadHeader.number(), 12);
    /// ```
    pub const fn number(self) -> u32 {
        self as u32
    }

    /// What it means, in a few words.
    pub const fn meaning(self) -> &'static str {
        match self {
            Refusal::BadLanes => "lanes not 1, 4, 8",
            Refusal::BadWidth => "width over 32",
            Refusal::BadBlock => "values given are not exactly a block",
            Refusal::NoRoom => "output shorter than needed",
            Refusal::CutShort => "bytes end before a width or payload does",
            Refusal::TooWide => "block does not fit the width",
            Refusal::TooMany => "count over 4,096",
            Refusal::OutOfOrder => "the mode's order is broken",
            Refusal::NotLeast => "stored width is not the least",
            Refusal::BadFill => "a filling entry is not 0",
            Refusal::LeftOver => "bytes after the last block",
            Refusal::BadHeader => "header is not as it must be, or its bytes are not the body's length",
        }
    }

    /// None for 0, the number of what is not refused. The library gives no number but these.
    pub(crate) fn of(number: u32) -> Option<Refusal> {
        match number {
            0 => None,
            known => Some(Refusal::ALL[known as usize - 1]),
        }
    }
}

impl fmt::Display for Refusal {
    fn fmt(&self, f: &mut fmt::Formatter<'_>) -> fmt::Result {
        write!(f, "refused={} ({})", self.number(), self.meaning())
    }
}

impl core::error::Error for Refusal {}
