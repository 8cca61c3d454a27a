//! What quality flag 1 says, from the guides' table of block 1, where the bits are numbered 1 (highest) to 8, and from
//! document 02: a flag that calls itself invalid says nothing else.

#[derive(Clone, Copy, Debug, PartialEq, Eq)]
pub enum Mark {
    No,
    Yes,
    NotKnown,
}

/// The marks in the table's order, bit 1 first.
pub const NAMES: [&str; 8] = [
    "invalid",
    "sun",
    "moon",
    "test",
    "manoeuvre",
    "unloading",
    "solar_calibration",
    "eclipse",
];

/// The flag is read off its eight binary digits, which stand in the table's order.
pub fn marks(flag: u8) -> [Mark; 8] {
    let digits = format!("{flag:08b}").into_bytes();
    let mut marks = [Mark::NotKnown; 8];
    // bit 1 is always told; of an invalid flag nothing more is
    let told = if digits[0] == b'1' { 1 } else { 8 };
    for (mark, digit) in marks.iter_mut().zip(&digits[..told]) {
        *mark = if *digit == b'1' { Mark::Yes } else { Mark::No };
    }
    marks
}

impl Mark {
    /// The number that C has for it.
    pub fn number(self) -> u8 {
        match self {
            Mark::No => 0,
            Mark::Yes => 1,
            Mark::NotKnown => 2,
        }
    }

    /// The word that the command has for it.
    pub fn word(self) -> &'static str {
        match self {
            Mark::No => "no",
            Mark::Yes => "yes",
            Mark::NotKnown => "unknown",
        }
    }
}
