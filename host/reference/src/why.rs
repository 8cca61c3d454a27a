//! Why a file is not one of a slate's, from documents 01 and 02 alone: the first part in which they disagree.

use crate::accept::{accept, demand, Facts, Refusal};
use crate::assemble::{Slate, SLATE};
use Part::{Area, Band, Columns, Day, FirstLine, Lines, Satellite, Timeline, Total};

/// What is compared. Its number is its place in the order in which they are told.
#[derive(Clone, Copy, Debug, PartialEq, Eq, PartialOrd, Ord)]
pub enum Part {
    Satellite = 1,
    Day,
    Timeline,
    Band,
    Area,
    Columns,
    /// Segments of the frame.
    Total,
    /// Lines of the segment.
    Lines,
    FirstLine,
}

/// All of them, in that order.
pub const PARTS: [Part; 9] = [
    Satellite, Day, Timeline, Band, Area, Columns, Total, Lines, FirstLine,
];

/// A part, with the value on each side.
#[derive(Clone, Copy, Debug, PartialEq, Eq)]
pub struct Difference {
    pub part: Part,
    pub slate: u64,
    pub file: u64,
}

/// The first disagreement, or none. The slate is judged before the file is looked at.
pub fn why(slate: &Slate, file: &[u8]) -> Result<Option<Difference>, Refusal> {
    demand(slate.is_good(), SLATE, 0)?;
    let facts = accept(file)?;
    let mut all = PARTS.into_iter().map(|part| {
        let (slate, file) = sides(part, slate, &facts);
        Difference { part, slate, file }
    });
    Ok(all.find(|both| both.slate != both.file))
}

/// What a good slate and an accepted file say of a part. A slate's lines and first line are those of the file's number.
fn sides(part: Part, slate: &Slate, file: &Facts) -> (u64, u64) {
    let number = usize::from(file.number);
    match part {
        Satellite => (slate.satellite.into(), file.satellite.into()),
        Day => (slate.day.into(), file.day.into()),
        Timeline => (slate.timeline.into(), file.timeline.into()),
        Band => (slate.band.into(), file.band.into()),
        Area => (letters(slate.area), letters(file.area)),
        Columns => (slate.columns.into(), file.columns.into()),
        Total => (slate.total.into(), file.total.into()),
        Lines => (slate.height(number) as u64, file.lines.into()),
        FirstLine => (slate.first_line(number) as u64, file.first_line.into()),
    }
}

/// Four letters as a number, the first one highest.
fn letters(area: [u8; 4]) -> u64 {
    area.into_iter()
        .fold(0, |before, letter| 256 * before + u64::from(letter))
}
