//! Slate, record and frame: which files belong to a shot, where their counts go, and what a line of
//! the frame shows. From documents 01 and 02 alone.

use crate::accept::{accept, demand, is_area, is_timeline, Facts, Refusal};

pub const SLATE: u8 = 13;
pub const STRIP: u8 = 14;
pub const OTHER_SHOT: u8 = 15;
pub const ALREADY: u8 = 16;

/// What a frame is filled with when it is opened; also a lawful count.
pub const OUTSIDE: u16 = 65_534;

/// The greatest segment total.
pub const MARKS: usize = 99;

/// What a frame is to show. Every value can be posed; one that is not good is refused wherever it is
/// used.
#[derive(Clone, Copy, Debug, PartialEq, Eq)]
pub struct Slate {
    pub satellite: u8,
    pub day: u32,
    pub timeline: u16,
    pub band: u16,
    pub area: [u8; 4],
    pub columns: u16,
    /// Segments of the frame.
    pub total: u8,
    /// Lines of each segment: the first one's come first. What stands beyond the total is ignored.
    pub heights: [u16; MARKS],
}

/// Each segment has so many lines, whatever the total is.
pub const fn even(lines: u16) -> [u16; MARKS] {
    [lines; MARKS]
}

/// These heights, and the same one in all the room beyond them.
pub fn uneven(heights: &[u16], beyond: u16) -> [u16; MARKS] {
    let mut all = even(beyond);
    all[..heights.len()].copy_from_slice(heights);
    all
}

impl Slate {
    pub fn is_good(&self) -> bool {
        matches!(self.satellite, 8 | 9)
            && (51_544..=88_068).contains(&self.day)
            && is_timeline(u64::from(self.timeline))
            && (1..=16).contains(&self.band)
            && is_area(&self.area)
            && (1..=22_000).contains(&self.columns)
            && (1..=99).contains(&self.total)
            && self.cut().iter().all(|&height| height >= 1)
            && self.frame_lines() <= 22_000
    }

    /// The heights of segments 1 to the total, or as many as there is room for.
    pub fn cut(&self) -> &[u16] {
        &self.heights[..usize::from(self.total).min(MARKS)]
    }

    /// Whether all heights agree.
    pub fn is_even(&self) -> bool {
        self.cut().windows(2).all(|pair| pair[0] == pair[1])
    }

    pub fn frame_lines(&self) -> usize {
        sum(self.cut())
    }

    /// How many lines the segment of this number has.
    pub fn height(&self, number: usize) -> usize {
        usize::from(self.heights[number - 1])
    }

    /// One line after the segments before it end.
    pub fn first_line(&self, number: usize) -> usize {
        sum(&self.heights[..number - 1]) + 1
    }

    /// The number of the segment that covers a line of the frame.
    pub fn covering(&self, line: usize) -> Option<usize> {
        (1..=usize::from(self.total)).find(|&number| {
            let first = self.first_line(number);
            let last = first + self.height(number) - 1;
            first <= line && line <= last
        })
    }

    /// How many counts a frame has.
    pub fn frame_size(&self) -> usize {
        self.frame_lines() * usize::from(self.columns)
    }

    /// Whether an accepted file is of this shot and lies where its number says.
    pub fn matches(&self, file: &Facts) -> bool {
        let number = usize::from(file.number);
        file.satellite == self.satellite
            && file.day == self.day
            && file.timeline == self.timeline
            && file.band == self.band
            && file.area == self.area
            && file.columns == self.columns
            && file.total == self.total
            && usize::from(file.lines) == self.height(number)
            && usize::from(file.first_line) == self.first_line(number)
    }
}

/// Exact: no sum of 99 heights is too large for this.
fn sum(heights: &[u16]) -> usize {
    heights.iter().copied().map(usize::from).sum()
}

/// Which segments are in: mark k - 1 is segment k's.
#[derive(Clone, Debug, PartialEq, Eq)]
pub struct Record {
    pub marks: [bool; MARKS],
}

impl Record {
    pub fn has(&self, number: usize) -> bool {
        self.marks[number - 1]
    }

    pub fn tally(&self) -> usize {
        self.marks.iter().filter(|&&mark| mark).count()
    }
}

/// Starts a frame: it is filled, and no segment is in.
pub fn open(slate: &Slate, frame: &mut [u16]) -> Result<Record, Refusal> {
    let record = Record {
        marks: [false; MARKS],
    };
    check(slate, &record, frame)?;
    frame.fill(OUTSIDE);
    Ok(record)
}

/// Places a file's counts and marks its number. A refusal leaves record and frame as they were.
pub fn offer(
    slate: &Slate,
    record: &mut Record,
    frame: &mut [u16],
    file: &[u8],
) -> Result<(), Refusal> {
    check(slate, record, frame)?;
    let facts = accept(file)?;
    demand(slate.matches(&facts), OTHER_SHOT, 0)?;
    let number = usize::from(facts.number);
    demand(!record.has(number), ALREADY, 0)?;
    let columns = usize::from(slate.columns);
    let begin = (slate.first_line(number) - 1) * columns;
    let part = &mut frame[begin..begin + slate.height(number) * columns];
    let counts = file[facts.header_length as usize..].chunks_exact(2);
    for (place, pair) in part.iter_mut().zip(counts) {
        let pair = [pair[0], pair[1]];
        *place = if facts.order == 0 {
            u16::from_le_bytes(pair)
        } else {
            u16::from_be_bytes(pair)
        };
    }
    record.marks[number - 1] = true;
    Ok(())
}

/// A line of the frame, counted from 1: a part of the frame if its segment is in, or else of the
/// leader. It is empty when it cannot be given.
pub fn line<'a>(
    slate: &Slate,
    record: &Record,
    frame: &'a [u16],
    leader: &'a [u16],
    line: u16,
) -> &'a [u16] {
    let line = usize::from(line);
    let columns = usize::from(slate.columns);
    if check(slate, record, frame).is_err() {
        return &[];
    }
    let Some(number) = slate.covering(line) else {
        return &[];
    };
    if record.has(number) {
        &frame[(line - 1) * columns..line * columns]
    } else {
        leader.get(..columns).unwrap_or(&[])
    }
}

/// The slate, then the record, then the frame's size.
fn check(slate: &Slate, record: &Record, frame: &[u16]) -> Result<(), Refusal> {
    demand(slate.is_good(), SLATE, 0)?;
    let beyond = &record.marks[usize::from(slate.total)..];
    demand(!beyond.contains(&true), SLATE, 0)?;
    demand(frame.len() == slate.frame_size(), STRIP, 0)
}
