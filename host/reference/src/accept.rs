//! Acceptance of a file, check by check in the order of document 01. The first check that fails
//! answers, with the place of its field by document 02. All numbers are widened to 64 bits, so that
//! no sum or product can wrap.

pub const SHORT: u8 = 1;
pub const NUMBER: u8 = 2;
pub const ORDER: u8 = 3;
pub const LENGTH: u8 = 4;
pub const FIXED: u8 = 5;
pub const PACKED: u8 = 6;
pub const HEADER_SUM: u8 = 8;
pub const DATA_SUM: u8 = 9;
pub const NAME: u8 = 10;
pub const CUT: u8 = 11;
pub const TAIL: u8 = 12;
/// Not of a file: the writer's output, or a slice lent for entries, is too short.
pub const ROOM: u8 = 17;
/// These are fields out of their ranges.
pub const SATELLITE_FIELD: u8 = 31;
pub const AREA_FIELD: u8 = 32;
pub const TIMELINE_FIELD: u8 = 33;
/// Columns or lines.
pub const SIZE_FIELD: u8 = 34;
pub const COMPRESSION_FIELD: u8 = 35;
pub const BAND_FIELD: u8 = 36;
pub const BITS_FIELD: u8 = 37;
/// Segment total, segment number or first line.
pub const SEGMENT_FIELD: u8 = 38;

/// Why a file is turned away: the paper's number, the block shown with it, and where the field that
/// it concerns stands, in bytes from the file's start. What comes from no file has the offset 0.
#[derive(Clone, Copy, Debug, PartialEq, Eq)]
pub struct Refusal {
    pub number: u8,
    pub block: u8,
    pub offset: u32,
}

/// Refusal, block and offset, as they are told.
pub type Answer = (u8, u8, u32);

/// What is told where nothing is refused.
pub const FINE: Answer = (0, 0, 0);

pub fn numbers<T>(answer: &Result<T, Refusal>) -> Answer {
    match answer {
        Ok(_) => FINE,
        Err(refusal) => (refusal.number, refusal.block, refusal.offset),
    }
}

/// What an accepted file says.
#[derive(Clone, Debug, PartialEq, Eq)]
pub struct Facts {
    /// 8 or 9.
    pub satellite: u8,
    /// The name's date as a Modified Julian Day.
    pub day: u32,
    pub timeline: u16,
    pub band: u16,
    pub area: [u8; 4],
    pub columns: u16,
    pub lines: u16,
    pub number: u8,
    pub total: u8,
    pub first_line: u16,
    pub valid_bits: u16,
    /// Gain and constant are kept as bits: any pattern is lawful.
    pub gain: u64,
    pub constant: u64,
    /// Quality flag 1.
    pub quality: u8,
    pub header_length: u32,
    /// 0 is little-endian, 1 big-endian.
    pub order: u8,
    /// The numbers of entries of blocks 8, 9 and 10.
    pub a: u16,
    pub b: u16,
    pub c: u16,
}

pub fn accept(file: &[u8]) -> Result<Facts, Refusal> {
    let size = file.len() as u64;

    // Block 1. The byte order comes first: it rules how even this block's length is read.
    demand_at(0, size >= 282, SHORT, 1)?;
    demand_at(0, file[0] == 1, NUMBER, 1)?;
    let order = file[5];
    demand_at(5, order <= 1, ORDER, 1)?;
    let read = Reader {
        file,
        big: order == 1,
    };
    demand_at(1, read.two(1) == 282, LENGTH, 1)?;
    demand_at(3, read.two(3) == 11, FIXED, 1)?;
    let satellite = match &file[6..22] {
        b"Himawari-8\0\0\0\0\0\0" => 8,
        b"Himawari-9\0\0\0\0\0\0" => 9,
        _ => return Err(refused_at(6, SATELLITE_FIELD, 1)),
    };
    let area = [file[38], file[39], file[40], file[41]];
    demand_at(38, is_area(&area), AREA_FIELD, 1)?;
    let timeline = read.two(44);
    demand_at(44, is_timeline(timeline), TIMELINE_FIELD, 1)?;

    // Block 2. The compression flag stands behind the size, and only PACKED comes before it.
    let start_2 = 282;
    read.opens(2, start_2, 50)?;
    demand_at(start_2 + 3, read.two(start_2 + 3) == 16, FIXED, 2)?;
    let flag = read.one(start_2 + 9);
    demand_at(start_2 + 9, flag != 1 && flag != 2, PACKED, 2)?;
    let columns = read.two(start_2 + 5);
    demand_at(start_2 + 5, is_size(columns), SIZE_FIELD, 2)?;
    let lines = read.two(start_2 + 7);
    demand_at(start_2 + 7, is_size(lines), SIZE_FIELD, 2)?;
    demand_at(start_2 + 9, flag == 0, COMPRESSION_FIELD, 2)?;

    // Blocks 3 and 4 are carried.
    let start_3 = start_2 + 50;
    read.opens(3, start_3, 127)?;
    let start_4 = start_3 + 127;
    read.opens(4, start_4, 139)?;

    // Block 5. The special counts stand behind the band and its bits, and yet they come first.
    let start_5 = start_4 + 139;
    read.opens(5, start_5, 147)?;
    demand_at(start_5 + 15, read.two(start_5 + 15) == 65_535, FIXED, 5)?;
    demand_at(start_5 + 17, read.two(start_5 + 17) == 65_534, FIXED, 5)?;
    let band = read.two(start_5 + 3);
    demand_at(start_5 + 3, (1..=16).contains(&band), BAND_FIELD, 5)?;
    let valid_bits = read.two(start_5 + 13);
    let right_bits = valid_bits_of_band(band);
    demand_at(start_5 + 13, valid_bits == right_bits, BITS_FIELD, 5)?;
    let gain = read.eight(start_5 + 19);
    let constant = read.eight(start_5 + 27);

    // Block 6 is carried.
    let start_6 = start_5 + 147;
    read.opens(6, start_6, 259)?;

    // Block 7.
    let start_7 = start_6 + 259;
    read.opens(7, start_7, 47)?;
    let total = read.one(start_7 + 3);
    demand_at(start_7 + 3, (1..=99).contains(&total), SEGMENT_FIELD, 7)?;
    let number = read.one(start_7 + 4);
    let counted = (1..=total).contains(&number);
    demand_at(start_7 + 4, counted, SEGMENT_FIELD, 7)?;
    let first_line = read.two(start_7 + 5);
    let inside = first_line >= 1 && first_line + lines - 1 <= 22_000;
    demand_at(start_7 + 5, inside, SEGMENT_FIELD, 7)?;

    // Blocks 8 to 10: the block without entries must be there before it is looked at, its length
    // must fit its own count, and then the whole block must be there.
    let start_8 = start_7 + 47;
    demand_at(start_8, size >= start_8 + 61, SHORT, 8)?;
    demand_at(start_8, read.one(start_8) == 8, NUMBER, 8)?;
    let a = read.two(start_8 + 19);
    let length_8 = 61 + 10 * a;
    demand_at(start_8 + 1, read.two(start_8 + 1) == length_8, LENGTH, 8)?;
    demand_at(start_8, size >= start_8 + length_8, SHORT, 8)?;

    let start_9 = start_8 + length_8;
    demand_at(start_9, size >= start_9 + 45, SHORT, 9)?;
    demand_at(start_9, read.one(start_9) == 9, NUMBER, 9)?;
    let b = read.two(start_9 + 3);
    let length_9 = 45 + 10 * b;
    demand_at(start_9 + 1, read.two(start_9 + 1) == length_9, LENGTH, 9)?;
    demand_at(start_9, size >= start_9 + length_9, SHORT, 9)?;

    // Block 10 alone has a length of four bytes.
    let start_10 = start_9 + length_9;
    demand_at(start_10, size >= start_10 + 47, SHORT, 10)?;
    demand_at(start_10, read.one(start_10) == 10, NUMBER, 10)?;
    let c = read.two(start_10 + 5);
    let length_10 = 47 + 4 * c;
    let told_10 = read.four(start_10 + 1);
    demand_at(start_10 + 1, told_10 == length_10, LENGTH, 10)?;
    demand_at(start_10, size >= start_10 + length_10, SHORT, 10)?;

    // Block 11 is spare.
    let start_11 = start_10 + length_10;
    read.opens(11, start_11, 259)?;

    // The sums, the name and the counts come after all blocks.
    let header_length = start_11 + 259;
    demand_at(70, read.four(70) == header_length, HEADER_SUM, 1)?;
    let data_length = 2 * columns * lines;
    demand_at(74, read.four(74) == data_length, DATA_SUM, 1)?;
    let shot = Shot {
        satellite,
        timeline,
        band,
        area,
        number,
        total,
    };
    let day = day_of_name(&file[114..242], &shot).ok_or(refused_at(114, NAME, 1))?;
    let end = header_length + data_length;
    demand_at(header_length, size >= end, CUT, 12)?;
    demand_at(header_length, size <= end, TAIL, 12)?;

    // Each value came from a field of this width, or was found small enough above.
    Ok(Facts {
        satellite: satellite as u8,
        day: day as u32,
        timeline: timeline as u16,
        band: band as u16,
        area,
        columns: columns as u16,
        lines: lines as u16,
        number: number as u8,
        total: total as u8,
        first_line: first_line as u16,
        valid_bits: valid_bits as u16,
        gain,
        constant,
        quality: file[78],
        header_length: header_length as u32,
        order,
        a: a as u16,
        b: b as u16,
        c: c as u16,
    })
}

/// A check of something that stands nowhere in a file.
pub(crate) fn demand(holds: bool, number: u8, block: u8) -> Result<(), Refusal> {
    demand_at(0, holds, number, block)
}

/// A check of the field that stands there in a file.
fn demand_at(offset: u64, holds: bool, number: u8, block: u8) -> Result<(), Refusal> {
    if holds {
        Ok(())
    } else {
        Err(refused_at(offset, number, block))
    }
}

fn refused_at(offset: u64, number: u8, block: u8) -> Refusal {
    Refusal {
        number,
        block,
        // all fields stand in the header, which has at most 394,563 bytes
        offset: offset as u32,
    }
}

/// The file's bytes as numbers of the file's byte order.
struct Reader<'a> {
    file: &'a [u8],
    big: bool,
}

impl Reader<'_> {
    fn one(&self, at: u64) -> u64 {
        u64::from(self.file[at as usize])
    }

    fn two(&self, at: u64) -> u64 {
        self.joined(self.one(at), self.one(at + 1), 8)
    }

    fn four(&self, at: u64) -> u64 {
        self.joined(self.two(at), self.two(at + 2), 16)
    }

    fn eight(&self, at: u64) -> u64 {
        self.joined(self.four(at), self.four(at + 4), 32)
    }

    /// Two neighbouring halves of so many bits each make one number.
    fn joined(&self, first: u64, second: u64, bits: u32) -> u64 {
        if self.big {
            (first << bits) + second
        } else {
            (second << bits) + first
        }
    }

    /// The checks with which every block of one fixed length begins, block 1 apart.
    fn opens(&self, block: u8, start: u64, length: u64) -> Result<(), Refusal> {
        let end = start + length;
        demand_at(start, self.file.len() as u64 >= end, SHORT, block)?;
        demand_at(start, self.one(start) == u64::from(block), NUMBER, block)?;
        demand_at(start + 1, self.two(start + 1) == length, LENGTH, block)
    }
}

/// Columns or lines.
fn is_size(size: u64) -> bool {
    (1..=22_000).contains(&size)
}

pub(crate) fn is_area(area: &[u8; 4]) -> bool {
    if area == b"FLDK" {
        return true;
    }
    let number = decimal(&area[2..4]);
    match &area[0..2] {
        b"JP" | b"R3" => matches!(number, Some(1..=4)),
        b"R4" | b"R5" => matches!(number, Some(1..=20)),
        _ => false,
    }
}

/// hhmm as a number, by tens of minutes.
pub(crate) fn is_timeline(timeline: u64) -> bool {
    timeline / 100 <= 23 && matches!(timeline % 100, 0 | 10 | 20 | 30 | 40 | 50)
}

pub(crate) fn valid_bits_of_band(band: u64) -> u64 {
    match band {
        7 => 14,
        10..=15 => 12,
        _ => 11,
    }
}

fn resolution_of_band(band: u64) -> u64 {
    match band {
        3 => 5,
        1 | 2 | 4 => 10,
        _ => 20,
    }
}

/// What the header says of the shot, for the name to agree with.
pub(crate) struct Shot {
    pub(crate) satellite: u64,
    pub(crate) timeline: u64,
    pub(crate) band: u64,
    pub(crate) area: [u8; 4],
    pub(crate) number: u64,
    pub(crate) total: u64,
}

/// The day of a name that keeps the whole name rule; nothing for any other name. The name is
/// HS_aaa_yyyymmdd_hhnn_Bbb_cccc_Rjj_Skkll.DAT and 85 zero bytes.
pub(crate) fn day_of_name(name: &[u8], shot: &Shot) -> Option<u64> {
    let text = |from: usize, wanted: &[u8]| &name[from..from + wanted.len()] == wanted;
    let value = |from: usize, width: usize| decimal(&name[from..from + width]);
    let agrees = text(0, b"HS_H")
        && value(4, 2) == Some(shot.satellite)
        && text(6, b"_")
        && text(15, b"_")
        && value(16, 4) == Some(shot.timeline)
        && text(20, b"_B")
        && value(22, 2) == Some(shot.band)
        && text(24, b"_")
        && text(25, &shot.area)
        && text(29, b"_R")
        && value(31, 2) == Some(resolution_of_band(shot.band))
        && text(33, b"_S")
        && value(35, 2) == Some(shot.number)
        && value(37, 2) == Some(shot.total)
        && text(39, b".DAT")
        && name[43..128].iter().all(|&byte| byte == 0);
    if !agrees {
        return None;
    }
    day_of_date(value(7, 4)?, value(11, 2)?, value(13, 2)?)
}

/// The number that the text shows, if it is made of digits only.
fn decimal(text: &[u8]) -> Option<u64> {
    let mut number = 0;
    for byte in text {
        if !byte.is_ascii_digit() {
            return None;
        }
        number = 10 * number + u64::from(byte - b'0');
    }
    Some(number)
}

/// The Modified Julian Day, counted on from 2000-01-01, which is 51,544. Nothing for a date that
/// does not exist or lies outside the years 2000 to 2099.
pub(crate) fn day_of_date(year: u64, month: u64, day: u64) -> Option<u64> {
    if !(2000..=2099).contains(&year) || !(1..=12).contains(&month) {
        return None;
    }
    if day < 1 || day > days_of_month(year, month) {
        return None;
    }
    let mut count = 51_544;
    for earlier in 2000..year {
        count += if is_leap(earlier) { 366 } else { 365 };
    }
    for earlier in 1..month {
        count += days_of_month(year, earlier);
    }
    Some(count + day - 1)
}

fn days_of_month(year: u64, month: u64) -> u64 {
    match month {
        4 | 6 | 9 | 11 => 30,
        2 if is_leap(year) => 29,
        2 => 28,
        _ => 31,
    }
}

fn is_leap(year: u64) -> bool {
    year.is_multiple_of(4) && (!year.is_multiple_of(100) || year.is_multiple_of(400))
}
