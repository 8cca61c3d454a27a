//! What the header's writer is given: how it is read from any bytes, the checks of document 01's
//! paragraph on the writer, and the bytes that it writes.

use crate::accept::{
    day_of_name, demand, is_area, valid_bits_of_band, Refusal, Shot, AREA_FIELD, BAND_FIELD,
    BITS_FIELD, COMPRESSION_FIELD, LENGTH, NAME, ORDER, PACKED, ROOM, SATELLITE_FIELD,
    SEGMENT_FIELD, SIZE_FIELD, TIMELINE_FIELD,
};

/// Every value of a header that is not derived. Numbers follow the byte order, runs of bytes do
/// not. Real numbers (times, wavelength, gain, shifts and so on) are kept as bits. The entries of
/// blocks 8 to 10 are lists of their parts.
#[derive(Clone, Debug, PartialEq, Eq)]
pub struct Values {
    pub order: u8,
    pub satellite: [u8; 16],
    pub centre: [u8; 16],
    pub area: [u8; 4],
    pub other: [u8; 2],
    pub timeline: u16,
    pub start_time: u64,
    pub end_time: u64,
    pub creation_time: u64,
    pub quality: [u8; 4],
    pub version: [u8; 32],
    pub name: [u8; 128],
    pub spare_1: [u8; 40],

    pub columns: u16,
    pub lines: u16,
    pub flag: u8,
    pub spare_2: [u8; 40],

    pub carried_3: [u8; 124],
    pub carried_4: [u8; 136],

    pub band: u16,
    pub wavelength: u64,
    pub valid_bits: u16,
    pub gain: u64,
    pub constant: u64,
    pub carried_5: [u8; 112],

    pub carried_6: [u8; 256],

    pub total: u8,
    pub number: u8,
    pub first_line: u16,
    pub spare_7: [u8; 40],

    pub centre_column: u32,
    pub centre_line: u32,
    pub rotation: u64,
    pub shifted_lines: Vec<u16>,
    pub column_shifts: Vec<u32>,
    pub line_shifts: Vec<u32>,
    pub spare_8: [u8; 40],

    pub timed_lines: Vec<u16>,
    pub line_times: Vec<u64>,
    pub spare_9: [u8; 40],

    pub error_lines: Vec<u16>,
    pub error_pixels: Vec<u16>,
    pub spare_10: [u8; 40],

    pub spare_11: [u8; 256],
}

impl Values {
    /// Reads any bytes as if they were a header: nothing is checked, every byte past the end is 0,
    /// and any byte order but 0 is taken for big-endian.
    pub fn of_image(image: &[u8]) -> Values {
        let read = Image {
            bytes: image,
            big: image.get(5).is_some_and(|&order| order != 0),
        };
        let a = usize::from(read.two(1_070));
        let start_9 = 1_112 + 10 * a;
        let b = usize::from(read.two(start_9 + 3));
        let start_10 = start_9 + 45 + 10 * b;
        let c = usize::from(read.two(start_10 + 5));
        let start_11 = start_10 + 47 + 4 * c;
        let entries_8 = (0..a).map(|entry| 1_072 + 10 * entry);
        let entries_9 = (0..b).map(|entry| start_9 + 5 + 10 * entry);
        let entries_10 = (0..c).map(|entry| start_10 + 7 + 4 * entry);
        Values {
            order: read.one(5),
            satellite: read.run(6),
            centre: read.run(22),
            area: read.run(38),
            other: read.run(42),
            timeline: read.two(44),
            start_time: read.eight(46),
            end_time: read.eight(54),
            creation_time: read.eight(62),
            quality: read.run(78),
            version: read.run(82),
            name: read.run(114),
            spare_1: read.run(242),

            columns: read.two(282 + 5),
            lines: read.two(282 + 7),
            flag: read.one(282 + 9),
            spare_2: read.run(282 + 10),

            carried_3: read.run(332 + 3),
            carried_4: read.run(459 + 3),

            band: read.two(598 + 3),
            wavelength: read.eight(598 + 5),
            valid_bits: read.two(598 + 13),
            gain: read.eight(598 + 19),
            constant: read.eight(598 + 27),
            carried_5: read.run(598 + 35),

            carried_6: read.run(745 + 3),

            total: read.one(1_004 + 3),
            number: read.one(1_004 + 4),
            first_line: read.two(1_004 + 5),
            spare_7: read.run(1_004 + 7),

            centre_column: read.four(1_051 + 3),
            centre_line: read.four(1_051 + 7),
            rotation: read.eight(1_051 + 11),
            shifted_lines: entries_8.clone().map(|at| read.two(at)).collect(),
            column_shifts: entries_8.clone().map(|at| read.four(at + 2)).collect(),
            line_shifts: entries_8.map(|at| read.four(at + 6)).collect(),
            spare_8: read.run(start_9 - 40),

            timed_lines: entries_9.clone().map(|at| read.two(at)).collect(),
            line_times: entries_9.map(|at| read.eight(at + 2)).collect(),
            spare_9: read.run(start_10 - 40),

            error_lines: entries_10.clone().map(|at| read.two(at)).collect(),
            error_pixels: entries_10.map(|at| read.two(at + 2)).collect(),
            spare_10: read.run(start_11 - 40),

            spare_11: read.run(start_11 + 3),
        }
    }

    /// The header's bytes, if the values pass all checks and so many bytes can hold it.
    pub fn write(&self, room: usize) -> Result<Vec<u8>, Refusal> {
        self.check()?;
        demand(room as u64 >= self.header_length(), ROOM, 0)?;
        Ok(self.header())
    }

    pub fn header_length(&self) -> u64 {
        1_463
            + 10 * self.shifted_lines.len() as u64
            + 10 * self.timed_lines.len() as u64
            + 4 * self.error_lines.len() as u64
    }

    /// Block by block, and the name after all blocks. The values come from no file, so no refusal has a place.
    fn check(&self) -> Result<(), Refusal> {
        demand(self.order <= 1, ORDER, 1)?;
        demand(self.satellite_number().is_some(), SATELLITE_FIELD, 1)?;
        demand(is_area(&self.area), AREA_FIELD, 1)?;
        demand(self.timeline <= 2_359, TIMELINE_FIELD, 1)?;
        demand(
            matches!(self.timeline % 100, 0 | 10 | 20 | 30 | 40 | 50),
            TIMELINE_FIELD,
            1,
        )?;

        demand(!matches!(self.flag, 1 | 2), PACKED, 2)?;
        demand(matches!(self.columns, 1..=22_000), SIZE_FIELD, 2)?;
        demand(matches!(self.lines, 1..=22_000), SIZE_FIELD, 2)?;
        demand(self.flag == 0, COMPRESSION_FIELD, 2)?;

        demand(matches!(self.band, 1..=16), BAND_FIELD, 5)?;
        let right_bits = valid_bits_of_band(u64::from(self.band));
        demand(u64::from(self.valid_bits) == right_bits, BITS_FIELD, 5)?;

        demand(matches!(self.total, 1..=99), SEGMENT_FIELD, 7)?;
        let counted = self.number >= 1 && self.number <= self.total;
        demand(counted, SEGMENT_FIELD, 7)?;
        demand(self.first_line >= 1, SEGMENT_FIELD, 7)?;
        // Widened, or large numbers could wrap around into the range.
        let line_after = u32::from(self.first_line) + u32::from(self.lines);
        demand(line_after <= 22_001, SEGMENT_FIELD, 7)?;

        let a = self.shifted_lines.len();
        demand(a <= 6_547, LENGTH, 8)?;
        demand(self.column_shifts.len() == a, LENGTH, 8)?;
        demand(self.line_shifts.len() == a, LENGTH, 8)?;
        let b = self.timed_lines.len();
        demand(b <= 6_549, LENGTH, 9)?;
        demand(self.line_times.len() == b, LENGTH, 9)?;
        let c = self.error_lines.len();
        demand(c <= 65_535, LENGTH, 10)?;
        demand(self.error_pixels.len() == c, LENGTH, 10)?;

        let shot = Shot {
            satellite: self.satellite_number().unwrap_or(0),
            timeline: u64::from(self.timeline),
            band: u64::from(self.band),
            area: self.area,
            number: u64::from(self.number),
            total: u64::from(self.total),
        };
        demand(day_of_name(&self.name, &shot).is_some(), NAME, 1)
    }

    fn satellite_number(&self) -> Option<u64> {
        match &self.satellite {
            b"Himawari-8\0\0\0\0\0\0" => Some(8),
            b"Himawari-9\0\0\0\0\0\0" => Some(9),
            _ => None,
        }
    }

    /// All bytes in the order in which they stand, with the derived values in their places.
    fn header(&self) -> Vec<u8> {
        let a = self.shifted_lines.len();
        let b = self.timed_lines.len();
        let c = self.error_lines.len();
        let mut to = Header {
            bytes: Vec::with_capacity(self.header_length() as usize),
            big: self.order == 1,
        };

        to.opens(1, 282);
        to.two(11);
        to.run(&[self.order]);
        to.run(&self.satellite);
        to.run(&self.centre);
        to.run(&self.area);
        to.run(&self.other);
        to.two(self.timeline);
        to.eight(self.start_time);
        to.eight(self.end_time);
        to.eight(self.creation_time);
        to.four(self.header_length() as u32);
        to.four(2 * u32::from(self.columns) * u32::from(self.lines));
        to.run(&self.quality);
        to.run(&self.version);
        to.run(&self.name);
        to.run(&self.spare_1);

        to.opens(2, 50);
        to.two(16);
        to.two(self.columns);
        to.two(self.lines);
        to.run(&[self.flag]);
        to.run(&self.spare_2);

        to.opens(3, 127);
        to.run(&self.carried_3);
        to.opens(4, 139);
        to.run(&self.carried_4);

        to.opens(5, 147);
        to.two(self.band);
        to.eight(self.wavelength);
        to.two(self.valid_bits);
        to.two(65_535);
        to.two(65_534);
        to.eight(self.gain);
        to.eight(self.constant);
        to.run(&self.carried_5);

        to.opens(6, 259);
        to.run(&self.carried_6);

        to.opens(7, 47);
        to.run(&[self.total, self.number]);
        to.two(self.first_line);
        to.run(&self.spare_7);

        // The checks hold the three counts, and so these lengths, within their fields.
        to.opens(8, (61 + 10 * a) as u16);
        to.four(self.centre_column);
        to.four(self.centre_line);
        to.eight(self.rotation);
        to.two(a as u16);
        for entry in 0..a {
            to.two(self.shifted_lines[entry]);
            to.four(self.column_shifts[entry]);
            to.four(self.line_shifts[entry]);
        }
        to.run(&self.spare_8);

        to.opens(9, (45 + 10 * b) as u16);
        to.two(b as u16);
        for entry in 0..b {
            to.two(self.timed_lines[entry]);
            to.eight(self.line_times[entry]);
        }
        to.run(&self.spare_9);

        // Block 10 alone has a length of four bytes.
        to.run(&[10]);
        to.four((47 + 4 * c) as u32);
        to.two(c as u16);
        for entry in 0..c {
            to.two(self.error_lines[entry]);
            to.two(self.error_pixels[entry]);
        }
        to.run(&self.spare_10);

        to.opens(11, 259);
        to.run(&self.spare_11);
        to.bytes
    }
}

/// Bytes that go on with zeros for ever.
struct Image<'a> {
    bytes: &'a [u8],
    big: bool,
}

impl Image<'_> {
    fn run<const LENGTH: usize>(&self, at: usize) -> [u8; LENGTH] {
        let mut run = [0; LENGTH];
        for (to, from) in run.iter_mut().zip(self.bytes.iter().skip(at)) {
            *to = *from;
        }
        run
    }

    fn one(&self, at: usize) -> u8 {
        self.run::<1>(at)[0]
    }

    fn two(&self, at: usize) -> u16 {
        let bytes = self.run(at);
        if self.big {
            u16::from_be_bytes(bytes)
        } else {
            u16::from_le_bytes(bytes)
        }
    }

    fn four(&self, at: usize) -> u32 {
        let bytes = self.run(at);
        if self.big {
            u32::from_be_bytes(bytes)
        } else {
            u32::from_le_bytes(bytes)
        }
    }

    fn eight(&self, at: usize) -> u64 {
        let bytes = self.run(at);
        if self.big {
            u64::from_be_bytes(bytes)
        } else {
            u64::from_le_bytes(bytes)
        }
    }
}

/// A header that grows at its end.
struct Header {
    bytes: Vec<u8>,
    big: bool,
}

impl Header {
    fn run(&mut self, bytes: &[u8]) {
        self.bytes.extend_from_slice(bytes);
    }

    fn two(&mut self, number: u16) {
        self.run(&if self.big {
            number.to_be_bytes()
        } else {
            number.to_le_bytes()
        });
    }

    fn four(&mut self, number: u32) {
        self.run(&if self.big {
            number.to_be_bytes()
        } else {
            number.to_le_bytes()
        });
    }

    fn eight(&mut self, number: u64) {
        self.run(&if self.big {
            number.to_be_bytes()
        } else {
            number.to_le_bytes()
        });
    }

    /// The number and the length with which every block but block 10 begins.
    fn opens(&mut self, block: u8, length: u16) {
        self.run(&[block]);
        self.two(length);
    }
}
