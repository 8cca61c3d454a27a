//! Makes good files. A recipe gives every value that acceptance looks at; lengths, sums, fixed
//! values and the name follow from it, and all other bytes are random.

use crate::random::Random;

/// The lengths of the eleven blocks without entries.
pub const BASE: [usize; 11] = [282, 50, 127, 139, 147, 259, 47, 61, 45, 47, 259];

pub const GREATEST_A: u64 = 6_547;
pub const GREATEST_B: u64 = 6_549;
pub const GREATEST_C: u64 = 65_535;

#[derive(Clone, Debug)]
pub struct Recipe {
    pub order: u64,
    pub satellite: u64,
    pub year: u64,
    pub month: u64,
    pub day: u64,
    pub timeline: u64,
    pub band: u64,
    pub area: [u8; 4],
    pub columns: u64,
    pub lines: u64,
    pub number: u64,
    pub total: u64,
    pub first_line: u64,
    pub a: u64,
    pub b: u64,
    pub c: u64,
}

impl Recipe {
    /// The file of 1,479 bytes whose listing the paper gives.
    pub fn plain() -> Recipe {
        Recipe {
            order: 0,
            satellite: 8,
            year: 2015,
            month: 7,
            day: 7,
            timeline: 200,
            band: 13,
            area: *b"FLDK",
            columns: 4,
            lines: 2,
            number: 1,
            total: 2,
            first_line: 1,
            a: 0,
            b: 0,
            c: 0,
        }
    }

    /// Any small file.
    pub fn small(random: &mut Random) -> Recipe {
        let year = random.within(2000, 2099);
        let month = random.within(1, 12);
        let last_day = match month {
            2 if year.is_multiple_of(4) => 29,
            2 => 28,
            4 | 6 | 9 | 11 => 30,
            _ => 31,
        };
        let any_day = random.within(1, last_day);
        let lines = random.within(1, 4);
        let total = random.within(1, 99);
        let any_number = random.within(1, total);
        let any_line = random.within(1, 22_001 - lines);
        Recipe {
            order: random.below(2),
            satellite: random.within(8, 9),
            year,
            month,
            day: random.pick(&[any_day, any_day, any_day, last_day]),
            timeline: 100 * random.below(24) + 10 * random.below(6),
            band: random.within(1, 16),
            area: any_area(random),
            columns: random.within(1, 6),
            lines,
            number: random.pick(&[any_number, any_number, 1, total]),
            total,
            first_line: random.pick(&[any_line, any_line, 1, 22_001 - lines]),
            a: random.below(4),
            b: random.below(4),
            c: random.below(4),
        }
    }

    /// A file with many entries, up to the greatest header.
    pub fn large(random: &mut Random) -> Recipe {
        let any_a = random.within(0, GREATEST_A);
        let any_b = random.within(0, GREATEST_B);
        let any_c = random.within(0, GREATEST_C);
        Recipe {
            a: random.pick(&[any_a, GREATEST_A]),
            b: random.pick(&[any_b, GREATEST_B]),
            c: random.pick(&[any_c, GREATEST_C]),
            ..Recipe::small(random)
        }
    }

    /// A segment of the size that really comes: 5,500 x 550 counts, 6,050,000 bytes.
    pub fn segment(random: &mut Random) -> Recipe {
        let number = random.within(1, 10);
        Recipe {
            columns: 5_500,
            lines: 550,
            number,
            total: 10,
            first_line: 1 + (number - 1) * 550,
            ..Recipe::small(random)
        }
    }

    /// The 128 bytes of the name.
    pub fn name(&self) -> Vec<u8> {
        let resolution = match self.band {
            1 | 2 | 4 => "10",
            3 => "05",
            _ => "20",
        };
        let before = format!(
            "HS_H{:02}_{:04}{:02}{:02}_{:04}_B{:02}_",
            self.satellite, self.year, self.month, self.day, self.timeline, self.band
        );
        let after = format!("_R{resolution}_S{:02}{:02}.DAT", self.number, self.total);
        let mut name = before.into_bytes();
        name.extend(self.area);
        name.extend(after.into_bytes());
        name.resize(128, 0);
        name
    }

    pub fn valid_bits(&self) -> u64 {
        match self.band {
            7 => 14,
            10..=15 => 12,
            _ => 11,
        }
    }

    pub fn data_length(&self) -> u64 {
        2 * self.columns * self.lines
    }

    pub fn file_length(&self) -> u64 {
        1_463 + 10 * self.a + 10 * self.b + 4 * self.c + self.data_length()
    }
}

/// All that are lawful.
pub fn areas() -> Vec<[u8; 4]> {
    let mut areas = vec![*b"FLDK"];
    for (letters, last) in [("JP", 4), ("R3", 4), ("R4", 20), ("R5", 20)] {
        for number in 1..=last {
            let text = format!("{letters}{number:02}").into_bytes();
            areas.push(text.try_into().expect("four letters"));
        }
    }
    areas
}

fn any_area(random: &mut Random) -> [u8; 4] {
    let text = match random.below(5) {
        0 => "FLDK".to_string(),
        1 => format!("JP{:02}", random.within(1, 4)),
        2 => format!("R3{:02}", random.within(1, 4)),
        3 => format!("R4{:02}", random.within(1, 20)),
        _ => format!("R5{:02}", random.within(1, 20)),
    };
    text.into_bytes().try_into().expect("four letters")
}

/// A file with the places of its blocks, so that it can be damaged on purpose.
#[derive(Clone)]
pub struct Sample {
    pub recipe: Recipe,
    pub bytes: Vec<u8>,
    /// Where blocks 1 to 11 and the counts begin.
    starts: [usize; 12],
}

impl Sample {
    pub fn make(recipe: &Recipe, random: &mut Random) -> Sample {
        let mut bytes = vec![0; recipe.file_length() as usize];
        random.fill(&mut bytes);
        let mut sample = Sample::on(recipe, bytes);
        // Random bytes would hardly ever make the patterns that are special among doubles.
        for at in [19, 27] {
            if random.below(4) == 0 {
                sample.put(5, at, 8, special_double(random));
            }
        }
        sample
    }

    /// Puts what the recipe says on bytes that keep all else. Where they end, the file is cut.
    pub fn on(recipe: &Recipe, bytes: Vec<u8>) -> Sample {
        let mut lengths = BASE;
        lengths[7] += 10 * recipe.a as usize;
        lengths[8] += 10 * recipe.b as usize;
        lengths[9] += 4 * recipe.c as usize;
        let mut starts = [0; 12];
        for block in 0..11 {
            starts[block + 1] = starts[block] + lengths[block];
        }
        let header_length = starts[11];
        let mut sample = Sample {
            recipe: recipe.clone(),
            bytes,
            starts,
        };

        for block in 1..=11 {
            sample.put(block, 0, 1, block as u64);
            sample.put(block, 1, length_width(block), lengths[block - 1] as u64);
        }
        sample.put(1, 3, 2, 11);
        sample.put(1, 5, 1, recipe.order);
        sample.put_text(
            1,
            6,
            format!("Himawari-{}\0\0\0\0\0\0", recipe.satellite).as_bytes(),
        );
        sample.put_text(1, 38, &recipe.area);
        sample.put(1, 44, 2, recipe.timeline);
        sample.put(1, 70, 4, header_length as u64);
        sample.put(1, 74, 4, recipe.data_length());
        sample.put_text(1, 114, &recipe.name());
        sample.put(2, 3, 2, 16);
        sample.put(2, 5, 2, recipe.columns);
        sample.put(2, 7, 2, recipe.lines);
        sample.put(2, 9, 1, 0);
        sample.put(5, 3, 2, recipe.band);
        sample.put(5, 13, 2, recipe.valid_bits());
        sample.put(5, 15, 2, 65_535);
        sample.put(5, 17, 2, 65_534);
        sample.put(7, 3, 1, recipe.total);
        sample.put(7, 4, 1, recipe.number);
        sample.put(7, 5, 2, recipe.first_line);
        sample.put(8, 19, 2, recipe.a);
        sample.put(9, 3, 2, recipe.b);
        sample.put(10, 5, 2, recipe.c);
        sample
    }

    /// Where a block begins, 1 to 11; 12 is the counts.
    pub fn start(&self, block: usize) -> usize {
        self.starts[block - 1]
    }

    /// Writes a number in the byte order in which the file was made; what is too wide for the
    /// field is dropped, and a place that was cut off stays cut off.
    pub fn put(&mut self, block: usize, offset: usize, width: usize, value: u64) {
        if self.recipe.order == 0 {
            self.put_text(block, offset, &value.to_le_bytes()[..width]);
        } else {
            self.put_text(block, offset, &value.to_be_bytes()[8 - width..]);
        }
    }

    pub fn put_text(&mut self, block: usize, offset: usize, text: &[u8]) {
        let start = self.start(block) + offset;
        for (place, byte) in self.bytes.iter_mut().skip(start).zip(text) {
            *place = *byte;
        }
    }

    /// Puts bytes into the middle of a block (or takes them out, if negative) and moves the rest.
    pub fn stretch(&mut self, block: usize, offset: usize, by: i64, random: &mut Random) {
        let at = (self.start(block) + offset).min(self.bytes.len());
        if by >= 0 {
            let mut added = vec![0; by as usize];
            random.fill(&mut added);
            self.bytes.splice(at..at, added);
        } else {
            let end = (at + by.unsigned_abs() as usize).min(self.bytes.len());
            self.bytes.drain(at..end);
        }
        for start in &mut self.starts[block..] {
            *start = start.wrapping_add_signed(by as isize);
        }
    }
}

/// The bytes of a block's own length.
pub fn length_width(block: usize) -> usize {
    if block == 10 {
        4
    } else {
        2
    }
}

fn special_double(random: &mut Random) -> u64 {
    let quiet_nan = 0x7ff8_0000_0000_0000;
    let signalling_nan = 0x7ff0_0000_0000_0001;
    let any_nan = quiet_nan | random.below(1 << 51);
    let size = random.pick(&[
        quiet_nan,
        any_nan,
        signalling_nan,
        f64::INFINITY.to_bits(),
        0,
        1,
        f64::MIN_POSITIVE.to_bits(),
        f64::MAX.to_bits(),
        0.5_f64.to_bits(),
    ]);
    let sign = random.below(2) << 63;
    sign | size
}
