//! The images that the readers and the writer are tried on, each made from a seed and its number with
//! the answers that the reference expects, and the refusals that they can lead to.

use crate::accept::{
    accept, Facts, Refusal, AREA_FIELD, BAND_FIELD, BITS_FIELD, COMPRESSION_FIELD, LENGTH, NAME,
    ORDER, PACKED, ROOM, SATELLITE_FIELD, SEGMENT_FIELD, SIZE_FIELD, TIMELINE_FIELD,
};
use crate::damage;
use crate::make::{Recipe, Sample, GREATEST_A, GREATEST_B, GREATEST_C};
use crate::mix::{large_case, setting, small_case};
use crate::random::Random;
use crate::tally::{Place::At, Row};
use crate::values::Values;

pub const LONGEST_IMAGE: usize = 65_536;
pub const GREATEST_ROOM: usize = 400_000;
/// The places of a slice that is lent for entries.
pub const MOST_ENTRIES: usize = 65_536;

pub struct Images {
    pub seed: u64,
    pub cases: u64,
}

/// What is asked, and the reference's answers.
pub struct Asked {
    pub kind: &'static str,
    pub image: Vec<u8>,
    /// The output's bytes.
    pub room: usize,
    /// The places of each slice that is lent for entries.
    pub entries: usize,
    /// The image judged as a whole file.
    pub file: Result<Facts, Refusal>,
    /// What the writer makes of the image's values.
    pub written: Result<Vec<u8>, Refusal>,
}

impl Images {
    /// Seed and number can be set from outside, to try others.
    pub fn new(cases: u64) -> Images {
        Images {
            seed: setting("MIX_SEED", 20_150_707),
            cases: setting("REWRITE_CASES", cases),
        }
    }

    pub fn case(&self, case: u64) -> Asked {
        let mut random = Random::of_case(self.seed, case);
        let (kind, mut image) = any_image(&mut random);
        image.truncate(LONGEST_IMAGE);
        let values = Values::of_image(&image);
        let widest = values.write(GREATEST_ROOM);
        let room = match &widest {
            Ok(header) => room_for(header.len(), &mut random),
            Err(_) => room_to_waste(values.header_length() as usize, &mut random),
        };
        let counts = [
            values.shifted_lines.len(),
            values.timed_lines.len(),
            values.error_lines.len(),
        ];
        Asked {
            kind,
            room,
            entries: room_for_entries(counts, &mut random),
            file: accept(&image),
            // A room that is too small is all that can change the answer.
            written: match widest {
                Ok(header) if room < header.len() => Err(Refusal {
                    number: ROOM,
                    block: 0,
                    offset: 0,
                }),
                answer => answer,
            },
            image,
        }
    }
}

fn any_image(random: &mut Random) -> (&'static str, Vec<u8>) {
    match random.below(1_000) {
        0..=249 => {
            let case = small_case(random);
            (case.kind, case.bytes)
        }
        250..=251 => {
            let case = large_case(random);
            (case.kind, case.bytes)
        }
        252..=256 => ("long noise", long_noise(random)),
        257 => ("many entries, the last ones past the end", too_long(random)),
        258..=519 => whole_file(random),
        _ => damaged(random),
    }
}

/// A good file that fits into an image; most have few entries.
fn whole_file(random: &mut Random) -> (&'static str, Vec<u8>) {
    let mut recipe = Recipe::small(random);
    let (kind, a, b, c) = match random.below(100) {
        0..=19 => ("whole file, no entries", 1, 1, 1),
        20..=22 => ("whole file, some hundred entries", 600, 600, 1_500),
        23 => ("whole file, some thousand entries", 3_000, 3_000, 1_000),
        _ => ("whole file, a few entries", 5, 5, 5),
    };
    recipe.a = random.below(a);
    recipe.b = random.below(b);
    recipe.c = random.below(c);
    (kind, Sample::make(&recipe, random).bytes)
}

/// As many entries as can be with the count of block 10 still within the image.
fn too_long(random: &mut Random) -> Vec<u8> {
    let mut recipe = Recipe::small(random);
    recipe.a = random.below(6_437);
    recipe.b = random.within(0, 6_436 - recipe.a);
    recipe.c = random.pick(&[4_000, 20_000, GREATEST_C]);
    Sample::make(&recipe, random).bytes
}

/// A small file whose derived values are spoiled, or that is given other values.
fn damaged(random: &mut Random) -> (&'static str, Vec<u8>) {
    let mut sample = Sample::make(&Recipe::small(random), random);
    let kind = match random.below(400) {
        0..=49 => {
            damage::derived(&mut sample, random);
            "derived values spoiled"
        }
        50..=69 => {
            too_many(&mut sample, random);
            "about too many entries"
        }
        70..=79 => {
            too_many(&mut sample, random);
            damage::given(&mut sample, random);
            "about too many entries, and damaged"
        }
        80..=89 => {
            damage::derived(&mut sample, random);
            damage::cut(&mut sample, random);
            "derived values spoiled, then cut"
        }
        90..=244 => {
            damage::given(&mut sample, random);
            "one given value changed"
        }
        _ => {
            damage::derived(&mut sample, random);
            damage::given(&mut sample, random);
            damage::given(&mut sample, random);
            "two given values changed, derived ones spoiled"
        }
    };
    (kind, sample.bytes)
}

/// Random bytes up to the longest image. Small counts let some of it be read to its end.
fn long_noise(random: &mut Random) -> Vec<u8> {
    let mut bytes = vec![0; random.within(0, LONGEST_IMAGE as u64) as usize];
    random.fill(&mut bytes);
    if bytes.len() > 1_071 && random.coin() {
        bytes[5] = random.below(3) as u8;
        bytes[1_070] = random.below(4) as u8;
        bytes[1_071] = random.below(4) as u8;
    }
    bytes
}

/// The entry count of block 8 or 9 about its greatest, or far beyond; the entries are mostly past
/// the image's end.
fn too_many(sample: &mut Sample, random: &mut Random) {
    let (block, offset, greatest) = random.pick(&[(8, 19, GREATEST_A), (9, 3, GREATEST_B)]);
    let beyond = random.within(greatest + 1, 65_535);
    let count = match random.below(16) {
        0 => greatest,
        1 => 65_535,
        2..=13 => greatest + 1,
        _ => beyond,
    };
    sample.put(block, offset, 2, count);
}

/// Mostly enough, and close to the header's length.
fn room_for(length: usize, random: &mut Random) -> usize {
    let less = random.below(length as u64) as usize;
    match random.below(100) {
        0..=29 => length,
        30..=84 => length + random.within(1, 40) as usize,
        85..=92 => length - 1,
        93 => 0,
        // What would do without entries, or for a length of two bytes.
        94..=95 => 1_463,
        96 => length % 65_536,
        97 => GREATEST_ROOM.min(2 * length),
        _ => less,
    }
}

/// A refused image needs no room. Most get little, to be quick, and some get what they ask for.
fn room_to_waste(length: usize, random: &mut Random) -> usize {
    match random.below(64) {
        0 => length.min(GREATEST_ROOM),
        1..=31 => length.min(1_600),
        32..=40 => 1_462,
        41..=44 => 0,
        _ => random.below(1_600) as usize,
    }
}

/// Mostly enough for the entries of all blocks, and close to their number in one of them.
fn room_for_entries(counts: [usize; 3], random: &mut Random) -> usize {
    let most = counts.into_iter().max().unwrap_or(0);
    let any = random.below(MOST_ENTRIES as u64) as usize;
    let one = random.pick(&counts);
    match random.below(20) {
        0..=7 => most,
        8..=11 => most + 1,
        12 => MOST_ENTRIES,
        13 => any,
        14..=15 => one,
        16 => one + 1,
        _ => one.saturating_sub(1),
    }
}

/// Every refusal of the writer that an image can lead to, with the blocks that it can name: none has a
/// place, since the values come from no file. Too many entries in block 10 is not one of them: their count
/// has two bytes.
pub const REFUSALS: [Row; 13] = [
    (ORDER, "ORDER", &[At(1, 0)]),
    (LENGTH, "LENGTH", &[At(8, 0), At(9, 0)]),
    (PACKED, "PACKED", &[At(2, 0)]),
    (SATELLITE_FIELD, "satellite", &[At(1, 0)]),
    (AREA_FIELD, "area", &[At(1, 0)]),
    (TIMELINE_FIELD, "timeline", &[At(1, 0)]),
    (SIZE_FIELD, "columns or lines", &[At(2, 0)]),
    (COMPRESSION_FIELD, "compression flag", &[At(2, 0)]),
    (BAND_FIELD, "band", &[At(5, 0)]),
    (BITS_FIELD, "valid bits", &[At(5, 0)]),
    (SEGMENT_FIELD, "segment", &[At(7, 0)]),
    (NAME, "NAME", &[At(1, 0)]),
    (ROOM, "ROOM", &[At(0, 0)]),
];
