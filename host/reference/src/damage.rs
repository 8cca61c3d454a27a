//! Damages good files: by chance, or aimed at one rule of the paper. Aimed damage stays close to
//! what is right, and some of it makes another good file: the reference says which.

use crate::make::{length_width, Recipe, Sample, BASE};
use crate::random::Random;

pub type Way = fn(&mut Sample, &mut Random);

/// Each way is aimed at one rule. The first ones change what the writer is given, counts that wrap
/// around left out: reading so many entries takes long.
pub const AIMED: [Way; 24] = [
    byte_order,
    compression,
    columns,
    lines,
    satellite,
    area,
    timeline,
    band,
    valid_bits,
    segment_total,
    segment_number,
    first_line,
    name_letter,
    name_zero,
    name_date,
    name_part,
    name_resolution,
    entry_count,
    block_number,
    block_length,
    fixed_value,
    header_sum,
    data_sum,
    wrapped_count,
];

const GIVEN: usize = 18;

pub fn given(sample: &mut Sample, random: &mut Random) {
    let way = random.pick(&AIMED[..GIVEN]);
    way(sample, random);
}

pub fn aimed(sample: &mut Sample, random: &mut Random) {
    let way = random.pick(&AIMED);
    way(sample, random);
}

/// Any kind of damage, for two of them together.
pub fn any(sample: &mut Sample, random: &mut Random) {
    let way: Way = random.pick(&[aimed as Way, aimed, aimed, one_byte, cut, border_cut, extra]);
    way(sample, random);
}

pub fn one_byte(sample: &mut Sample, random: &mut Random) {
    if !sample.bytes.is_empty() {
        let at = random.below(sample.bytes.len() as u64) as usize;
        sample.bytes[at] ^= random.within(1, 255) as u8;
    }
}

pub fn cut(sample: &mut Sample, random: &mut Random) {
    let length = random.within(0, sample.bytes.len() as u64) as usize;
    sample.bytes.truncate(length);
}

/// A cut at the border of a block, at the end that it would have without entries, or one beside.
pub fn border_cut(sample: &mut Sample, random: &mut Random) {
    let block = random.within(1, 12) as usize;
    let border = match random.below(3) {
        0 if block < 12 => sample.start(block) + BASE[block - 1],
        0 => sample.bytes.len(),
        _ => sample.start(block),
    };
    let length = (border + random.below(3) as usize).saturating_sub(1);
    sample.bytes.truncate(length);
}

pub fn extra(sample: &mut Sample, random: &mut Random) {
    // 65,536 more would be none at all to a length kept in two bytes.
    let number = match random.below(64) {
        0 => 65_536,
        1..=31 => 1,
        _ => random.within(1, 40),
    };
    let mut added = vec![0; number as usize];
    random.fill(&mut added);
    sample.bytes.extend(added);
}

/// A value that a careless check could take for the right one, or any value.
fn near(random: &mut Random, right: u64, width: usize, edges: &[u64]) -> u64 {
    let bits = 8 * width as u64;
    let value = match random.below(8) {
        0 => right.wrapping_add(1),
        1 => right.wrapping_sub(1),
        2 => right ^ (1 << random.below(bits)),
        3 => right.swap_bytes() >> (64 - bits),
        4..=6 => random.pick(edges),
        _ => random.number(),
    };
    value & (u64::MAX >> (64 - bits))
}

/// Half of the time the name follows a changed field, so that the name rule hides nothing.
fn perhaps_rename(sample: &mut Sample, random: &mut Random) {
    if random.coin() {
        let name = sample.recipe.name();
        sample.put_text(1, 114, &name);
    }
}

fn block_number(sample: &mut Sample, random: &mut Random) {
    let block = random.within(1, 11);
    let number = near(random, block, 1, &[0, 12, 255]);
    sample.put(block as usize, 0, 1, number);
}

fn block_length(sample: &mut Sample, random: &mut Random) {
    let block = random.within(1, 11) as usize;
    let right = (sample.start(block + 1) - sample.start(block)) as u64;
    let base = BASE[block - 1] as u64;
    let length = near(
        random,
        right,
        length_width(block),
        &[0, base, right % 65_536, right + 65_536],
    );
    sample.put(block, 1, length_width(block), length);
}

fn byte_order(sample: &mut Sample, random: &mut Random) {
    let any = u64::from(random.byte());
    let order = random.pick(&[1 - sample.recipe.order, 2, 3, 255, any]);
    sample.put(1, 5, 1, order);
}

fn fixed_value(sample: &mut Sample, random: &mut Random) {
    let (block, offset, right) =
        random.pick(&[(1, 3, 11), (2, 3, 16), (5, 15, 65_535), (5, 17, 65_534)]);
    let value = near(random, right, 2, &[0, 11, 12, 16, 65_533, 65_534, 65_535]);
    sample.put(block, offset, 2, value);
}

fn compression(sample: &mut Sample, random: &mut Random) {
    let any = u64::from(random.byte());
    let flag = random.pick(&[1, 2, 3, 255, any]);
    sample.put(2, 9, 1, flag);
}

fn columns(sample: &mut Sample, random: &mut Random) {
    let columns = near(
        random,
        sample.recipe.columns,
        2,
        &[0, 1, 22_000, 22_001, 32_768, 65_535],
    );
    sample.recipe.columns = columns;
    sample.put(2, 5, 2, columns);
    perhaps_resize(sample, random);
}

fn lines(sample: &mut Sample, random: &mut Random) {
    let lines = near(
        random,
        sample.recipe.lines,
        2,
        &[0, 1, 22_000, 22_001, 32_768, 65_535],
    );
    sample.recipe.lines = lines;
    sample.put(2, 7, 2, lines);
    perhaps_resize(sample, random);
    if random.coin() {
        sample.recipe.first_line = 1;
        sample.put(7, 5, 2, 1);
    }
}

/// The sum and the counts may follow a changed size, truly or as 16 bits would have it.
fn perhaps_resize(sample: &mut Sample, random: &mut Random) {
    let length = sample.recipe.data_length();
    match random.below(4) {
        0 => {}
        1 => sample.put(1, 74, 4, length % 65_536),
        _ => sample.put(1, 74, 4, length),
    }
    let counts = sample.start(12);
    if sample.bytes.len() >= counts {
        match random.below(4) {
            0 => sample.bytes.resize(counts + (length % 65_536) as usize, 0),
            1 if length <= 200_000 => sample.bytes.resize(counts + length as usize, 0),
            _ => {}
        }
    }
}

fn satellite(sample: &mut Sample, random: &mut Random) {
    match random.below(4) {
        0 => {
            sample.recipe.satellite = 17 - sample.recipe.satellite;
            let digit = b'0' + sample.recipe.satellite as u8;
            sample.put_text(1, 15, &[digit]);
            perhaps_rename(sample, random);
        }
        1 => sample.put_text(1, 6, b"MTSAT-2\0\0\0\0\0\0\0\0\0"),
        2 => sample.put_text(1, 16, b"      "),
        _ => {
            let at = random.within(6, 21) as usize;
            let byte = random.byte();
            sample.put_text(1, at, &[byte]);
        }
    }
}

fn area(sample: &mut Sample, random: &mut Random) {
    let any = Recipe::small(random).area;
    let mut one_letter = sample.recipe.area;
    let letter = random.below(4) as usize;
    one_letter[letter] = near(
        random,
        u64::from(one_letter[letter]),
        1,
        b"0159R /:".map(u64::from).as_slice(),
    ) as u8;
    let edge = random.pick(&[
        *b"JP00", *b"JP05", *b"R300", *b"R305", *b"R400", *b"R421", *b"R500", *b"R521", *b"R601",
        *b"R201", *b"fldk", *b"FLDk", *b"HNDK", *b"JP1\0", *b"R4 1", *b"R4:0", *b"R51/", *b"JP20",
        *b"R320",
    ]);
    sample.recipe.area = random.pick(&[any, one_letter, edge]);
    let changed = sample.recipe.area;
    sample.put_text(1, 38, &changed);
    perhaps_rename(sample, random);
}

fn timeline(sample: &mut Sample, random: &mut Random) {
    let other = 100 * random.below(24) + 10 * random.below(6);
    let off = 100 * random.below(25) + random.below(100);
    let edges = [other, other, off, 0, 60, 2_350, 2_360, 2_400, 2_355, 65_500];
    let changed = near(random, sample.recipe.timeline, 2, &edges);
    sample.recipe.timeline = changed;
    sample.put(1, 44, 2, changed);
    perhaps_rename(sample, random);
}

fn band(sample: &mut Sample, random: &mut Random) {
    let other = random.within(1, 16);
    let changed = near(
        random,
        sample.recipe.band,
        2,
        &[other, other, other, 0, 1, 16, 17, 65_535],
    );
    sample.recipe.band = changed;
    sample.put(5, 3, 2, changed);
    if random.coin() {
        let bits = sample.recipe.valid_bits();
        sample.put(5, 13, 2, bits);
    }
    perhaps_rename(sample, random);
}

fn valid_bits(sample: &mut Sample, random: &mut Random) {
    let bits = near(
        random,
        sample.recipe.valid_bits(),
        2,
        &[0, 10, 11, 12, 13, 14, 16],
    );
    sample.put(5, 13, 2, bits);
}

fn segment_total(sample: &mut Sample, random: &mut Random) {
    let number = sample.recipe.number;
    let edges = [0, 1, 99, 100, 255, number, number.saturating_sub(1)];
    let changed = near(random, sample.recipe.total, 1, &edges);
    sample.recipe.total = changed;
    sample.put(7, 3, 1, changed);
    perhaps_rename(sample, random);
}

fn segment_number(sample: &mut Sample, random: &mut Random) {
    let total = sample.recipe.total;
    let changed = near(
        random,
        sample.recipe.number,
        1,
        &[0, 1, total, total + 1, 99, 100, 255],
    );
    sample.recipe.number = changed;
    sample.put(7, 4, 1, changed);
    perhaps_rename(sample, random);
}

fn first_line(sample: &mut Sample, random: &mut Random) {
    // The last two pass 16 bits once the lines are added.
    let lines = sample.recipe.lines;
    let edges = [
        0,
        1,
        22_000,
        22_001,
        22_001_u64.saturating_sub(lines),
        22_002_u64.saturating_sub(lines),
        65_536_u64.saturating_sub(lines),
        65_537_u64.saturating_sub(lines),
    ];
    let changed = near(random, sample.recipe.first_line, 2, &edges);
    sample.recipe.first_line = changed;
    sample.put(7, 5, 2, changed);
}

fn header_sum(sample: &mut Sample, random: &mut Random) {
    let right = sample.start(12) as u64;
    let sum = near(
        random,
        right,
        4,
        &[0, 1_463, right % 65_536, right + 65_536],
    );
    sample.put(1, 70, 4, sum);
}

fn data_sum(sample: &mut Sample, random: &mut Random) {
    let right = sample.recipe.data_length();
    let sum = near(
        random,
        right,
        4,
        &[0, right / 2, right % 65_536, right + 65_536],
    );
    sample.put(1, 74, 4, sum);
}

fn name_letter(sample: &mut Sample, random: &mut Random) {
    let at = random.below(43) as usize;
    let right = u64::from(sample.recipe.name()[at]);
    let letter = near(
        random,
        right,
        1,
        b"0123456789 _H\0".map(u64::from).as_slice(),
    );
    sample.put(1, 114 + at, 1, letter);
}

fn name_zero(sample: &mut Sample, random: &mut Random) {
    let any = random.within(43, 127);
    let at = random.pick(&[43, 44, 127, any]) as usize;
    let letter = random.pick(&[1, 32, 48, 255]);
    sample.put(1, 114 + at, 1, letter);
}

fn name_date(sample: &mut Sample, random: &mut Random) {
    let recipe = &mut sample.recipe;
    match random.below(4) {
        0 => recipe.year = random.pick(&[0, 1900, 1999, 2000, 2004, 2099, 2100, 2400]),
        1 => recipe.month = random.within(0, 13),
        2 => recipe.day = random.pick(&[0, 28, 29, 30, 31, 32]),
        _ => {
            recipe.year = random.within(2000, 2099);
            recipe.month = 2;
            recipe.day = random.within(28, 30);
        }
    }
    let name = recipe.name();
    sample.put_text(1, 114, &name);
}

/// The name tells one thing of another file.
fn name_part(sample: &mut Sample, random: &mut Random) {
    let other = Recipe::small(random);
    let mut told = sample.recipe.clone();
    match random.below(6) {
        0 => told.satellite = random.pick(&[7, 8, 9]),
        1 => told.timeline = other.timeline,
        2 => told.band = other.band,
        3 => told.area = other.area,
        4 => told.number = other.number,
        _ => told.total = other.total,
    }
    sample.put_text(1, 114, &told.name());
}

fn name_resolution(sample: &mut Sample, random: &mut Random) {
    let resolution = random.pick(&[*b"05", *b"10", *b"20", *b"40", *b"00"]);
    sample.put_text(1, 114 + 31, &resolution);
}

/// Of blocks 8 to 10: where the count stands, the bytes of an entry, and the count.
fn entries(sample: &mut Sample, block: usize) -> (usize, u64, &mut u64) {
    match block {
        8 => (19, 10, &mut sample.recipe.a),
        9 => (3, 10, &mut sample.recipe.b),
        _ => (5, 4, &mut sample.recipe.c),
    }
}

/// The length, the entries and the header's sum may follow a changed count, or not.
fn entry_count(sample: &mut Sample, random: &mut Random) {
    let block = random.within(8, 10) as usize;
    let (offset, entry, count) = entries(sample, block);
    let new = near(
        random,
        *count,
        2,
        &[0, 1, 2, 3, 4, 5, 6_547, 6_548, 6_549, 6_550, 65_535],
    );
    *count = new;
    sample.put(block, offset, 2, new);
    let length = BASE[block - 1] as u64 + entry * new;
    if random.coin() {
        sample.put(block, 1, length_width(block), length);
    }
    if new < 64 && random.coin() {
        let old_length = sample.start(block + 1) - sample.start(block);
        sample.stretch(block, offset + 2, length as i64 - old_length as i64, random);
    }
    if random.coin() {
        let sum = sample.start(12) as u64;
        sample.put(1, 70, 4, sum);
    }
}

/// Counts whose length passes two bytes. With 32,768 entries more, a length that wraps around
/// stays as it was and all the rest of the file fits.
fn wrapped_count(sample: &mut Sample, random: &mut Random) {
    let block = random.within(8, 9) as usize;
    let (offset, entry, count) = entries(sample, block);
    let new = match random.below(3) {
        0 => (*count + 32_768) % 65_536,
        1 => random.within(6_547, 6_551),
        _ => random.within(6_551, 65_535),
    };
    *count = new;
    sample.put(block, offset, 2, new);
    sample.put(block, 1, 2, BASE[block - 1] as u64 + entry * new);
}

/// Random bytes wherever a value is derived, the entry counts apart.
pub fn derived(sample: &mut Sample, random: &mut Random) {
    for block in 1..=11 {
        let number = random.number();
        sample.put(block, 0, 1, number);
        let length = random.number();
        sample.put(block, 1, length_width(block), length);
    }
    for (block, offset, width) in [
        (1, 3, 2),
        (1, 70, 4),
        (1, 74, 4),
        (2, 3, 2),
        (5, 15, 2),
        (5, 17, 2),
    ] {
        let value = random.number();
        sample.put(block, offset, width, value);
    }
}
