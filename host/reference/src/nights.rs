//! The files on which night totals are tried, each night made from a seed and its number: good files with counts of every
//! kind, whose gain and constant often stand where what they give is just finite or just not, and damaged ones. And the
//! refusals that adding a file can lead to.

use crate::damage;
use crate::make::{Recipe, Sample};
use crate::mix::{large_case, refusals_after, setting, small_case, Case};
use crate::night::RUN;
use crate::random::Random;
use crate::tally::{Place::At, Row};

pub struct Nights {
    pub seed: u64,
    pub nights: u64,
}

impl Nights {
    /// Seed and number can be set from outside, to try others.
    pub fn new(nights: u64) -> Nights {
        Nights {
            seed: setting("MIX_SEED", 20_150_707),
            nights: setting("NIGHTS", nights),
        }
    }

    /// The files of a night; a run can hold them all.
    pub fn files(&self, night: u64) -> impl Iterator<Item = Case> {
        let mut random = Random::of_case(self.seed, night);
        let files = random.within(100, 700);
        (0..files).map(move |_| any_file(&mut random))
    }
}

fn any_file(random: &mut Random) -> Case {
    match random.below(400) {
        0 => large_case(random),
        1..=150 => small_case(random),
        151..=180 => {
            let mut sample = any_planted(random).1;
            damage::any(&mut sample, random);
            Case {
                kind: "planted, then damaged",
                bytes: sample.bytes,
            }
        }
        _ => {
            let (kind, sample) = any_planted(random);
            Case {
                kind,
                bytes: sample.bytes,
            }
        }
    }
}

fn any_planted(random: &mut Random) -> (&'static str, Sample) {
    let few = random.within(1, 30);
    let some = random.within(1, 3_000);
    let beside = random.pick(&SIZES[..18]);
    let counts = random.pick(&[few, few, few, few, few, few, some, beside]);
    let recipe = sized(counts, random);
    let calibration = random.pick(&CALIBRATIONS);
    (calibration.0, planted(&recipe, calibration, random))
}

/// Numbers of counts at which whoever goes by so many at a time may end: powers of two and their neighbours. 65,537 is a
/// prime number and too long for a line.
pub const SIZES: [u64; 21] = [
    1, 2, 3, 255, 256, 257, 511, 512, 513, 1_023, 1_024, 1_025, 4_095, 4_096, 4_097, 8_191, 8_192,
    8_193, 65_535, 65_536, 65_538,
];

/// A recipe of so many counts, in lines of any length that fits.
pub fn sized(counts: u64, random: &mut Random) -> Recipe {
    let fits = |columns: &u64| counts.is_multiple_of(*columns) && counts / columns <= 22_000;
    let lengths: Vec<u64> = (1..=counts.min(22_000)).filter(fits).collect();
    let columns = random.pick(&lengths);
    let lines = counts / columns;
    let several = random.within(4, 40);
    Recipe {
        columns,
        lines,
        first_line: random.within(1, 22_001 - lines),
        c: random.pick(&[0, 0, 1, 1, 2, 3, several]),
        ..Recipe::small(random)
    }
}

/// Gain and constant, given a count from which on they may give no finite number.
type Way = fn(f64, &mut Random) -> (f64, f64);

pub type Calibration = (&'static str, Way);

/// Half a step of the greatest finite number, 2 to the 970: with so much more it becomes infinite.
const HALF_STEP: f64 = f64::from_bits(0x7c90_0000_0000_0000);

pub const CALIBRATIONS: [Calibration; 19] = [
    ("ordinary", |_, random| {
        (share(random), 99.0 * share(random))
    }),
    ("gain 0.5, constant -1", |_, _| (0.5, -1.0)),
    ("gain 0", |_, random| {
        let constants = [1.0, f64::MAX, f64::MIN_POSITIVE];
        (signed(0.0, random), signed(random.pick(&constants), random))
    }),
    ("constant 0", |_, random| {
        (share(random), signed(0.0, random))
    }),
    ("gain no number", |_, random| (nan(random), share(random))),
    ("constant no number", |_, random| {
        (share(random), nan(random))
    }),
    ("gain infinite", |_, random| {
        (infinite(random), share(random))
    }),
    ("constant infinite", |_, random| {
        (share(random), infinite(random))
    }),
    ("both infinite", |_, random| {
        (infinite(random), infinite(random))
    }),
    ("gain 1e305", |_, random| {
        (signed(1e305, random), share(random))
    }),
    ("gain greatest", |_, random| {
        let constants = [f64::MAX, 1.0, 0.0];
        let constant = random.pick(&constants);
        (signed(f64::MAX, random), signed(constant, random))
    }),
    ("gain huge", |edge, random| {
        (signed(huge_gain(edge, random), random), share(random))
    }),
    ("gain huge, constant huge against it", |edge, random| {
        let constant = random.pick(&[f64::MAX, f64::MAX / 2.0, f64::MAX / edge]);
        mirrored((huge_gain(edge, random), -constant), random)
    }),
    ("gain huge, constant infinite against it", |edge, random| {
        mirrored((huge_gain(edge, random), f64::NEG_INFINITY), random)
    }),
    ("gain huge, constant huge with it", |edge, random| {
        let constant = share(random).abs() * f64::MAX;
        let gain = beside((f64::MAX - constant) / edge, random);
        mirrored((gain, constant), random)
    }),
    ("gain huge, constant about half a step", |edge, random| {
        let constant = beside(HALF_STEP, random) * random.pick(&[0.5, 1.0, 2.0]);
        mirrored((huge_gain(edge, random), constant), random)
    }),
    (
        "constant greatest, gain about half a step",
        |edge, random| mirrored((beside(HALF_STEP / edge, random), f64::MAX), random),
    ),
    ("subnormal", |_, random| {
        let mut tiny = || f64::from_bits(random.within(1, (1 << 52) - 1));
        let (gain, constant) = (tiny(), tiny());
        (signed(gain, random), signed(constant, random))
    }),
    ("any bits", |_, random| {
        let mut any = || f64::from_bits(random.number());
        (any(), any())
    }),
];

/// Times the count this is about the greatest finite number.
fn huge_gain(edge: f64, random: &mut Random) -> f64 {
    beside(f64::MAX / edge, random)
}

/// A positive number or one that is a step or two away, but none that is infinite.
fn beside(number: f64, random: &mut Random) -> f64 {
    f64::from_bits(number.to_bits() + random.below(5) - 2).min(f64::MAX)
}

/// Between -1 and 1.
fn share(random: &mut Random) -> f64 {
    let share = random.below(1 << 53) as f64 / (1_u64 << 53) as f64;
    signed(share, random)
}

fn signed(number: f64, random: &mut Random) -> f64 {
    if random.coin() {
        number
    } else {
        -number
    }
}

/// Both as they are, or both negated.
fn mirrored((gain, constant): (f64, f64), random: &mut Random) -> (f64, f64) {
    let sign = signed(1.0, random);
    (sign * gain, sign * constant)
}

fn infinite(random: &mut Random) -> f64 {
    signed(f64::INFINITY, random)
}

fn nan(random: &mut Random) -> f64 {
    let quiet = 0x7ff8_0000_0000_0000;
    let any = quiet | random.below(1 << 51);
    let signalling = 0x7ff0_0000_0000_0001;
    let sign = random.below(2) << 63;
    f64::from_bits(sign | random.pick(&[quiet, any, signalling]))
}

/// A good file with counts of every kind.
pub fn planted(recipe: &Recipe, (_, way): Calibration, random: &mut Random) -> Sample {
    let last = (1 << recipe.valid_bits()) - 1;
    let any = random.within(1, last);
    let edge = random.pick(&[any, any, any, 1, 2, last]);
    let (gain, constant) = way(edge as f64, random);
    let mut sample = Sample::make(recipe, random);
    sample.put(5, 19, 8, gain.to_bits());
    sample.put(5, 27, 8, constant.to_bits());
    let errors = plant_counts(&mut sample, edge, random);
    plant_entries(&mut sample, errors, random);
    sample
}

/// A count at a border between two kinds, or beside it, or any.
fn any_count(last: u64, edge: u64, random: &mut Random) -> u64 {
    let within = random.within(0, last);
    let any = random.below(65_536);
    random.pick(&[
        0,
        1,
        edge - 1,
        edge,
        edge + 1,
        last,
        last + 1,
        65_533,
        65_534,
        65_535,
        within,
        any,
    ])
}

/// All counts mixed, or mostly within the valid bits, or all the same, or all but one. Answers how many are error pixels.
fn plant_counts(sample: &mut Sample, edge: u64, random: &mut Random) -> u64 {
    let last = (1 << sample.recipe.valid_bits()) - 1;
    let counts = sample.recipe.columns * sample.recipe.lines;
    let same = any_count(last, edge, random);
    let any_place = random.below(counts);
    let apart = random.pick(&[0, counts - 1, any_place]);
    let way = random.below(6);
    let mut errors = 0;
    for place in 0..counts {
        let count = match way {
            0 => same,
            1 if place != apart => same,
            2 if random.below(16) > 0 => random.within(0, last),
            _ => any_count(last, edge, random),
        };
        sample.put(12, 2 * place as usize, 2, count);
        errors += u64::from(count == 65_535);
    }
    errors
}

/// Block 10 lists no error pixels, as many as it can, just those that are there, or any.
fn plant_entries(sample: &mut Sample, errors: u64, random: &mut Random) {
    let entries = sample.recipe.c as usize;
    let way = random.below(4);
    let mut left = errors;
    for entry in 0..entries {
        let pixels = match way {
            0 => 0,
            1 => 65_535,
            2 if entry + 1 == entries => left.min(65_535),
            2 => random.within(0, left.min(65_535)),
            _ => random.below(65_536),
        };
        left = left.saturating_sub(pixels);
        sample.put(10, 9 + 4 * entry, 2, pixels);
    }
}

/// Every refusal of a file that is added, with the places that it can name.
pub const ADDING: [Row; 20] = refusals_after((RUN, "RUN", &[At(0, 0)]));
