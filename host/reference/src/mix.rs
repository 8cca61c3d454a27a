//! The inputs on which acceptance is tried, each made from a seed and its number, and the refusals
//! that they can lead to.

use crate::accept::{
    AREA_FIELD, BAND_FIELD, BITS_FIELD, COMPRESSION_FIELD, CUT, DATA_SUM, FIXED, HEADER_SUM,
    LENGTH, NAME, NUMBER, ORDER, PACKED, SATELLITE_FIELD, SEGMENT_FIELD, SHORT, SIZE_FIELD, TAIL,
    TIMELINE_FIELD,
};
use crate::breach::{self, Breach};
use crate::damage;
use crate::make::{Recipe, Sample};
use crate::random::Random;
use crate::tally::Place::{self, At, From};
use crate::tally::Row;

/// How many inputs of each size there are. The small ones come first; every two breaches of the
/// rules, in both byte orders and each of the two done first, come last.
pub struct Plan {
    pub seed: u64,
    pub small: u64,
    large: u64,
    segments: u64,
    breaches: Vec<Breach>,
}

pub struct Case {
    pub kind: &'static str,
    pub bytes: Vec<u8>,
}

impl Plan {
    /// The seed and the number of small inputs can be set from outside, to try others.
    pub fn new(small: u64) -> Plan {
        Plan {
            seed: setting("MIX_SEED", 20_150_707),
            small: setting("MIX_SMALL", small),
            large: 600,
            segments: 12,
            breaches: breach::breaches(&breach::recipe(0)),
        }
    }

    pub fn cases(&self) -> u64 {
        let breaches = self.breaches.len() as u64;
        self.small + self.large + self.segments + 2 * breaches * breaches
    }

    pub fn case(&self, case: u64) -> Case {
        let mut random = Random::of_case(self.seed, case);
        let segments_from = self.small + self.large;
        let pairs_from = segments_from + self.segments;
        if case < self.small {
            small_case(&mut random)
        } else if case < segments_from {
            large_case(&mut random)
        } else if case < pairs_from {
            segment_case(case % 3, &mut random)
        } else {
            self.pair_case((case - pairs_from) as usize, &mut random)
        }
    }

    fn pair_case(&self, pair: usize, random: &mut Random) -> Case {
        let breaches = self.breaches.len();
        let mut sample = Sample::make(&breach::recipe(pair as u64 % 2), random);
        self.breaches[pair / 2 % breaches].apply(&mut sample);
        self.breaches[pair / 2 / breaches].apply(&mut sample);
        Case {
            kind: "two rules broken",
            bytes: sample.bytes,
        }
    }
}

pub(crate) fn setting(name: &str, default: u64) -> u64 {
    match std::env::var(name) {
        Ok(text) => text
            .parse()
            .unwrap_or_else(|_| panic!("{name} is not a number")),
        Err(_) => default,
    }
}

pub(crate) fn small_case(random: &mut Random) -> Case {
    let kind = random.below(100);
    if kind < 6 {
        return noise(random);
    }
    let recipe = Recipe::small(random);
    let mut sample = Sample::make(&recipe, random);
    let kind = match kind {
        6..=11 => {
            let from = random.below(sample.bytes.len() as u64) as usize;
            random.fill(&mut sample.bytes[from..]);
            "good at first, then noise"
        }
        12..=23 => "good",
        24..=33 => {
            damage::one_byte(&mut sample, random);
            "one byte changed"
        }
        34..=63 => {
            damage::aimed(&mut sample, random);
            "one rule aimed at"
        }
        64..=81 => {
            damage::any(&mut sample, random);
            damage::any(&mut sample, random);
            "damaged twice"
        }
        82..=86 => {
            damage::cut(&mut sample, random);
            "cut anywhere"
        }
        87..=93 => {
            damage::border_cut(&mut sample, random);
            "cut at a border"
        }
        _ => {
            damage::extra(&mut sample, random);
            "bytes at the end"
        }
    };
    Case {
        kind,
        bytes: sample.bytes,
    }
}

/// Random bytes. Some get a right beginning, or hardly any would pass the first two checks.
fn noise(random: &mut Random) -> Case {
    let mut bytes = vec![0; random.below(3_000) as usize];
    random.fill(&mut bytes);
    if bytes.len() > 5 && random.coin() {
        bytes[0] = 1;
        bytes[5] = random.below(3) as u8;
    }
    Case {
        kind: "noise",
        bytes,
    }
}

pub(crate) fn large_case(random: &mut Random) -> Case {
    let recipe = Recipe::large(random);
    let mut sample = Sample::make(&recipe, random);
    let kind = match random.below(4) {
        0 => "many entries, good",
        1 => {
            damage::border_cut(&mut sample, random);
            "many entries, cut at a border"
        }
        _ => {
            damage::any(&mut sample, random);
            "many entries, damaged"
        }
    };
    Case {
        kind,
        bytes: sample.bytes,
    }
}

fn segment_case(choice: u64, random: &mut Random) -> Case {
    let recipe = Recipe::segment(random);
    let mut bytes = Sample::make(&recipe, random).bytes;
    let kind = match choice {
        0 => "whole segment, good",
        1 => {
            bytes.pop();
            "whole segment, one byte less"
        }
        _ => {
            bytes.push(random.byte());
            "whole segment, one byte more"
        }
    };
    Case { kind, bytes }
}

/// Where blocks 1 to 11 begin.
const BEGINNINGS: [Place; 11] = [
    At(1, 0),
    At(2, 282),
    At(3, 332),
    At(4, 459),
    At(5, 598),
    At(6, 745),
    At(7, 1_004),
    At(8, 1_051),
    From(9, 1_112),
    From(10, 1_157),
    From(11, 1_204),
];

/// Where their lengths stand.
const LENGTHS: [Place; 11] = [
    At(1, 1),
    At(2, 283),
    At(3, 333),
    At(4, 460),
    At(5, 599),
    At(6, 746),
    At(7, 1_005),
    At(8, 1_052),
    From(9, 1_113),
    From(10, 1_158),
    From(11, 1_205),
];

/// Every refusal of a file with the places that it can name.
pub const REFUSALS: [Row; 19] = [
    (SHORT, "SHORT", &BEGINNINGS),
    (NUMBER, "NUMBER", &BEGINNINGS),
    (ORDER, "ORDER", &[At(1, 5)]),
    (LENGTH, "LENGTH", &LENGTHS),
    (
        FIXED,
        "FIXED",
        &[At(1, 3), At(2, 285), At(5, 613), At(5, 615)],
    ),
    (PACKED, "PACKED", &[At(2, 291)]),
    (SATELLITE_FIELD, "satellite", &[At(1, 6)]),
    (AREA_FIELD, "area", &[At(1, 38)]),
    (TIMELINE_FIELD, "timeline", &[At(1, 44)]),
    (SIZE_FIELD, "columns or lines", &[At(2, 287), At(2, 289)]),
    (COMPRESSION_FIELD, "compression flag", &[At(2, 291)]),
    (BAND_FIELD, "band", &[At(5, 601)]),
    (BITS_FIELD, "valid bits", &[At(5, 611)]),
    (
        SEGMENT_FIELD,
        "segment",
        &[At(7, 1_007), At(7, 1_008), At(7, 1_009)],
    ),
    (HEADER_SUM, "HEADER SUM", &[At(1, 70)]),
    (DATA_SUM, "DATA SUM", &[At(1, 74)]),
    (NAME, "NAME", &[At(1, 114)]),
    (CUT, "CUT", &[From(12, 1_463)]),
    (TAIL, "TAIL", &[From(12, 1_463)]),
];

/// All of these after one that is told before the file is looked at.
pub(crate) const fn refusals_after(first: Row) -> [Row; 20] {
    let mut rows = [first; 20];
    let mut row = 0;
    while row < REFUSALS.len() {
        rows[1 + row] = REFUSALS[row];
        row += 1;
    }
    rows
}
