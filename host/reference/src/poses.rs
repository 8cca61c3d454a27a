//! Runs that no files have made: every number at its limit and beside it, alone and with another one at its own, files spread
//! over many places, and any numbers.

use crate::night::{Run, MOST_COUNTS};
use crate::random::Random;
use Member::{Accepted, Refused, Total};

/// A number of a run.
#[derive(Clone, Copy, PartialEq)]
enum Member {
    Total(usize),
    Accepted,
    Refused(usize),
}

impl Member {
    fn put(self, run: &mut Run, value: u64) {
        match self {
            Total(kind) => run.totals[kind] = value,
            // the values below for files have 32 bits
            Accepted => run.accepted = value as u32,
            Refused(place) => run.refused[place] = value as u32,
        }
    }
}

const MOST: u64 = u32::MAX as u64;

/// Numbers of files. Two of them may be one less than a run can hold, as many, or no files in 32 bits.
const FILES: [u64; 8] = [1, 2, 4_094, 4_095, 4_096, 4_097, MOST - 4_094, MOST];

/// Totals of a kind.
const COUNTS: [u64; 4] = [MOST_COUNTS - 1, MOST_COUNTS, MOST_COUNTS + 1, u64::MAX];

/// Every number of a run with every value, with refused files at these places alone.
fn limits(places: &[usize]) -> Vec<(Member, u64)> {
    let of_files = [Accepted]
        .into_iter()
        .chain(places.iter().map(|&place| Refused(place)));
    let files = of_files.flat_map(|member| FILES.map(|value| (member, value)));
    let counts = (0..5).flat_map(|kind| COUNTS.map(|value| (Total(kind), value)));
    files.chain(counts).collect()
}

/// One number is there, whatever its place is.
pub fn alone() -> Vec<Run> {
    let places: Vec<usize> = (0..64).collect();
    let posed = limits(&places).into_iter().map(|(member, value)| {
        let mut run = Run::EMPTY;
        member.put(&mut run, value);
        run
    });
    [Run::EMPTY].into_iter().chain(posed).collect()
}

/// Two numbers are there. Of the places three are of no refusal, the first and the last among them, and one is RUN's own.
pub fn pairs() -> Vec<Run> {
    let all = limits(&[0, 1, 7, 19, 38, 63]);
    let mut runs = Vec::new();
    for (at, &(first, first_value)) in all.iter().enumerate() {
        for &(second, value) in all[at + 1..].iter().filter(|(member, _)| *member != first) {
            let mut run = Run::EMPTY;
            first.put(&mut run, first_value);
            second.put(&mut run, value);
            runs.push(run);
        }
    }
    runs
}

/// As many files at each of some places and so many accepted: 4,096 in all, or one less or more at the last place.
pub fn spread() -> Vec<Run> {
    let every: Vec<usize> = (0..64).collect();
    let held: [(&[usize], u32, u32); 6] = [
        (&[0, 7, 19, 63], 1_024, 0),
        (&[7, 19], 2_048, 0),
        (&every, 64, 0),
        (&every, 63, 64),
        (&[63], 2_047, 2_049),
        (&[1, 2, 8, 12, 31, 38, 39, 40], 511, 8),
    ];
    let mut runs = everywhere();
    for (places, files, accepted) in held {
        for last in [files - 1, files, files + 1] {
            let mut run = Run::EMPTY;
            run.accepted = accepted;
            for &place in places {
                run.refused[place] = files;
            }
            run.refused[places[places.len() - 1]] = last;
            runs.push(run);
        }
    }
    runs
}

/// All numbers at once: at the limits, and so large that they make no files, or few, in 32 bits.
fn everywhere() -> Vec<Run> {
    let mut runs = Vec::new();
    for (accepted, refused) in [
        (0, 0),
        (4_095, 0),
        (63, 63),
        (64, 63),
        (0, 1 << 26),
        (64, u32::MAX),
        (u32::MAX, u32::MAX),
    ] {
        for total in [0, MOST_COUNTS, MOST_COUNTS + 1, u64::MAX] {
            runs.push(Run {
                totals: [total; 5],
                accepted,
                refused: [refused; 64],
            });
        }
    }
    runs
}

/// Any run: half of them hold a number of files that is close to the limit, and half have totals within theirs.
pub fn any(random: &mut Random) -> Run {
    let mut run = match random.below(4) {
        0..=1 => thrown(random.within(4_093, 4_098), random),
        2 => thrown(random.below(5_000), random),
        _ => wild(random),
    };
    let within = random.coin();
    for total in &mut run.totals {
        let close = random.within(MOST_COUNTS - 2, MOST_COUNTS + 2);
        let lawful = random.within(0, MOST_COUNTS);
        let any = random.number();
        *total = random.pick(&[0, 1, lawful, lawful, close, any]);
        if within {
            *total = (*total).min(MOST_COUNTS);
        }
    }
    run
}

/// So many files, in lots that fall anywhere.
fn thrown(files: u64, random: &mut Random) -> Run {
    let mut run = Run::EMPTY;
    let greatest = random.pick(&[1, 100, 5_000]);
    let mut left = files;
    while left > 0 {
        let lot = random.within(1, greatest.min(left));
        left -= lot;
        match random.below(65) {
            64 => run.accepted += lot as u32,
            place => run.refused[place as usize] += lot as u32,
        }
    }
    run
}

/// Each number is 0, small, close to the limit, or any; in some runs nearly all are 0.
fn wild(random: &mut Random) -> Run {
    let common = random.pick(&[4, 20, 100]);
    let mut files = || match random.below(common) {
        0 => random.number() as u32,
        1 => random.within(4_093, 4_098) as u32,
        2 => random.below(50) as u32,
        _ => 0,
    };
    Run {
        accepted: files(),
        refused: std::array::from_fn(|_| files()),
        ..Run::EMPTY
    }
}
