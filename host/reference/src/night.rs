//! Night totals, from documents 01 and 02 alone: what a count reads as, and how a file is added to a run. Every count is read
//! by itself. A run may hold any numbers; its files are summed up in 64 bits, where they cannot wrap.

use crate::accept::{accept, demand, Facts, Refusal};

pub const RUN: u8 = 19;

/// A run that holds so many files takes no more.
pub const MOST_FILES: u64 = 4_096;

/// No kind's total may be above the counts of so many files of the greatest size.
pub const MOST_COUNTS: u64 = 4_096 * 484_000_000;

/// What a count reads as.
#[derive(Clone, Copy, Debug, PartialEq)]
pub enum Reading {
    Radiance(f64),
    ErrorPixel,
    Outside,
    OverRange,
    Uncalibrated,
}

/// The kinds of reading, as a run has them.
pub const KINDS: [&str; 5] = ["radiance", "error", "outside", "over", "uncalibrated"];

/// The place of error pixels among them.
const ERROR: usize = 1;

impl Reading {
    /// The place of its kind.
    pub fn kind(self) -> usize {
        match self {
            Reading::Radiance(_) => 0,
            Reading::ErrorPixel => ERROR,
            Reading::Outside => 2,
            Reading::OverRange => 3,
            Reading::Uncalibrated => 4,
        }
    }
}

/// Block 5's own pair, gain and constant, and its valid bits read a count.
pub fn read_count(gain: f64, constant: f64, valid_bits: u16, count: u16) -> Reading {
    // with 16 bits or more none is over range
    let over = 1_u32 << valid_bits.min(16);
    match count {
        65_535 => Reading::ErrorPixel,
        65_534 => Reading::Outside,
        _ if u32::from(count) >= over => Reading::OverRange,
        _ => {
            let product = gain * f64::from(count);
            let radiance = product + constant;
            if radiance.is_finite() {
                Reading::Radiance(radiance)
            } else {
                Reading::Uncalibrated
            }
        }
    }
}

#[derive(Clone, Debug, PartialEq, Eq)]
pub struct Run {
    /// How many counts of accepted files read as each kind.
    pub totals: [u64; 5],
    /// Files.
    pub accepted: u32,
    /// Files, by the number of their refusal.
    pub refused: [u32; 64],
}

impl Run {
    pub const EMPTY: Run = Run {
        totals: [0; 5],
        accepted: 0,
        refused: [0; 64],
    };

    /// How many files it holds: no number of its own tells that.
    pub fn held(&self) -> u64 {
        let refused: u64 = self.refused.iter().map(|&files| u64::from(files)).sum();
        u64::from(self.accepted) + refused
    }

    /// Whether a file can be added.
    pub fn is_open(&self) -> bool {
        let refused_within = |&files: &u32| u64::from(files) <= MOST_FILES;
        self.held() < MOST_FILES
            && self.totals.iter().all(|&total| total <= MOST_COUNTS)
            && self.refused.iter().all(refused_within)
    }
}

/// Adds a file. Of an accepted one this answers the error pixels found, less those that block 10 lists. RUN is not counted
/// among the refused.
pub fn add(run: &mut Run, file: &[u8]) -> Result<i64, Refusal> {
    demand(run.is_open(), RUN, 0)?;
    let judged = accept(file);
    let facts = judged.inspect_err(|refusal| run.refused[usize::from(refusal.number)] += 1)?;
    let found = kinds_of(&facts, file);
    for (total, counts) in run.totals.iter_mut().zip(found) {
        *total += counts;
    }
    run.accepted += 1;
    Ok(found[ERROR] as i64 - listed(&facts, file) as i64)
}

/// How many counts of an accepted file read as each kind.
fn kinds_of(facts: &Facts, file: &[u8]) -> [u64; 5] {
    let gain = f64::from_bits(facts.gain);
    let constant = f64::from_bits(facts.constant);
    let mut found = [0; 5];
    for pair in file[facts.header_length as usize..].chunks_exact(2) {
        let count = two(facts, pair);
        found[read_count(gain, constant, facts.valid_bits, count).kind()] += 1;
    }
    found
}

/// The sum of the error pixels that block 10 of an accepted file lists.
fn listed(facts: &Facts, file: &[u8]) -> u64 {
    let start_10 = 1_157 + 10 * usize::from(facts.a) + 10 * usize::from(facts.b);
    let entries = file[start_10 + 7..].chunks_exact(4);
    // a line stands before its error pixels
    let pixels = entries.map(|entry| u64::from(two(facts, &entry[2..])));
    pixels.take(usize::from(facts.c)).sum()
}

/// A number of two bytes in the file's byte order.
fn two(facts: &Facts, pair: &[u8]) -> u16 {
    let pair = [pair[0], pair[1]];
    if facts.order == 0 {
        u16::from_le_bytes(pair)
    } else {
        u16::from_be_bytes(pair)
    }
}
