//! Shots and how they are cut into segments, evenly or not: their slates, their segments, and files that are nearly one of
//! theirs.

use crate::accept::day_of_date;
use crate::assemble::{even, uneven, Slate, MARKS};
use crate::make::Recipe;
use crate::random::Random;

/// One segment of a shot, and the heights of all.
#[derive(Clone)]
pub(crate) struct Shot {
    pub segment: Recipe,
    pub heights: [u16; MARKS],
}

impl Shot {
    /// The first segment of a shot that is cut like this, with the same height in all the room beyond.
    pub fn cut(common: Recipe, heights: &[u16], beyond: u16) -> Shot {
        let shot = Shot {
            segment: Recipe {
                total: heights.len() as u64,
                ..common
            },
            heights: uneven(heights, beyond),
        };
        shot.at(1)
    }

    pub fn slate(&self) -> Slate {
        Slate {
            heights: self.heights,
            ..slate_of(&self.segment)
        }
    }

    /// With the segment of this number.
    pub fn at(&self, number: u64) -> Shot {
        Shot {
            segment: self.part(number),
            ..self.clone()
        }
    }

    /// Segments that the total has come to hold beyond these are as high as the first one.
    pub fn reach(&mut self, before: usize) {
        let now = self.segment.total as usize;
        let first = self.heights[0];
        self.heights[before..now.max(before)].fill(first);
    }

    /// The segment of this number: its height and its first line follow.
    pub fn part(&self, number: u64) -> Recipe {
        let slate = self.slate();
        Recipe {
            number,
            lines: slate.height(number as usize) as u64,
            first_line: slate.first_line(number as usize) as u64,
            ..self.segment.clone()
        }
    }
}

/// The slate of the shot whose segments all are as high as this one.
pub(crate) fn slate_of(segment: &Recipe) -> Slate {
    let day = day_of_date(segment.year, segment.month, segment.day).expect("a real date");
    Slate {
        satellite: segment.satellite as u8,
        day: day as u32,
        timeline: segment.timeline as u16,
        band: segment.band as u16,
        area: segment.area,
        columns: segment.columns as u16,
        total: segment.total as u8,
        heights: even(segment.lines as u16),
    }
}

/// A small shot; its segments differ in number, height, first line, byte order and entries. Half of all are cut unevenly.
pub(crate) fn any_shot(random: &mut Random) -> Shot {
    let heights = if random.coin() {
        even_cut(random)
    } else {
        uneven_cut(random)
    };
    let common = Recipe {
        columns: random.within(1, 5),
        ..Recipe::small(random)
    };
    any_beyond(Shot::cut(common, &heights, 0), random)
}

fn even_cut(random: &mut Random) -> Vec<u16> {
    let (total, lines) = match random.below(24) {
        0 => (many(random), 1),
        1..=3 => (1, random.within(1, 5)),
        _ => (random.within(2, 6), random.within(1, 3)),
    };
    vec![lines as u16; total as usize]
}

/// More segments than most shots have: what is asked of them takes long, so mostly not very many.
fn many(random: &mut Random) -> u64 {
    let most = random.pick(&[20, 20, 99]);
    random.within(7, most)
}

/// Not all heights agree.
fn uneven_cut(random: &mut Random) -> Vec<u16> {
    let total = match random.below(40) {
        0 => many(random),
        _ => random.within(2, 6),
    };
    let mut heights: Vec<u16> = (0..total).map(|_| random.within(1, 5) as u16).collect();
    if heights.iter().all(|height| *height == heights[0]) {
        let place = random.below(total) as usize;
        heights[place] = heights[place] % 5 + 1;
    }
    heights
}

/// Something else stands beyond the last height, mostly what no height could be.
fn any_beyond(mut shot: Shot, random: &mut Random) -> Shot {
    let first = shot.heights[0];
    let one = random.pick(&[0, 1, 65_535, first]);
    let alike = random.coin();
    for height in &mut shot.heights[shot.segment.total as usize..] {
        let any = random.number() as u16;
        let unlike = random.pick(&[0, 1, 65_535, any]);
        *height = if alike { one } else { unlike };
    }
    shot
}

/// One column wide, with heights of just this sum.
pub(crate) fn shot_of_sum(sum: u64, random: &mut Random) -> Shot {
    let any_total = random.within(1, 99);
    let total = random.pick(&[1, 2, 7, 10, 49, 88, 99, any_total]);
    let common = Recipe {
        columns: 1,
        ..Recipe::small(random)
    };
    let heights = cut_of_sum(sum, total, random);
    any_beyond(Shot::cut(common, &heights, 0), random)
}

/// Heights of just this sum: alike but for one of them, or any.
pub(crate) fn cut_of_sum(sum: u64, total: u64, random: &mut Random) -> Vec<u16> {
    let mean = sum / total;
    let alike = random.coin();
    let mut heights: Vec<u64> = (0..total)
        .map(|_| if alike { mean } else { random.within(1, mean) })
        .collect();
    heights[random.below(total) as usize] += sum - heights.iter().sum::<u64>();
    heights.into_iter().map(|height| height as u16).collect()
}

/// The segment of this number, in any byte order and with any few entries.
pub(crate) fn segment(shot: &Shot, number: u64, random: &mut Random) -> Recipe {
    Recipe {
        order: random.below(2),
        a: random.below(3),
        b: random.below(3),
        c: random.below(3),
        ..shot.part(number)
    }
}

pub(crate) fn any_segment(shot: &Shot, random: &mut Random) -> Recipe {
    let number = random.within(1, shot.segment.total);
    segment(shot, number, random)
}

/// A good file that differs from a segment of the shot in one thing, now and then in none.
pub(crate) fn stray(shot: &Shot, random: &mut Random) -> Recipe {
    let other = Recipe::small(random);
    let mut stray = any_segment(shot, random);
    match random.below(13) {
        0 => (stray.year, stray.month, stray.day) = (other.year, other.month, other.day),
        1 => stray.timeline = other.timeline,
        2 => stray.band = other.band,
        3 => stray.area = other.area,
        4 => stray.satellite = 17 - stray.satellite,
        5 => stray.columns = random.within(1, 6),
        6 => stray.total = random.within(stray.number, 99),
        7 => stray.lines = random.within(1, 6),
        _ => misplace(&mut stray, shot, random),
    }
    stray
}

/// Number, height and first line do not go together, but for an even shot where they may.
fn misplace(stray: &mut Recipe, shot: &Shot, random: &mut Random) {
    let slate = shot.slate();
    let number = stray.number;
    let other = shot.part(random.within(1, stray.total));
    let beside = random.pick(&[number.max(2) - 1, stray.total.min(number + 1)]);
    match random.below(5) {
        0 => stray.first_line = random.within(1, slate.frame_lines() as u64 + 2),
        // another number than its place's
        1 => stray.number = other.number,
        2 => stray.first_line = other.first_line,
        3 => stray.lines = shot.part(beside).lines,
        // where it would begin if all were as high as one of them
        _ => stray.first_line = 1 + (number - 1) * random.pick(&[stray.lines, other.lines]),
    }
}
