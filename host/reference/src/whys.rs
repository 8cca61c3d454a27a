//! The slates and files on which "why isn't it this shot?" is tried: each part off by one, alone and with another one,
//! segments where they do not belong, strays, bad slates and refused files, and pairs that are made from a seed and their
//! number. Half of the slates are uneven. And the refusals that they can lead to.

use crate::accept::day_of_date;
use crate::assemble::{even, uneven, Slate, MARKS, SLATE};
use crate::breach::{self, breaches};
use crate::damage;
use crate::histories::{History, Stage, Step};
use crate::make::{areas, Recipe, Sample};
use crate::mix::{large_case, refusals_after, setting, small_case};
use crate::random::Random;
use crate::shots::{any_segment, any_shot, stray, Shot};
use crate::takes::Takes;
use crate::tally::{Place::At, Row};
use crate::why::{
    Part,
    Part::{Area, Band, Columns, Day, FirstLine, Lines, Satellite, Timeline, Total},
    PARTS,
};

/// How many pairs are made from the seed.
pub struct Whys {
    pub seed: u64,
    pub cases: u64,
}

/// A slate and a file.
pub struct Pair {
    pub kind: &'static str,
    pub slate: Slate,
    pub file: Vec<u8>,
    /// The part that must be told if nothing is refused, where one was meant.
    pub first: Option<Part>,
}

/// All pairs of one sort.
pub type Pose = fn(&Whys) -> Vec<Pair>;

/// Everything but the pairs that are made from their number.
pub const POSED: [Pose; 9] = [
    |_| one_part(),
    |_| two_parts(),
    |_| two_areas(),
    |_| segments(),
    |_| numbers_above(),
    strays,
    |_| bad_slates_with_any_file(),
    |_| refused_files(),
    damaged_files,
];

impl Whys {
    /// Seed and number can be set from outside, to try others.
    pub fn new(cases: u64) -> Whys {
        Whys {
            seed: setting("MIX_SEED", 20_150_707),
            cases: setting("WHYS", cases),
        }
    }

    /// A segment of a small shot and its slate, some parts of either changed.
    pub fn case(&self, case: u64) -> Pair {
        let mut random = Random::of_case(self.seed, case);
        let mut shot = any_shot(&mut random);
        let mut file = any_segment(&shot, &mut random);
        shot.segment = file.clone();
        let rare = random.pick(&[2, 4, 9, 30]);
        for part in PARTS {
            if random.below(rare) > 0 {
                continue;
            }
            if random.coin() {
                change_slate(&mut shot, part, &mut random);
            } else {
                change(&mut file, part, &mut random);
            }
        }
        let mut slate = shot.slate();
        let mut sample = Sample::make(&file, &mut random);
        let spoiled = random.below(12);
        if spoiled <= 1 {
            random.pick(&SPOILS)(&mut slate);
        }
        if (1..=2).contains(&spoiled) {
            damage::any(&mut sample, &mut random);
        }
        pair("any", slate, sample.bytes)
    }
}

fn pair(kind: &'static str, slate: Slate, file: Vec<u8>) -> Pair {
    Pair {
        kind,
        slate,
        file,
        first: None,
    }
}

/// A file for a shot's slate, made to differ in this part first.
fn made(kind: &'static str, shot: &Shot, file: &Recipe, first: Part) -> Pair {
    Pair {
        first: Some(first),
        ..pair_of(kind, shot, file)
    }
}

fn pair_of(kind: &'static str, shot: &Shot, file: &Recipe) -> Pair {
    let bytes = Sample::make(file, &mut Random::new(1)).bytes;
    pair(kind, shot.slate(), bytes)
}

/// A frame is opened and the file offered.
pub fn offering(slate: &Slate, file: &[u8]) -> History {
    History {
        slate: *slate,
        stage: Stage {
            marks: vec![0; MARKS],
            frame: vec![0; slate.frame_size()],
        },
        leader: vec![],
        room: 0,
        watched: false,
        files: vec![file.to_vec()],
        steps: vec![Step::Open, Step::Offer(0)],
    }
}

/// The segment of this number in a shot so cut.
fn base(common: &Recipe, columns: u64, number: u64, heights: &[u16]) -> Shot {
    let common = Recipe {
        columns,
        ..common.clone()
    };
    Shot::cut(common, heights, 0).at(number)
}

/// Segments on which a step can be taken: where a month or an hour ends, with the least and the greatest of everything.
/// Half of them are of even cuts.
fn small_bases() -> Vec<Shot> {
    let at = |date: (u64, u64, u64), timeline, band, area: &[u8; 4]| Recipe {
        year: date.0,
        month: date.1,
        day: date.2,
        timeline,
        band,
        area: *area,
        ..Recipe::plain()
    };
    let night = at((2015, 7, 7), 200, 13, b"JP02");
    let leap = at((2016, 2, 28), 1_250, 7, b"R301");
    let year = at((2015, 12, 31), 50, 4, b"R420");
    let first = at((2000, 1, 1), 0, 1, b"FLDK");
    let last = at((2099, 12, 31), 2_350, 16, b"R520");
    let strips: Vec<u16> = (0..99).map(|place| 201 + place % 40).collect();
    in_both(&[
        base(&night, 4, 2, &[3; 5]),
        base(&leap, 5, 9, &[2; 10]),
        base(&year, 3, 3, &[2; 3]),
        base(&first, 1, 1, &[1]),
        base(&last, 1, 99, &[222; 99]),
        base(&night, 4, 2, &[2, 3, 5, 1, 4]),
        base(&leap, 5, 9, &[1, 2, 2, 2, 3, 1, 1, 4, 3, 2]),
        base(&year, 3, 3, &[3, 1, 2]),
        base(&first, 1, 1, &[1, 2]),
        base(&last, 1, 99, &strips),
    ])
}

/// In both byte orders and of both satellites, with 0 or 65,535 beyond the last height.
fn in_both(bases: &[Shot]) -> Vec<Shot> {
    let mut both = Vec::new();
    for (place, base) in bases.iter().enumerate() {
        for order in [0, 1] {
            let mut shot = base.clone();
            shot.segment.order = order;
            shot.segment.satellite = 8 + (place as u64 + order) % 2;
            shot.heights[base.segment.total as usize..].fill(order as u16 * 65_535);
            both.push(shot);
        }
    }
    both
}

/// As wide and as high as can be, but not both.
fn large_bases() -> Vec<Shot> {
    let plain = Recipe::plain();
    let mut thin = [1; 99];
    thin[0] = 21_902;
    in_both(&[
        base(&plain, 22_000, 4, &[1; 4]),
        base(&plain, 21_999, 99, &[1; 99]),
        base(&plain, 1, 1, &[22_000]),
        base(&plain, 2, 2, &[11_000; 2]),
        base(&plain, 22_000, 2, &[2, 1, 3]),
        base(&plain, 1, 1, &[21_999, 1]),
        base(&plain, 1, 2, &[21_999, 1]),
        base(&plain, 1, 99, &thin),
    ])
}

/// The part is one more or one less: a day, ten minutes, the area before or after. Nothing where its range ends.
fn step(recipe: &Recipe, part: Part, up: bool) -> Option<Recipe> {
    let one = |value, first, last| beside(value, up).filter(|next| (first..=last).contains(next));
    let mut next = recipe.clone();
    match part {
        Satellite => next.satellite = one(recipe.satellite, 8, 9)?,
        Day => (next.year, next.month, next.day) = date_beside(recipe, up)?,
        Timeline => {
            let slot = recipe.timeline / 100 * 6 + recipe.timeline % 100 / 10;
            let slot = one(slot, 0, 143)?;
            next.timeline = slot / 6 * 100 + slot % 6 * 10;
        }
        Band => next.band = one(recipe.band, 1, 16)?,
        Area => {
            let all = areas();
            let place = all.iter().position(|area| *area == recipe.area)?;
            next.area = all[one(place as u64, 0, 48)? as usize];
        }
        Columns => next.columns = one(recipe.columns, 1, 22_000)?,
        Total => next.total = one(recipe.total, 1, 99)?,
        Lines => next.lines = one(recipe.lines, 1, 22_000)?,
        FirstLine => next.first_line = one(recipe.first_line, 1, 22_000)?,
    }
    Some(next)
}

fn beside(value: u64, up: bool) -> Option<u64> {
    if up {
        Some(value + 1)
    } else {
        value.checked_sub(1)
    }
}

/// The same for a slate: the height is that of its segment, or all of them where they agree. It has no first line: the
/// height before moves it.
fn step_slate(shot: &Shot, part: Part, up: bool) -> Option<Shot> {
    let mut next = shot.clone();
    let total = shot.segment.total as usize;
    let number = shot.segment.number as usize;
    let moved = match part {
        Lines if shot.slate().is_even() => 0..total,
        Lines => number - 1..number,
        FirstLine => number.checked_sub(2)?..number - 1,
        _ => {
            next.segment = step(&shot.segment, part, up)?;
            next.reach(total);
            0..0
        }
    };
    for height in &mut next.heights[moved] {
        *height = beside(u64::from(*height), up).filter(|&height| height > 0)? as u16;
    }
    Some(next)
}

/// The day after or before.
fn date_beside(recipe: &Recipe, up: bool) -> Option<(u64, u64, u64)> {
    let (year, month, day) = (recipe.year, recipe.month, recipe.day);
    let real = |&(year, month, day): &(u64, u64, u64)| day_of_date(year, month, day).is_some();
    if up {
        let after = [
            (year, month, day + 1),
            (year, month + 1, 1),
            (year + 1, 1, 1),
        ];
        return after.into_iter().find(real);
    }
    let month_before = (28..=31).rev().map(|last| (year, month - 1, last));
    let before = [(year, month, day - 1)].into_iter().chain(month_before);
    before.chain([(year - 1, 12, 31)]).find(|date| real(date))
}

/// Each part alone, on either side.
fn one_part() -> Vec<Pair> {
    let mut pairs = Vec::new();
    for base in small_bases().into_iter().chain(large_bases()) {
        pairs.push(pair_of("nothing off", &base, &base.segment));
        for (part, up) in steps() {
            if let Some(file) = step(&base.segment, part, up) {
                pairs.push(made("one part off in the file", &base, &file, part));
            }
            if let Some(slate) = step_slate(&base, part, up) {
                pairs.push(made(
                    "one part off in the slate",
                    &slate,
                    &base.segment,
                    part,
                ));
            }
        }
    }
    pairs
}

fn steps() -> impl Iterator<Item = (Part, bool)> {
    PARTS
        .into_iter()
        .flat_map(|part| [(part, true), (part, false)])
}

/// Every two parts: both in the file, both in the slate, and one in each.
fn two_parts() -> Vec<Pair> {
    let mut pairs = Vec::new();
    for base in small_bases() {
        for (one, one_up) in steps() {
            for (two, two_up) in steps().filter(|(two, _)| *two != one) {
                pairs.extend(both_off(&base, (one, one_up), (two, two_up)));
            }
        }
    }
    pairs
}

fn both_off(base: &Shot, one: (Part, bool), two: (Part, bool)) -> impl Iterator<Item = Pair> {
    let file = |from: &Recipe, (part, up)| step(from, part, up);
    let slate = |from: &Shot, (part, up)| step_slate(from, part, up);
    let first = one.0.min(two.0);
    let in_file = file(&base.segment, one).and_then(|file_of| file(&file_of, two));
    let in_slate = slate(base, one).and_then(|slate_of| slate(&slate_of, two));
    let in_each = slate(base, one).zip(file(&base.segment, two));
    let pairs = [
        in_file.map(|file| made("two parts off in the file", base, &file, first)),
        in_slate.map(|slate| made("two parts off in the slate", &slate, &base.segment, first)),
        in_each.map(|(slate, file)| made("one part off in each", &slate, &file, first)),
    ];
    pairs.into_iter().flatten()
}

/// Each area against each other.
fn two_areas() -> Vec<Pair> {
    let mut pairs = Vec::new();
    for (place, area) in areas().into_iter().enumerate() {
        for other in areas().into_iter().filter(|other| *other != area) {
            let of = |area| Recipe {
                order: place as u64 % 2,
                area,
                ..Recipe::plain()
            };
            let shot = Shot::cut(of(area), &[2, 2 + place as u16 / 2 % 2], 0);
            pairs.push(made("two areas", &shot, &of(other), Area));
        }
    }
    pairs
}

/// Totals and lines, up to as many as can be.
const DIVISIONS: [(usize, u16); 9] = [
    (2, 2),
    (5, 3),
    (10, 2),
    (99, 1),
    (99, 222),
    (88, 250),
    (22, 1_000),
    (2, 11_000),
    (1, 22_000),
];

/// Shots one column wide that are cut so; and uneven ones, of as many segments and no more lines than can be.
fn divided() -> Vec<Shot> {
    let even = DIVISIONS.map(|(total, lines)| vec![lines; total]);
    let uneven = DIVISIONS.map(|(total, lines)| {
        let most = lines.max(3);
        let strips = [most, 1, most / 2 + 1];
        strips.into_iter().cycle().take(total).collect()
    });
    let common = Recipe {
        columns: 1,
        ..Recipe::plain()
    };
    let cuts = even.into_iter().chain(uneven).enumerate();
    let beyond = [0, 1, 65_535];
    cuts.map(|(place, cut)| Shot::cut(common.clone(), &cut, beyond[place % 3]))
        .collect()
}

/// The right segments, those that begin elsewhere, those of another height, and those whose number is another than their
/// place's.
fn segments() -> Vec<Pair> {
    let mut pairs = Vec::new();
    for shot in divided() {
        for number in 1..=shot.segment.total {
            let right = Recipe {
                order: number % 2,
                ..shot.part(number)
            };
            pairs.push(pair_of("in its place", &shot, &right));
            pairs.extend(elsewhere(&shot, &right));
            pairs.extend(like_others(&shot, &right));
        }
    }
    pairs
}

/// From another line, that of an even cut among them.
fn elsewhere(shot: &Shot, right: &Recipe) -> Vec<Pair> {
    let due = right.first_line;
    let lines = [
        due - 1,
        due + 1,
        due + right.lines,
        due + 256,
        due % 256,
        22_001 - right.lines,
        1 + (right.number - 1) * right.lines,
        1 + (right.number - 1) * u64::from(shot.heights[0]),
    ];
    let others = lines.into_iter().filter(|&line| line != due);
    let at = others.map(|first_line| {
        let file = Recipe {
            first_line,
            ..right.clone()
        };
        made("another first line", shot, &file, FirstLine)
    });
    at.collect()
}

/// With another one's number, height or first line.
fn like_others(shot: &Shot, right: &Recipe) -> Vec<Pair> {
    let (number, total) = (right.number, right.total);
    let numbers = [1, number - 1, number + 1, total].into_iter();
    let others = numbers.filter(|other| *other != number && (1..=total).contains(other));
    let mut pairs = Vec::new();
    for other in others.map(|other| shot.part(other)) {
        let mut like = [right.clone(), right.clone(), right.clone()];
        like[0].number = other.number;
        like[1].first_line = other.first_line;
        like[2].lines = other.lines;
        let alike = other.lines == right.lines;
        let differs = if alike { FirstLine } else { Lines };
        pairs.push(made("another number", shot, &like[0], differs));
        pairs.push(made("another's first line", shot, &like[1], FirstLine));
        if !alike {
            pairs.push(made("another's height", shot, &like[2], Lines));
        }
    }
    pairs
}

/// Numbers that the slate has not, and totals with them: in the place that the number asks for, and in the slate's last.
fn numbers_above() -> Vec<Pair> {
    let mut pairs = Vec::new();
    for shot in divided() {
        let last = shot.part(shot.segment.total);
        for number in last.total + 1..=99 {
            for first_line in [1 + (number - 1) * last.lines, last.first_line, 1] {
                let file = Recipe {
                    order: number % 2,
                    number,
                    total: number,
                    first_line,
                    ..last.clone()
                };
                pairs.push(made("a number above", &shot, &file, Total));
            }
        }
    }
    pairs
}

/// Strays of small shots, and all files of some histories with their slates.
fn strays(whys: &Whys) -> Vec<Pair> {
    let mut random = Random::new(whys.seed);
    let mut pairs = Vec::new();
    for _ in 0..3_000 {
        let shot = any_shot(&mut random);
        let stray = stray(&shot, &mut random);
        let bytes = Sample::make(&stray, &mut random).bytes;
        pairs.push(pair("a stray", shot.slate(), bytes));
    }
    let takes = Takes {
        seed: whys.seed,
        small: 2_000,
        shuffled: 50,
    };
    for take in (0..takes.small + takes.shuffled).map(|case| takes.case(case)) {
        let files = take.history.files.into_iter();
        pairs.extend(files.map(|file| pair(take.kind, take.history.slate, file)));
    }
    pairs
}

/// Each puts a part of a good slate out of its range; the last ones make sums that are too large, some of them small in 16
/// bits.
const SPOILS: [fn(&mut Slate); 54] = [
    |slate| slate.satellite = 0,
    |slate| slate.satellite = 7,
    |slate| slate.satellite = 10,
    |slate| slate.satellite = 255,
    |slate| slate.day = 0,
    |slate| slate.day = 51_543,
    |slate| slate.day = 88_069,
    |slate| slate.day += 65_536,
    |slate| slate.day = u32::MAX,
    |slate| slate.timeline = 1,
    |slate| slate.timeline = 60,
    |slate| slate.timeline = 205,
    |slate| slate.timeline = 2_360,
    |slate| slate.timeline = 2_400,
    |slate| slate.timeline = 65_535,
    |slate| slate.band = 0,
    |slate| slate.band = 17,
    |slate| slate.band += 256,
    |slate| slate.band = 65_535,
    |slate| slate.area = *b"JP00",
    |slate| slate.area = *b"JP05",
    |slate| slate.area = *b"R300",
    |slate| slate.area = *b"R421",
    |slate| slate.area = *b"R521",
    |slate| slate.area = *b"fldk",
    |slate| slate.area = *b"FLDk",
    |slate| slate.area = [0; 4],
    |slate| slate.columns = 0,
    |slate| slate.columns = 22_001,
    |slate| slate.columns = 65_535,
    |slate| slate.total = 0,
    |slate| slate.total = 100,
    |slate| slate.total = 255,
    |slate| slate.heights[0] = 0,
    |slate| slate.heights[slate.cut().len() / 2] = 0,
    |slate| slate.heights[slate.cut().len() - 1] = 0,
    |slate| slate.heights = even(0),
    |slate| slate.heights[0] = 22_001,
    |slate| slate.heights[slate.cut().len() - 1] = 22_001,
    |slate| slate.heights[0] = 65_535,
    |slate| slate.heights[slate.cut().len() - 1] = 65_535,
    |slate| slate.heights = even(65_535),
    |slate| (slate.total, slate.heights) = (1, even(22_001)),
    |slate| (slate.total, slate.heights) = (2, even(11_001)),
    |slate| (slate.total, slate.heights) = (11, even(2_001)),
    |slate| (slate.total, slate.heights) = (99, even(223)),
    |slate| (slate.total, slate.heights) = (99, even(662)),
    |slate| (slate.total, slate.heights) = (99, even(65_535)),
    |slate| (slate.total, slate.heights) = (255, even(65_535)),
    |slate| (slate.total, slate.heights) = (2, uneven(&[22_000, 1], 0)),
    |slate| (slate.total, slate.heights) = (2, uneven(&[1, 22_000], 0)),
    |slate| (slate.total, slate.heights) = (2, uneven(&[65_535, 3], 0)),
    |slate| (slate.total, slate.heights) = (3, uneven(&[2, 65_535, 1], 1)),
    |slate| (slate.total, slate.heights) = (99, uneven(&[21_903], 1)),
];

/// With a good file, one of another shot, every refused one, and no bytes: every other one with an uneven slate.
fn bad_slates_with_any_file() -> Vec<Pair> {
    let mut pairs = Vec::new();
    let own = breach::recipe(1);
    let other = Recipe {
        timeline: 210,
        ..own.clone()
    };
    let mut files = refused(&own);
    files.extend([&own, &other].map(|recipe| Sample::make(recipe, &mut Random::new(1)).bytes));
    let slates = [&[2, 2], &[2, 1]].map(|cut| Shot::cut(own.clone(), cut, 1).slate());
    for spoil in SPOILS {
        for (place, file) in files.iter().enumerate() {
            let mut slate = slates[place % 2];
            spoil(&mut slate);
            pairs.push(pair("a bad slate", slate, file.clone()));
        }
    }
    pairs
}

/// One file for every breach of a rule, and no bytes.
fn refused(recipe: &Recipe) -> Vec<Vec<u8>> {
    let good = Sample::make(recipe, &mut Random::new(1));
    let broken = breaches(recipe).into_iter().map(|breach| {
        let mut sample = good.clone();
        breach.apply(&mut sample);
        sample.bytes
    });
    broken.chain([vec![]]).collect()
}

/// With their own slate and with that of another shot, even and uneven.
fn refused_files() -> Vec<Pair> {
    let mut pairs = Vec::new();
    for own in [breach::recipe(0), breach::recipe(1), Recipe::plain()] {
        for (part, up) in steps() {
            let shot = Shot::cut(own.clone(), &[2, 2 + u16::from(up)], 0);
            let slate = step_slate(&shot, part, up).unwrap_or(shot).slate();
            let files = refused(&own).into_iter();
            pairs.extend(files.map(|file| pair("a refused file", slate, file)));
        }
    }
    pairs
}

/// Each way of damage, to files of the slate and of other shots, and inputs on which acceptance is tried.
fn damaged_files(whys: &Whys) -> Vec<Pair> {
    let mut random = Random::new(whys.seed);
    let mut pairs = Vec::new();
    for way in damage::AIMED.into_iter().cycle().take(24 * 150) {
        let shot = any_shot(&mut random);
        let file = if random.coin() {
            any_segment(&shot, &mut random)
        } else {
            stray(&shot, &mut random)
        };
        let mut sample = Sample::make(&file, &mut random);
        way(&mut sample, &mut random);
        pairs.push(pair("a damaged file", shot.slate(), sample.bytes));
    }
    for case in 0..2_000 {
        let slate = any_shot(&mut random).slate();
        let input = match case {
            0..=9 => large_case(&mut random),
            _ => small_case(&mut random),
        };
        pairs.push(pair(input.kind, slate, input.bytes));
    }
    pairs
}

/// Another value of the part, mostly a lawful one and often close by; hardly ever the same.
fn change(recipe: &mut Recipe, part: Part, random: &mut Random) {
    if let Some(next) = step(recipe, part, random.coin()).filter(|_| random.coin()) {
        *recipe = next;
        return;
    }
    let other = Recipe::small(random);
    match part {
        Satellite => recipe.satellite = 17 - recipe.satellite,
        Day => (recipe.year, recipe.month, recipe.day) = (other.year, other.month, other.day),
        Timeline => recipe.timeline = other.timeline,
        Band => recipe.band = other.band,
        Area => recipe.area = other.area,
        Columns => recipe.columns = random.pick(&[other.columns, recipe.columns + 256]),
        Total => recipe.total = random.within(recipe.number, 99),
        Lines => recipe.lines = random.pick(&[other.lines, recipe.lines + 256]),
        FirstLine => match random.below(3) {
            0 => recipe.first_line = other.first_line,
            1 => recipe.first_line += random.pick(&[recipe.lines, 256]),
            _ => recipe.number = random.within(1, recipe.total),
        },
    }
}

/// The same in a slate: the height is that of its segment, or all of them where they agree, and a height before it moves
/// the first line.
fn change_slate(shot: &mut Shot, part: Part, random: &mut Random) {
    let (number, total) = (shot.segment.number, shot.segment.total as usize);
    if part == FirstLine {
        if number > 1 {
            let before = random.below(number - 1) as usize;
            shot.heights[before] = random.within(1, 5) as u16;
        }
        return;
    }
    let is_even = shot.slate().is_even();
    change(&mut shot.segment, part, random);
    let lines = shot.segment.lines as u16;
    match part {
        Lines if is_even => shot.heights[..total].fill(lines),
        Lines => shot.heights[number as usize - 1] = lines,
        _ => shot.reach(total),
    }
}

/// Every refusal that can be answered, with the places that it can name.
pub const ASKING: [Row; 20] = refusals_after((SLATE, "SLATE", &[At(0, 0)]));
