//! The histories on which frames are tried, each made from a seed and its number: small frames with
//! good, strange, repeated and damaged files, frames of as many lines as can be, some files in every order,
//! three heights in every order, and two full disks. Half of all are over uneven cuts.

use crate::accept::{accept, Refusal};
use crate::assemble::{even, uneven, Slate, ALREADY, MARKS, OTHER_SHOT, SLATE, STRIP};
use crate::breach;
use crate::damage;
use crate::histories::{History, Played, Stage, Step, Told};
use crate::make::{Recipe, Sample};
use crate::mix::{setting, REFUSALS};
use crate::random::Random;
use crate::shots::{any_segment, any_shot, cut_of_sum, segment, shot_of_sum, stray, Shot};
use crate::tally::{Place::At, Row};

/// How many histories of each kind there are; three heights in each order and the full disks come last.
pub struct Takes {
    pub seed: u64,
    pub small: u64,
    pub shuffled: u64,
}

pub struct Take {
    pub kind: &'static str,
    pub history: History,
}

impl Takes {
    /// Seed and number can be set from outside, to try others.
    pub fn new(small: u64, shuffled: u64) -> Takes {
        Takes {
            seed: setting("MIX_SEED", 20_150_707),
            small: setting("FRAMES_SMALL", small),
            shuffled,
        }
    }

    pub fn cases(&self) -> u64 {
        self.small + self.shuffled + 8
    }

    pub fn case(&self, case: u64) -> Take {
        let mut random = Random::of_case(self.seed, case);
        if case < self.small {
            return match random.below(400) {
                0 => great_take(&mut random),
                _ => small_take(&mut random),
            };
        }
        let case = case - self.small;
        if case < self.shuffled {
            return Take {
                kind: EVERY_ORDER,
                history: in_every_order(&mut random),
            };
        }
        last_take(case - self.shuffled, &mut random)
    }
}

/// Six times three heights, and then the two disks.
fn last_take(place: u64, random: &mut Random) -> Take {
    let (kind, history) = match place {
        0..=5 => (THREE_HEIGHTS, three_heights(place as usize, random)),
        6 => (FULL_DISK, full_disk(&[550; 10], random)),
        _ => (FULL_DISK, full_disk(&THIN_TROPICS, random)),
    };
    Take { kind, history }
}

pub const EVERY_ORDER: &str = "files in every order";
const THREE_HEIGHTS: &str = "heights of 3, 1 and 2 in one of six orders";
const FULL_DISK: &str = "a full disk";

/// The same counts in the other byte order, below a header with other bytes where any may be.
fn copy(sample: &Sample, random: &mut Random) -> Sample {
    let recipe = Recipe {
        order: 1 - sample.recipe.order,
        ..sample.recipe.clone()
    };
    let mut copy = Sample::make(&recipe, random);
    let from = sample.start(12);
    for (place, pair) in sample.bytes[from..].chunks_exact(2).enumerate() {
        copy.put_text(12, 2 * place, &[pair[1], pair[0]]);
    }
    copy
}

/// A file that may be of the shot, or nearly: the reference says what becomes of it. It may repeat
/// one of the good segments that are there already.
fn any_file(shot: &Shot, good: &[Sample], random: &mut Random) -> Sample {
    let recipe = any_segment(shot, random);
    let mut sample = Sample::make(&recipe, random);
    match random.below(16) {
        0 | 1 => {}
        2..=5 => {
            let stray = stray(shot, random);
            return Sample::make(&stray, random);
        }
        6 | 7 if !good.is_empty() => {
            let before = &good[random.below(good.len() as u64) as usize];
            // a copy that agrees, or one that differs in its counts
            return if random.coin() {
                copy(before, random)
            } else {
                Sample::make(&before.recipe, random)
            };
        }
        6..=11 => damage::any(&mut sample, random),
        12..=14 => {
            let breaches = breach::breaches(&sample.recipe);
            breaches[random.below(breaches.len() as u64) as usize].apply(&mut sample);
        }
        _ => damage::cut(&mut sample, random),
    }
    sample
}

fn shuffle<T>(things: &mut [T], random: &mut Random) {
    for last in (1..things.len()).rev() {
        things.swap(last, random.below(last as u64 + 1) as usize);
    }
}

fn any_counts(length: usize, random: &mut Random) -> Vec<u16> {
    (0..length).map(|_| random.number() as u16).collect()
}

fn bytes_of(samples: Vec<Sample>) -> Vec<Vec<u8>> {
    samples.into_iter().map(|sample| sample.bytes).collect()
}

/// The good segments of some numbers, and then so many other files.
fn any_files(shot: &Shot, numbers: &[u64], others: u64, random: &mut Random) -> Vec<Vec<u8>> {
    let mut good = Vec::new();
    for number in numbers {
        let recipe = segment(shot, *number, random);
        good.push(Sample::make(&recipe, random));
    }
    let others: Vec<Sample> = (0..others).map(|_| any_file(shot, &good, random)).collect();
    good.extend(others);
    bytes_of(good)
}

/// The numbers of a shot's segments in any order, at most so many of them.
fn any_numbers(shot: &Shot, most: usize, random: &mut Random) -> Vec<u64> {
    let mut numbers: Vec<u64> = (1..=shot.segment.total).collect();
    shuffle(&mut numbers, random);
    numbers.truncate(most);
    numbers
}

/// Frame, leader and output as the slate asks for, all steps watched.
fn staged(slate: Slate, files: Vec<Vec<u8>>, steps: Vec<Step>, random: &mut Random) -> History {
    History {
        slate,
        stage: Stage {
            marks: vec![0; MARKS],
            frame: any_counts(slate.frame_size(), random),
        },
        leader: any_counts(usize::from(slate.columns), random),
        room: usize::from(slate.columns),
        watched: true,
        files,
        steps,
    }
}

fn small_take(random: &mut Random) -> Take {
    let shot = any_shot(random);
    let mut numbers = any_numbers(&shot, 6, random);
    numbers.retain(|_| random.below(4) > 0);
    let others = random.below(5);
    let files = any_files(&shot, &numbers, others, random);
    let slate = shot.slate();
    let steps = any_steps(&slate, files.len(), random);
    let mut history = staged(slate, files, steps, random);
    let columns = usize::from(slate.columns);
    let leader = random.pick(&[0, columns - 1, columns, columns + 1, 3 * columns]);
    history.leader = any_counts(leader, random);
    history.room = match random.below(8) {
        0 => random.pick(&[0, columns - 1]),
        _ => random.pick(&[columns, columns + 2]),
    };
    let kind = match random.below(20) {
        0 | 1 => spoil_slate(&mut history, random),
        2 | 3 => spoil_heights(&mut history, random),
        4 => spoil_frame(&mut history, random),
        5 | 6 => spoil_marks(&mut history, random),
        7 | 8 => invent_marks(&mut history, random),
        _ => "a good slate, opened",
    };
    Take { kind, history }
}

/// As many lines as a frame can have, or one more.
fn great_take(random: &mut Random) -> Take {
    let (sum, kind) = random.pick(&[
        (22_000, "heights of the greatest sum"),
        (22_001, "heights of one line too many"),
    ]);
    let shot = shot_of_sum(sum, random);
    let numbers = any_numbers(&shot, 3, random);
    let others = random.below(3);
    let files = any_files(&shot, &numbers, others, random);
    let slate = shot.slate();
    let mut steps = vec![Step::Open];
    steps.extend((0..files.len() as u16).map(Step::Offer));
    steps.extend(borders(&slate));
    let history = staged(slate, files, steps, random);
    Take { kind, history }
}

/// Every line, and one beyond either end.
fn all_lines(slate: &Slate) -> impl Iterator<Item = Step> {
    (0..=slate.frame_lines() + 1).map(|line| Step::Line(line as u16))
}

/// Two lines on either side of where a segment begins or the frame ends.
fn borders(slate: &Slate) -> Vec<Step> {
    let firsts = (1..=usize::from(slate.total)).map(|number| slate.first_line(number));
    let ends = firsts.chain([slate.frame_lines() + 1]);
    let around = ends.flat_map(|first| first.saturating_sub(2)..first + 2);
    around.map(|line| Step::Line(line as u16)).collect()
}

/// Opening, every file in any order, some more than once, and every line: now and then a line or
/// another opening comes between.
fn any_steps(slate: &Slate, files: usize, random: &mut Random) -> Vec<Step> {
    let mut offers: Vec<u16> = (0..files as u16).collect();
    for _ in 0..random.below(3) {
        if files > 0 {
            offers.push(random.below(files as u64) as u16);
        }
    }
    shuffle(&mut offers, random);
    let last_line = slate.frame_lines() as u64;
    let mut steps = vec![Step::Open];
    for file in offers {
        steps.push(Step::Offer(file));
        match random.below(24) {
            0 => steps.push(Step::Open),
            1..=5 => steps.push(Step::Line(random.within(0, last_line + 1) as u16)),
            _ => {}
        }
    }
    steps.extend(all_lines(slate));
    steps.push(Step::Line(u16::MAX));
    steps
}

/// One part of the slate that is no height leaves its range.
fn spoil_slate(history: &mut History, random: &mut Random) -> &'static str {
    let slate = &mut history.slate;
    match random.below(7) {
        0 => slate.satellite = random.pick(&[0, 7, 10, 255]),
        1 => slate.day = random.pick(&[0, 51_543, 88_069, slate.day + 65_536, u32::MAX]),
        2 => slate.timeline = random.pick(&[1, 60, 2_360, 2_400, 65_500]),
        3 => slate.band = random.pick(&[0, 17, slate.band + 256]),
        4 => slate.area = random.pick(&[*b"JP05", *b"R300", *b"fldk", *b"R421", [0; 4]]),
        5 => slate.columns = random.pick(&[0, 22_001, 65_535]),
        _ => {
            // with heights that are good wherever one is looked for
            slate.heights[usize::from(slate.total)..].fill(1);
            slate.total = random.pick(&[0, 100, 255]);
        }
    }
    frame_in_16_bits(history, random);
    "a bad slate"
}

/// The frame has the size that the slate's parts give, also where 16 bits would have it so; if that is not too large.
fn frame_in_16_bits(history: &mut History, random: &mut Random) {
    let lines = history.slate.frame_lines() % 65_536;
    let size = lines * usize::from(history.slate.columns);
    let size = if size > 70_000 { 1_000 } else { size };
    history.stage.frame = any_counts(size, random);
}

/// A height or the sum of all leaves its range; or it is only beyond the last one that there are no heights.
fn spoil_heights(history: &mut History, random: &mut Random) -> &'static str {
    let slate = &mut history.slate;
    let total = usize::from(slate.total);
    let any = random.below(total as u64) as usize;
    let place = random.pick(&[0, any, total - 1]);
    let kind = match random.below(8) {
        0 | 1 => {
            slate.heights[place] = 0;
            "a height of 0"
        }
        2 | 3 => {
            slate.heights[..total].fill(0);
            "no height but 0"
        }
        4 => {
            slate.heights[place] = random.pick(&[22_001, 65_535]);
            "a height that is too great"
        }
        5 | 6 => {
            slate.heights[total..].fill(0);
            "a height of 0 beyond the last"
        }
        _ => {
            (slate.total, slate.heights) = wrapping(random);
            "heights of a sum that is small in 16 bits"
        }
    };
    frame_in_16_bits(history, random);
    kind
}

/// A total and heights: all sums are above 65,536.
fn wrapping(random: &mut Random) -> (u8, [u16; MARKS]) {
    let sum = random.within(65_537, 65_560);
    let any = cut_of_sum(sum, 99, random);
    let beyond = random.pick(&[0, 1, 65_535]);
    random.pick(&[
        (2, uneven(&[65_535, 3], beyond)),
        (2, uneven(&[3, 65_535], beyond)),
        (2, uneven(&[65_535, 22_001], beyond)),
        (4, uneven(&[22_000, 22_000, 21_535, 2], beyond)),
        (99, uneven(&any, beyond)),
        (99, even(662)),
        (99, even(65_535)),
    ])
}

fn spoil_frame(history: &mut History, random: &mut Random) -> &'static str {
    let size = history.slate.frame_size();
    let columns = usize::from(history.slate.columns);
    let sizes = [0, size - 1, size + 1, size - columns, size + columns];
    history.stage.frame = any_counts(random.pick(&sizes), random);
    "a frame of another size"
}

fn spoil_marks(history: &mut History, random: &mut Random) -> &'static str {
    let marks = &mut history.stage.marks;
    if random.coin() {
        let length = random.pick(&[0, 1, 98, 100, 198]);
        marks.resize(length, 0);
        "marks of another length"
    } else {
        let place = random.below(MARKS as u64) as usize;
        marks[place] = random.pick(&[2, 128, 255]);
        "a byte that is no mark"
    }
}

/// A record that no opening gave; with one mark beyond the total it is bad.
fn invent_marks(history: &mut History, random: &mut Random) -> &'static str {
    history.steps.remove(0);
    let total = usize::from(history.slate.total);
    for mark in &mut history.stage.marks[..total] {
        *mark = random.below(2) as u8;
    }
    if total < MARKS && random.coin() {
        let any = random.within(total as u64, 98) as usize;
        let place = random.pick(&[total, any, 98]);
        history.stage.marks[place] = 1;
        "a record with a mark beyond the total"
    } else {
        "a record that no opening gave"
    }
}

/// Two to five files, each order of them after an opening of its own.
fn in_every_order(random: &mut Random) -> History {
    let shot = any_shot(random);
    let most = random.within(1, 4) as usize;
    let numbers = any_numbers(&shot, most, random);
    let others = random.within(1, 5 - numbers.len() as u64);
    let files = any_files(&shot, &numbers, others, random);
    let slate = shot.slate();
    let mut steps = Vec::new();
    for order in orders(files.len()) {
        steps.push(Step::Open);
        steps.extend(order.into_iter().map(Step::Offer));
    }
    steps.extend(all_lines(&slate));
    staged(slate, files, steps, random)
}

/// Each segment alone, and then one after the other, every line each time.
fn three_heights(place: usize, random: &mut Random) -> History {
    let order = &orders(3)[place];
    let heights: Vec<u16> = order.iter().map(|&at| [3, 1, 2][usize::from(at)]).collect();
    let shot = Shot::cut(Recipe::small(random), &heights, place as u16);
    let files = any_files(&shot, &[1, 2, 3], 0, random);
    let slate = shot.slate();
    let mut steps = Vec::new();
    for offers in [&[0][..], &[1], &[2], &[0, 1, 2]] {
        steps.push(Step::Open);
        for offer in offers {
            steps.push(Step::Offer(*offer));
            steps.extend(all_lines(&slate));
        }
    }
    staged(slate, files, steps, random)
}

/// All orders of the numbers below an end.
fn orders(end: usize) -> Vec<Vec<u16>> {
    let mut all = vec![Vec::new()];
    for number in 0..end as u16 {
        all = all
            .iter()
            .flat_map(|order| {
                (0..=order.len()).map(|place| {
                    let mut longer = order.clone();
                    longer.insert(place, number);
                    longer
                })
            })
            .collect();
    }
    all
}

/// How the matching files of a history of every order stand to each other.
pub struct Ordered {
    pub orders: u64,
    /// No two of them bear one number.
    pub apart: bool,
    /// Those that bear one number have the same counts.
    pub agree: bool,
}

/// Where matching files agree, every order must end with the same stage; where they are apart, every
/// file must get the same answer in every order, too.
pub fn check_orders(history: &History, played: &Played) -> Ordered {
    let files = history.files.len();
    let all = orders(files);
    let mut ends = all
        .iter()
        .zip(played.told.chunks(files + 1))
        .map(|(order, told)| end(order, told));
    let (answers, stage) = ends.next().expect("there is an order");
    let placed: Vec<(u8, Stage)> = (0..files).filter_map(|file| alone(history, file)).collect();
    let pairs = || {
        placed.iter().enumerate().flat_map(|(place, one)| {
            let others = &placed[place + 1..];
            others.iter().map(move |other| (one, other))
        })
    };
    let apart = pairs().all(|(one, other)| one.0 != other.0);
    let agree = pairs().all(|(one, other)| one.0 != other.0 || one.1 == other.1);
    for (other_answers, other_stage) in ends {
        assert!(!agree || other_stage == stage);
        assert!(!apart || other_answers == answers);
    }
    Ordered {
        orders: all.len() as u64,
        apart,
        agree,
    }
}

/// Every file's answer, and the stage after the last one.
fn end(order: &[u16], told: &[Told]) -> (Vec<Result<(), Refusal>>, Stage) {
    let mut answers = vec![Ok(()); order.len()];
    let mut last = None;
    for (file, told) in order.iter().zip(&told[1..]) {
        if let Told::Answer(answer, stage) = told {
            answers[usize::from(*file)] = *answer;
            last = stage.clone();
        }
    }
    (answers, last.expect("every offer is watched"))
}

/// The number of a matching file, and the stage with this file alone.
fn alone(history: &History, file: usize) -> Option<(u8, Stage)> {
    let facts = accept(&history.files[file]).ok()?;
    let mut stage = history.stage.clone();
    stage.open(&history.slate).ok()?;
    stage.offer(&history.slate, &history.files[file]).ok()?;
    Some((facts.number, stage))
}

/// Ten segments of the size that really comes, half of them big-endian, and a stray of ten minutes
/// later.
fn disk_files(shot: &Shot, random: &mut Random) -> Vec<Vec<u8>> {
    let mut files = Vec::new();
    for number in 1..=10 {
        let recipe = Recipe {
            order: number % 2,
            ..segment(shot, number, random)
        };
        files.push(Sample::make(&recipe, random));
    }
    let stray = Recipe {
        timeline: 210,
        ..any_segment(shot, random)
    };
    files.push(Sample::make(&stray, random));
    shuffle(&mut files, random);
    bytes_of(files)
}

/// A disk whose middle is cut into thin strips.
const THIN_TROPICS: [u16; 10] = [1_100, 800, 500, 250, 100, 101, 249, 500, 801, 1_099];

/// After each file lines are asked for wherever a segment begins or ends, and in the middle.
fn full_disk(heights: &[u16; 10], random: &mut Random) -> History {
    let common = Recipe {
        columns: 5_500,
        ..Recipe::plain()
    };
    let shot = Shot::cut(common, heights, 0);
    let slate = shot.slate();
    let files = disk_files(&shot, random);
    let mut steps = vec![Step::Open];
    for file in 0..files.len() as u16 {
        steps.push(Step::Offer(file));
        steps.extend(borders(&slate));
        steps.extend((1..=5_500).step_by(275).map(Step::Line));
    }
    History {
        watched: false,
        ..staged(slate, files, steps, random)
    }
}

/// Every refusal of a file that is offered, with the places that it can name.
pub const OFFERING: [Row; 23] = {
    let mut rows: [Row; 23] = [(SLATE, "SLATE", &[At(0, 0)]); 23];
    rows[1] = (STRIP, "STRIP", &[At(0, 0)]);
    let mut row = 0;
    while row < REFUSALS.len() {
        rows[2 + row] = REFUSALS[row];
        row += 1;
    }
    rows[21] = (OTHER_SHOT, "OTHER SHOT", &[At(0, 0)]);
    rows[22] = (ALREADY, "ALREADY", &[At(0, 0)]);
    rows
};

/// And of a frame that is opened: the first two.
pub fn opening() -> &'static [Row] {
    &OFFERING[..2]
}
