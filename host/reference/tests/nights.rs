//! Night totals by the reference and by the proved library: each file of random nights, every kind of calibration, size,
//! band and byte order, runs that are posed, and nights of more files than a run holds. At each step refusal, block, offset,
//! extra and every number of the run are compared.

use std::sync::mpsc::{channel, Sender};
use std::thread;
use std::time::Instant;

use reference::breach::{breaches, recipe};
use reference::make::{Recipe, Sample};
use reference::mix::REFUSALS;
use reference::night::{add, Run, KINDS};
use reference::nights::{planted, sized, Calibration, Nights, ADDING, CALIBRATIONS, SIZES};
use reference::poses;
use reference::proved::{Bridge, Requests};
use reference::random::Random;
use reference::tally::{Row, Tally};
use reference::{accept, numbers, Answer, Facts, Refusal};

/// What was asked, with the reference's answer.
struct Due {
    kind: &'static str,
    /// The number of the run, and of the file in it, from 1.
    at: (u64, u64),
    before: Run,
    judged: Result<Facts, Refusal>,
    answer: Result<i64, Refusal>,
    after: Run,
}

/// Answers by the reference and asks the proved library.
struct Asker {
    requests: Requests,
    tell: Sender<Due>,
    /// As it is now.
    run: Run,
    at: (u64, u64),
}

impl Asker {
    /// What is added next is added to this run.
    fn begin(&mut self, run: &Run) {
        self.run = run.clone();
        self.at = (self.at.0 + 1, 0);
    }

    fn add(&mut self, kind: &'static str, file: &[u8]) -> Answer {
        let asked = self.requests.ask_night(&self.run, file);
        asked.expect("the bridge reads");
        self.at.1 += 1;
        let before = self.run.clone();
        let answer = add(&mut self.run, file);
        let due = Due {
            kind,
            at: self.at,
            before,
            judged: accept(file),
            answer,
            after: self.run.clone(),
        };
        self.tell.send(due).expect("it is compared");
        numbers(&answer)
    }
}

/// Compares all that is asked. The channel has no bound of its own, so that nobody waits for it: what is asked and not yet
/// compared is bounded by the pipes.
fn compare(table: &'static [Row], ask: impl FnOnce(&mut Asker) + Send + 'static) -> Seen {
    let began = Instant::now();
    let Bridge {
        requests,
        mut answers,
    } = Bridge::start();
    let (tell, told) = channel();
    let asker = thread::spawn(move || {
        let mut asker = Asker {
            requests,
            tell,
            run: Run::EMPTY,
            at: (0, 0),
        };
        ask(&mut asker);
        asker.requests.end().expect("the bridge reads");
    });
    let mut seen = Seen::new(table);
    for due in told {
        let given = answers.next_night().expect("the bridge answers");
        let told = (
            numbers(&due.answer),
            due.answer.unwrap_or(0),
            due.after.clone(),
        );
        if told != given {
            panic!("{}", due.differences(&members(&told), &members(&given)));
        }
        seen.count(&due);
    }
    asker.join().expect("every file was asked");
    assert!(answers.ended_well(), "the bridge did not end well");
    seen.print(began.elapsed().as_secs_f64());
    seen
}

/// Everything that is told of a file, by name.
fn members((answer, extra, run): &(Answer, i64, Run)) -> Vec<(String, i128)> {
    let (refusal, block, offset) = *answer;
    let mut all = vec![
        ("refusal".to_string(), i128::from(refusal)),
        ("block".to_string(), i128::from(block)),
        ("offset".to_string(), i128::from(offset)),
        ("extra".to_string(), i128::from(*extra)),
        ("accepted".to_string(), i128::from(run.accepted)),
    ];
    for (kind, total) in KINDS.iter().zip(run.totals) {
        all.push((kind.to_string(), i128::from(total)));
    }
    for (number, files) in run.refused.iter().enumerate() {
        all.push((format!("refused[{number}]"), i128::from(*files)));
    }
    all
}

impl Due {
    fn differences(&self, due: &[(String, i128)], given: &[(String, i128)]) -> String {
        let (run, file) = self.at;
        let mut text = format!("run {run}, file {file}, {}:", self.kind);
        for ((name, due), (_, given)) in due.iter().zip(given) {
            if due != given {
                text += &format!(" {name}: reference {due}, proved {given};");
            }
        }
        text + &format!(" {:?} before; the file: {:?}", self.before, self.judged)
    }

    /// How many counts of each kind the file had.
    fn grown(&self) -> [u64; 5] {
        std::array::from_fn(|kind| self.after.totals[kind] - self.before.totals[kind])
    }
}

/// How often each case came.
struct Seen {
    answers: Tally,
    runs: u64,
    files: u64,
    /// Counts of accepted files.
    counts: u64,
    /// Accepted files that have counts of each kind.
    kinds: [u64; 5],
    /// Accepted files of which some counts are uncalibrated, though others are radiance.
    partly: u64,
    /// Accepted files by byte order and band.
    bands: [[u64; 16]; 2],
    /// Accepted files with fewer error pixels than are listed, as many, and more.
    extras: [u64; 3],
    /// The lowest difference, and how often it came.
    lowest: i64,
    times_lowest: u64,
}

impl Seen {
    fn new(table: &'static [Row]) -> Seen {
        Seen {
            answers: Tally::new("added", table),
            runs: 0,
            files: 0,
            counts: 0,
            kinds: [0; 5],
            partly: 0,
            bands: [[0; 16]; 2],
            extras: [0; 3],
            lowest: 0,
            times_lowest: 0,
        }
    }

    fn count(&mut self, due: &Due) {
        self.answers.count(due.kind, &due.answer);
        self.runs = due.at.0;
        self.files += 1;
        if let (Ok(facts), Ok(extra)) = (&due.judged, due.answer) {
            self.count_accepted(facts, extra, due.grown());
        }
    }

    fn count_accepted(&mut self, facts: &Facts, extra: i64, grown: [u64; 5]) {
        let counts: u64 = grown.iter().sum();
        assert_eq!(counts, u64::from(facts.columns) * u64::from(facts.lines));
        self.counts += counts;
        for (files, counts) in self.kinds.iter_mut().zip(grown) {
            *files += u64::from(counts > 0);
        }
        let [radiance, .., uncalibrated] = grown;
        self.partly += u64::from(radiance > 0 && uncalibrated > 0);
        self.bands[usize::from(facts.order)][usize::from(facts.band) - 1] += 1;
        self.extras[(extra.signum() + 1) as usize] += 1;
        if extra < self.lowest {
            (self.lowest, self.times_lowest) = (extra, 0);
        }
        self.times_lowest += u64::from(extra == self.lowest);
    }

    fn print(&self, seconds: f64) {
        self.answers.print();
        for (kind, files) in KINDS.iter().zip(self.kinds) {
            println!("{files:>9}  files with counts of the kind {kind}");
        }
        println!("{:>9}  files with some uncalibrated", self.partly);
        for (order, bands) in ["little", "big"].iter().zip(self.bands) {
            println!("           {order}-endian, by band: {bands:?}");
        }
        let extras = self.extras;
        println!("           fewer error pixels than listed, as many, more: {extras:?}");
        println!(
            "           the lowest difference: {}, {} times",
            self.lowest, self.times_lowest
        );
        println!(
            "{} files in {} runs compared, {} counts, in {seconds:.1} s",
            self.files, self.runs, self.counts
        );
    }

    /// None of these may be rare among accepted files.
    fn check(&self, least: u64, least_by_band: u64) {
        let rare = |files: &[u64], least| files.iter().any(|&files| files < least);
        let [little, big] = &self.bands;
        assert!(!rare(&self.kinds, least), "kinds {:?}", self.kinds);
        assert!(self.partly >= least, "some uncalibrated: {}", self.partly);
        assert!(!rare(little, least_by_band), "little-endian {little:?}");
        assert!(!rare(big, least_by_band), "big-endian {big:?}");
        assert!(!rare(&self.extras, least), "extras {:?}", self.extras);
    }
}

#[test]
fn random_nights() {
    let nights = Nights::new(120);
    println!("seed {}", nights.seed);
    let number = nights.nights;
    let seen = compare(&REFUSALS, move |asker| {
        for night in 0..nights.nights {
            asker.begin(&Run::EMPTY);
            for file in nights.files(night) {
                asker.add(file.kind, &file.bytes);
            }
        }
    });
    assert!(seen.files >= 300 * number, "only {} files", seen.files);
    seen.answers.check(100 * number, number / 6, number / 60);
    seen.check(10 * number, number);
}

/// With every size, band and byte order, one calibration after the other.
#[test]
fn every_size() {
    let seen = compare(&[], |asker| {
        let mut random = Random::new(1);
        let mut calibrations = CALIBRATIONS.into_iter().cycle();
        asker.begin(&Run::EMPTY);
        for size in SIZES {
            for (band, order) in bands_and_orders() {
                let calibration = calibrations.next().expect("they go round");
                add_planted(asker, size, band, order, calibration, &mut random);
            }
        }
    });
    assert_eq!(seen.files, 21 * 16 * 2);
    seen.answers.check(seen.files, 0, 0);
    seen.check(100, 21);
}

/// With every calibration, band and byte order, four times.
#[test]
fn every_calibration() {
    let seen = compare(&[], |asker| {
        let mut random = Random::new(2);
        asker.begin(&Run::EMPTY);
        for calibration in CALIBRATIONS {
            for (band, order) in bands_and_orders() {
                for size in [1, 10, 100, 1_000] {
                    add_planted(asker, size, band, order, calibration, &mut random);
                }
            }
        }
    });
    assert_eq!(seen.files, 19 * 16 * 2 * 4);
    seen.answers.check(seen.files, 0, 0);
    seen.check(300, 19 * 4);
}

/// Each of the 65,536 counts once, so that the totals tell from which count on a calibration gives no finite number. With 11,
/// 12 and 14 valid bits, in both byte orders, five times.
#[test]
fn every_count() {
    let all: Vec<u64> = (0..65_536).collect();
    let seen = compare(&[], move |asker| {
        let mut random = Random::new(7);
        asker.begin(&Run::EMPTY);
        for calibration in CALIBRATIONS.into_iter().cycle().take(19 * 5) {
            for (band, order) in [(3, 0), (3, 1), (7, 0), (7, 1), (13, 0), (13, 1)] {
                let recipe = Recipe {
                    order,
                    band,
                    ..sized(65_536, &mut random)
                };
                let mut sample = planted(&recipe, calibration, &mut random);
                put_counts(&mut sample, &all);
                asker.add(calibration.0, &sample.bytes);
            }
        }
    });
    assert_eq!(seen.files, 19 * 5 * 6);
    seen.answers.check(seen.files, 0, 0);
    let [_, error, outside, over, _] = seen.kinds;
    assert_eq!([error, outside, over], [seen.files; 3]);
    assert!(seen.partly >= 120, "some uncalibrated: {}", seen.partly);
}

fn bands_and_orders() -> impl Iterator<Item = (u64, u64)> {
    (1..=16).flat_map(|band| [(band, 0), (band, 1)])
}

fn add_planted(
    asker: &mut Asker,
    size: u64,
    band: u64,
    order: u64,
    calibration: Calibration,
    random: &mut Random,
) {
    let recipe = Recipe {
        order,
        band,
        ..sized(size, random)
    };
    let file = planted(&recipe, calibration, random).bytes;
    asker.add(calibration.0, &file);
}

/// Block 10 with no entry up to as many as can be, which list none, one, or as many error pixels as can be.
#[test]
fn every_list_of_error_pixels() {
    let seen = compare(&[], |asker| {
        let mut random = Random::new(3);
        asker.begin(&Run::EMPTY);
        for c in [0, 1, 2, 40, 255, 256, 257, 16_384, 65_534, 65_535] {
            for (order, pixels) in [(0, 0), (1, 0), (0, 1), (1, 1), (0, 65_535), (1, 65_535)] {
                let recipe = Recipe {
                    order,
                    c,
                    ..sized(8, &mut random)
                };
                let mut sample = Sample::make(&recipe, &mut random);
                for entry in 0..c as usize {
                    sample.put(10, 9 + 4 * entry, 2, pixels);
                }
                for count in [0, 65_534, 65_535] {
                    put_counts(&mut sample, &[count; 8]);
                    asker.add("entries", &sample.bytes);
                }
            }
        }
    });
    assert_eq!(seen.files, 10 * 6 * 3);
    seen.answers.check(seen.files, 0, 0);
    // in each byte order once with every count 0, and once with every count outside the scan
    assert_eq!((seen.lowest, seen.times_lowest), (-4_294_836_225, 4));
    assert!(seen.extras.iter().all(|&files| files >= 10));
}

fn put_counts(sample: &mut Sample, counts: &[u64]) {
    for (place, &count) in counts.iter().enumerate() {
        sample.put(12, 2 * place, 2, count);
    }
}

/// 5,500 columns and 550 lines, with 11, 12 and 14 valid bits: of what they can hold a third to a half is uncalibrated.
#[test]
fn segments_of_real_size() {
    let seen = compare(&[], |asker| {
        let mut random = Random::new(4);
        asker.begin(&Run::EMPTY);
        for (order, band, edge) in [
            (0, 3, 1_000.0),
            (1, 3, 1_365.0),
            (0, 13, 2_048.0),
            (1, 7, 9_999.0),
        ] {
            let recipe = Recipe {
                order,
                band,
                c: 550,
                ..Recipe::segment(&mut random)
            };
            let mut sample = Sample::make(&recipe, &mut random);
            sample.put(5, 19, 8, (f64::MAX / edge).to_bits());
            sample.put(5, 27, 8, 1.0_f64.to_bits());
            let last = (1 << recipe.valid_bits()) - 1;
            for place in 0..3_025_000 {
                let within = random.within(0, last);
                let count = random.pick(&[within, within, last + 1, 65_533, 65_534, 65_535]);
                sample.put(12, 2 * place, 2, count);
            }
            asker.add("of real size", &sample.bytes);
        }
    });
    assert_eq!(seen.counts, 4 * 3_025_000);
    assert_eq!((seen.kinds, seen.partly), ([4; 5], 4));
}

/// Two good files in each byte order, a file for each refusal in one of them, and no bytes at all.
fn one_of_each() -> Vec<Vec<u8>> {
    // twice the gain is infinite, so these are of all five kinds
    let mixed = [0, 1, 2, 3, 4_096, 65_534, 65_535, 65_535];
    let good = |order, counts| {
        let mut sample = Sample::make(&recipe(order), &mut Random::new(5));
        sample.put(5, 19, 8, 1e308_f64.to_bits());
        sample.put(5, 27, 8, (-1.0_f64).to_bits());
        put_counts(&mut sample, counts);
        sample
    };
    let counts: [&[u64]; 2] = [&mixed, &[65_535; 8]];
    let accepted = [0, 1].map(|order| counts.map(|counts| good(order, counts).bytes));
    let mut files = accepted.concat();
    files.push(vec![]);
    for (row, (number, ..)) in REFUSALS.iter().enumerate() {
        let mut sample = good(row as u64 % 2, &mixed);
        let all = breaches(&sample.recipe);
        let breach = all.iter().rfind(|breach| breach.answer.0 == *number);
        breach.expect("there is one").apply(&mut sample);
        files.push(sample.bytes);
    }
    files
}

/// Each run with each file, and each time what the run has become with a good one.
fn pose(asker: &mut Asker, kind: &'static str, runs: impl IntoIterator<Item = Run>) {
    let files = one_of_each();
    for run in runs {
        asker.begin(&run);
        for file in &files {
            asker.run = run.clone();
            asker.add(kind, file);
            asker.add("once more", &files[0]);
        }
    }
}

#[test]
fn posed_runs() {
    let seen = compare(&ADDING, |asker| {
        pose(asker, "one number at its limit", poses::alone());
        pose(asker, "two numbers at their limits", poses::pairs());
        pose(asker, "many numbers at their limits", poses::spread());
        let mut random = Random::new(6);
        let any = (0..1_500).map(|_| poses::any(&mut random));
        pose(asker, "any numbers", any);
    });
    assert!(seen.runs >= 4_500, "only {} runs", seen.runs);
    seen.answers.check(5_000, 1_000, 0);
    assert!(seen.kinds.iter().all(|&files| files >= 1_000));
}

/// From the empty run: as many as it holds are answered as they are, and all others RUN.
fn overfill(asker: &mut Asker, kind: &'static str, files: impl Iterator<Item = Vec<u8>>) {
    const RUN: Answer = (19, 0, 0);
    asker.begin(&Run::EMPTY);
    for (held, file) in files.take(MANY).enumerate() {
        let own = numbers(&accept(&file));
        let due = if held < 4_096 { own } else { RUN };
        assert_eq!(asker.add(kind, &file), due, "{kind}, after {held} files");
    }
}

/// More files than a run holds.
const MANY: usize = 4_200;

#[test]
fn nights_of_too_many_files() {
    let seen = compare(&ADDING, |asker| {
        let each = one_of_each();
        let same = |file: &[u8]| std::iter::repeat(file.to_vec());
        overfill(asker, "accepted all", same(&each[0]));
        overfill(asker, "no bytes all", same(&[]));
        let tail = &each[each.len() - 1];
        overfill(asker, "TAIL all", same(tail));
        overfill(asker, "of each", each.iter().cloned().cycle());
        // as many nights as are needed
        let nights = Nights::new(0);
        let files = (0..).flat_map(|night| nights.files(night));
        overfill(asker, "any files", files.map(|file| file.bytes));
    });
    assert_eq!(seen.runs, 5);
    assert_eq!(seen.files, 5 * MANY as u64);
    // RUN 5 x 104 times
    seen.answers.check(4_096 + 600, 150, 0);
}
