//! Which field is at fault and where it stands: the table of refusals with every place spelt out, then what each breach of
//! a rule is told, alone and with another of its block, and what has no place. By the reference and by the proved library.

use std::collections::BTreeSet;
use std::io;
use std::sync::mpsc::channel;
use std::thread;

use reference::assemble::{even, Slate, MARKS};
use reference::breach::breaches;
use reference::film::frame_number;
use reference::histories::{History, Stage, Step, Told};
use reference::make::{Recipe, Sample};
use reference::proved::{agrees, Answers, Bridge, Requests};
use reference::random::Random;
use reference::reel;
use reference::{accept, numbers, Answer, FINE};

/// How many entries blocks 8, 9 and 10 have, and where then blocks 9, 10 and 11 and the counts begin.
const ENTRIES: [([u64; 3], [u32; 4]); 13] = [
    ([0, 0, 0], [1_112, 1_157, 1_204, 1_463]),
    ([1, 0, 0], [1_122, 1_167, 1_214, 1_473]),
    ([0, 1, 0], [1_112, 1_167, 1_214, 1_473]),
    ([0, 0, 1], [1_112, 1_157, 1_208, 1_467]),
    ([4, 2, 0], [1_152, 1_217, 1_264, 1_523]),
    ([2, 3, 4], [1_132, 1_207, 1_270, 1_529]),
    ([0, 7, 5], [1_112, 1_227, 1_294, 1_553]),
    ([300, 200, 100], [4_112, 6_157, 6_604, 6_863]),
    ([6_547, 0, 0], [66_582, 66_627, 66_674, 66_933]),
    ([0, 6_549, 0], [1_112, 66_647, 66_694, 66_953]),
    ([0, 0, 16_384], [1_112, 1_157, 66_740, 66_999]),
    ([0, 0, 65_535], [1_112, 1_157, 263_344, 263_603]),
    ([6_547, 6_549, 65_535], [66_582, 132_117, 394_304, 394_563]),
];

fn recipe(order: u64, [a, b, c]: [u64; 3]) -> Recipe {
    Recipe {
        order,
        a,
        b,
        c,
        ..Recipe::plain()
    }
}

fn make(order: u64, entries: [u64; 3]) -> Sample {
    Sample::make(&recipe(order, entries), &mut Random::new(1))
}

/// The table: all that a file can be told, where blocks 9, 10 and 11 and the counts begin there.
fn rows([nine, ten, eleven, counts]: [u32; 4]) -> BTreeSet<Answer> {
    let starts = [0, 282, 332, 459, 598, 745, 1_004, 1_051, nine, ten, eleven];
    let mut rows = BTreeSet::new();
    for (block, start) in (1..).zip(starts) {
        rows.extend([(1, block, start), (2, block, start), (4, block, start + 1)]);
    }
    rows.extend([(3, 1, 5), (5, 1, 3), (5, 2, 285), (5, 5, 613), (5, 5, 615)]);
    rows.extend([(6, 2, 291), (8, 1, 70), (9, 1, 74), (10, 1, 114)]);
    rows.extend([(11, 12, counts), (12, 12, counts)]);
    rows.extend([(31, 1, 6), (32, 1, 38), (33, 1, 44)]);
    rows.extend([(34, 2, 287), (34, 2, 289), (35, 2, 291)]);
    rows.extend([(36, 5, 601), (37, 5, 611)]);
    rows.extend([(38, 7, 1_007), (38, 7, 1_008), (38, 7, 1_009)]);
    rows
}

/// Files are made one by one, each with what is due. The reference and the proved library must both tell that, and of a
/// refused file nothing else. Answers how many files there were.
fn compare(files: impl FnOnce(&mut dyn FnMut(&[u8], Answer)) + Send + 'static) -> usize {
    let Bridge {
        mut requests,
        mut answers,
    } = Bridge::start();
    let (tell, told) = channel();
    let asker = thread::spawn(move || {
        files(&mut |file, due| {
            let judged = accept(file);
            assert_eq!(numbers(&judged), due, "by the reference");
            requests.ask(file).expect("the bridge reads");
            tell.send(judged).expect("it is compared");
        });
        requests.end().expect("the bridge reads");
    });
    let mut compared = 0;
    for judged in told {
        let given = answers.next_file().expect("the bridge answers");
        assert!(agrees(&judged, &given), "{judged:?}, proved {given:?}");
        compared += 1;
    }
    asker.join().expect("the reference tells what is due");
    assert!(answers.ended_well(), "the bridge did not end well");
    compared
}

#[test]
fn every_row_of_the_table() {
    let compared = compare(|ask| {
        for (entries, starts) in ENTRIES {
            for order in [0, 1] {
                let good = make(order, entries);
                ask(&good.bytes, FINE);
                let mut told = BTreeSet::new();
                for breach in breaches(&recipe(order, entries)) {
                    let mut sample = good.clone();
                    breach.apply(&mut sample);
                    ask(&sample.bytes, breach.answer);
                    told.insert(breach.answer);
                }
                assert_eq!(told, rows(starts));
            }
        }
    });
    println!("{compared} files compared");
}

/// The sums, the name and the counts' length belong to the blocks that are shown with them.
#[test]
fn every_two_faults_of_a_block() {
    let compared = compare(|ask| {
        for (order, entries) in [(0, [0; 3]), (1, [0; 3]), (0, [2, 3, 4]), (1, [2, 3, 4])] {
            let good = make(order, entries);
            let all = breaches(&recipe(order, entries));
            for (place, earlier) in all.iter().enumerate() {
                let (_, block, _) = earlier.answer;
                for later in all[place + 1..].iter().filter(|l| l.answer.1 == block) {
                    // The earlier one is done last, so that it stands where both write the same field.
                    let mut sample = good.clone();
                    later.apply(&mut sample);
                    earlier.apply(&mut sample);
                    ask(&sample.bytes, earlier.answer);
                }
            }
        }
    });
    println!("{compared} files compared");
}

/// A block, an offset there and so many bytes.
type Field = (usize, usize, usize);

const BLOCK_1: Field = (1, 0, 1);
const BLOCK_11: Field = (11, 0, 1);
const LENGTH_1: Field = (1, 1, 2);
const BLOCK_COUNT: Field = (1, 3, 2);
const ORDER: Field = (1, 5, 1);
/// Of satellite, area and name the first byte and the last.
const SATELLITE: Field = (1, 6, 1);
const SATELLITE_END: Field = (1, 21, 1);
const AREA: Field = (1, 38, 1);
const AREA_END: Field = (1, 41, 1);
const TIMELINE: Field = (1, 44, 2);
const HEADER_SUM: Field = (1, 70, 4);
const DATA_SUM: Field = (1, 74, 4);
const NAME: Field = (1, 114, 1);
const NAME_END: Field = (1, 241, 1);
const BITS: Field = (2, 3, 2);
const COLUMNS: Field = (2, 5, 2);
const LINES: Field = (2, 7, 2);
const FLAG: Field = (2, 9, 1);
const BAND: Field = (5, 3, 2);
const VALID_BITS: Field = (5, 13, 2);
const ERROR_COUNT: Field = (5, 15, 2);
const OUTSIDE_COUNT: Field = (5, 17, 2);
const TOTAL: Field = (7, 3, 1);
const NUMBER: Field = (7, 4, 1);
const FIRST_LINE: Field = (7, 5, 2);

/// What is due of a file without entries when these fields of it have these values. By hand, apart from the list of
/// breaches: the first field in field order answers, but FIXED and PACKED come before.
const TOGETHER: &[(Answer, &[(Field, u64)])] = &[
    // the compression flag stands behind columns and lines
    ((6, 2, 291), &[(FLAG, 1), (COLUMNS, 0)]),
    ((6, 2, 291), &[(FLAG, 2), (LINES, 22_001)]),
    ((34, 2, 287), &[(FLAG, 3), (COLUMNS, 22_001)]),
    ((34, 2, 289), &[(FLAG, 255), (LINES, 0)]),
    ((34, 2, 287), &[(LINES, 0), (COLUMNS, 0)]),
    ((35, 2, 291), &[(FLAG, 3)]),
    ((5, 2, 285), &[(BITS, 15), (FLAG, 1), (COLUMNS, 0)]),
    (
        (5, 1, 3),
        &[(BLOCK_COUNT, 12), (SATELLITE, 0), (AREA, 0), (TIMELINE, 99)],
    ),
    ((31, 1, 6), &[(SATELLITE, 0), (AREA, 0), (TIMELINE, 99)]),
    ((32, 1, 38), &[(AREA, 0), (TIMELINE, 99)]),
    ((33, 1, 44), &[(TIMELINE, 99)]),
    // whichever letter it is, the field is told where it begins
    ((31, 1, 6), &[(SATELLITE_END, 1)]),
    ((32, 1, 38), &[(AREA_END, 0)]),
    ((10, 1, 114), &[(NAME_END, 1)]),
    // the special counts stand behind the band and the valid bits
    (
        (5, 5, 613),
        &[
            (ERROR_COUNT, 0),
            (OUTSIDE_COUNT, 0),
            (BAND, 17),
            (VALID_BITS, 13),
        ],
    ),
    (
        (5, 5, 615),
        &[(OUTSIDE_COUNT, 0), (BAND, 17), (VALID_BITS, 13)],
    ),
    ((36, 5, 601), &[(BAND, 17), (VALID_BITS, 13)]),
    ((36, 5, 601), &[(BAND, 0)]),
    ((37, 5, 611), &[(VALID_BITS, 11)]),
    // another band, for which the bits that are there are not right
    ((37, 5, 611), &[(BAND, 7)]),
    // a number above the total is the number's fault
    ((38, 7, 1_007), &[(TOTAL, 0)]),
    (
        (38, 7, 1_007),
        &[(TOTAL, 100), (NUMBER, 101), (FIRST_LINE, 0)],
    ),
    ((38, 7, 1_008), &[(NUMBER, 3)]),
    ((38, 7, 1_008), &[(TOTAL, 1), (NUMBER, 2)]),
    ((38, 7, 1_008), &[(NUMBER, 0), (FIRST_LINE, 0)]),
    ((38, 7, 1_009), &[(FIRST_LINE, 0)]),
    // two lines from 21,999 are the last ones; three are too many, and that is the first line's fault
    (FINE, &[(FIRST_LINE, 21_999)]),
    ((38, 7, 1_009), &[(FIRST_LINE, 22_000)]),
    ((38, 7, 1_009), &[(FIRST_LINE, 21_999), (LINES, 3)]),
    ((9, 1, 74), &[(FIRST_LINE, 21_998), (LINES, 3)]),
    // 65,535 and two lines end with line 0 in two bytes
    ((38, 7, 1_009), &[(FIRST_LINE, 65_535)]),
    // bad lines are block 2's, and the first line is not looked at
    ((34, 2, 289), &[(FIRST_LINE, 0), (LINES, 0)]),
    // the number of block 1, then the byte order, then the length
    ((2, 1, 0), &[(BLOCK_1, 0), (ORDER, 2), (LENGTH_1, 0)]),
    ((3, 1, 5), &[(ORDER, 2), (LENGTH_1, 0)]),
    ((4, 1, 1), &[(LENGTH_1, 0), (BLOCK_COUNT, 12)]),
    // the sums and the name come after all blocks
    (
        (2, 11, 1_204),
        &[(BLOCK_11, 12), (HEADER_SUM, 0), (DATA_SUM, 0), (NAME, 0)],
    ),
    ((8, 1, 70), &[(HEADER_SUM, 0), (DATA_SUM, 0), (NAME, 0)]),
    ((9, 1, 74), &[(DATA_SUM, 0), (NAME, 0)]),
    ((10, 1, 114), &[(NAME, 0)]),
];

#[test]
fn fields_together() {
    compare(|ask| {
        for order in [0, 1] {
            ask(&[], (1, 1, 0));
            for (due, fields) in TOGETHER {
                let mut sample = make(order, [0; 3]);
                for &((block, offset, width), value) in *fields {
                    sample.put(block, offset, width, value);
                }
                ask(&sample.bytes, *due);
            }
        }
    });
}

/// A file for every breach in either byte order, and what it is told wherever it comes from.
fn refused() -> Vec<(Vec<u8>, Answer)> {
    let mut all = Vec::new();
    for order in [0, 1] {
        let good = make(order, [2, 3, 4]);
        for breach in breaches(&good.recipe) {
            let mut sample = good.clone();
            breach.apply(&mut sample);
            all.push((sample.bytes, breach.answer));
        }
    }
    all
}

const SLATE: Slate = Slate {
    satellite: 8,
    day: 57_210,
    timeline: 200,
    band: 13,
    area: *b"FLDK",
    columns: 4,
    total: 2,
    heights: even(2),
};

/// Opens a frame of so many counts, and offers the files.
fn history(slate: Slate, frame: usize, marks: usize, files: Vec<Vec<u8>>) -> History {
    let offers = (0..files.len() as u16).map(Step::Offer);
    History {
        slate,
        stage: Stage {
            marks: vec![0; marks],
            frame: vec![0; frame],
        },
        leader: vec![],
        room: 0,
        watched: true,
        steps: [Step::Open].into_iter().chain(offers).collect(),
        files,
    }
}

/// Histories, and what each of their steps is told. Slate, frame, other shot and already have no place; files have their own.
fn histories() -> Vec<(History, Vec<Answer>)> {
    let good = make(0, [2, 3, 4]).bytes;
    let late = Recipe {
        timeline: 210,
        ..Recipe::plain()
    };
    let stray = Sample::make(&late, &mut Random::new(1)).bytes;
    let (bad, own): (Vec<_>, Vec<_>) = refused().into_iter().unzip();

    let mut files = vec![stray, good.clone(), good];
    let mut told = vec![FINE, (15, 0, 0), FINE, (16, 0, 0)];
    files.extend(bad.clone());
    told.extend(own);
    let bad_slate = Slate { band: 0, ..SLATE };
    let steps = 1 + bad.len();
    vec![
        (history(SLATE, 16, MARKS, files), told),
        (
            history(bad_slate, 16, MARKS, bad.clone()),
            vec![(13, 0, 0); steps],
        ),
        (history(SLATE, 16, 98, bad.clone()), vec![(13, 0, 0); steps]),
        (
            history(SLATE, 15, MARKS, bad.clone()),
            vec![(14, 0, 0); steps],
        ),
    ]
}

#[test]
fn frames() {
    let Bridge {
        mut requests,
        mut answers,
    } = Bridge::start();
    for (history, due) in histories() {
        let played = history.play();
        let told: Vec<Answer> = played.told.iter().map(answer_of).collect();
        assert_eq!(told, due, "by the reference");
        requests.ask_history(&history).expect("the bridge reads");
        let bytes = played.bytes();
        let given = answers.next_history(bytes.len());
        assert!(given.expect("the bridge answers") == bytes, "{due:?}");
    }
    requests.end().expect("the bridge reads");
    assert!(answers.ended_well(), "the bridge did not end well");
}

fn answer_of(told: &Told) -> Answer {
    match told {
        Told::Answer(answer, _) => numbers(answer),
        Told::Line(..) => panic!("no line was asked for"),
    }
}

/// A list of files with the room for its reel, and what opening, writing and sealing it are told.
struct Boxed {
    files: Vec<Vec<u8>>,
    room: usize,
    opened: Answer,
    written: Answer,
}

/// A bad file is told from its own start, wherever in the reel that is; a reel that is none and too little room have no
/// place.
fn boxes() -> Vec<Boxed> {
    let (little, big) = (make(0, [0; 3]).bytes, make(1, [1, 1, 1]).bytes);
    let mut all = Vec::new();
    for (bad, own) in refused() {
        for at in 0..3 {
            let mut files = vec![little.clone(), big.clone()];
            files.insert(at, bad.clone());
            all.push(Boxed {
                files,
                room: 5_000,
                opened: own,
                written: own,
            });
        }
    }
    let good = |room, written| Boxed {
        files: vec![little.clone(), big.clone()],
        room,
        opened: FINE,
        written,
    };
    // 1,479 and 1,503 bytes, and 25 of trailer; the trailer alone has room in all of these
    all.extend([good(3_007, FINE), good(3_006, (17, 0, 0))]);
    all.push(Boxed {
        files: vec![],
        room: 5_000,
        opened: (18, 0, 0),
        written: (18, 0, 0),
    });
    all
}

#[test]
fn reels() {
    let Bridge {
        mut requests,
        mut answers,
    } = Bridge::start();
    let (tell, told) = channel();
    let asker = thread::spawn(move || {
        for boxed in boxes() {
            let asked = boxed.ask(&mut requests);
            asked.expect("the bridge reads");
            tell.send(boxed).expect("it is compared");
        }
        requests.end().expect("the bridge reads");
    });
    for boxed in told {
        boxed.compare(&mut answers).expect("the bridge answers");
    }
    asker.join().expect("the reference tells what is due");
    assert!(answers.ended_well(), "the bridge did not end well");
}

impl Boxed {
    /// The trailer's room is as much less as there are bytes before it.
    fn rooms(&self) -> [usize; 2] {
        let size: usize = self.files.iter().map(Vec::len).sum();
        [self.room, self.room - size]
    }

    /// Answers by the reference, and asks the proved library.
    fn ask(&self, requests: &mut Requests) -> io::Result<()> {
        let bytes = self.files.concat();
        let lengths: Vec<u32> = self.files.iter().map(|file| file.len() as u32).collect();
        let trailer = reel::trailer(bytes.len() as u64, &lengths).unwrap_or_default();
        let reel = [&bytes[..], &trailer].concat();
        assert_eq!(numbers(&reel::open(&reel)), self.opened);
        let [whole, end] = self.rooms();
        let written = reel::write(&bytes, &lengths, &mut vec![0; whole]);
        assert_eq!(numbers(&written), self.written);
        let sealed = reel::seal(&bytes, &lengths, &mut vec![0; end]);
        assert_eq!(numbers(&sealed), self.written);

        requests.ask_reel_open(&reel)?;
        requests.ask_reel_write(&bytes, &lengths, whole)?;
        requests.ask_reel_seal(&bytes, &lengths, end)
    }

    fn compare(&self, answers: &mut Answers) -> io::Result<()> {
        let (opened, files) = answers.next_reel_open()?;
        assert_eq!(opened, self.opened);
        let due = if opened == FINE { self.files.len() } else { 0 };
        assert_eq!(usize::from(files), due);
        for room in self.rooms() {
            let (written, _) = answers.next_reel_output(room)?;
            assert_eq!(written, self.written);
        }
        Ok(())
    }
}

/// A film frame number comes from no file: it has no place. Either day answers before either timeline.
#[test]
fn film_frame_numbers() {
    const DAY: Result<i64, Answer> = Err((39, 0, 0));
    const TIMELINE: Result<i64, Answer> = Err((33, 0, 0));
    let cases = [
        ((57_209, 2_350), (57_210, 0), Ok(1)),
        ((57_210, 0), (57_209, 2_350), Ok(-1)),
        ((51_544, 0), (51_544, 0), Ok(0)),
        // 36,525 days of 144, less one
        ((51_544, 0), (88_068, 2_350), Ok(5_259_599)),
        ((88_068, 2_350), (51_544, 0), Ok(-5_259_599)),
        ((51_543, 0), (57_210, 0), DAY),
        ((57_210, 0), (51_543, 0), DAY),
        ((88_069, 0), (57_210, 0), DAY),
        ((57_210, 0), (88_069, 0), DAY),
        ((57_210, 0), (57_210 + 65_536, 0), DAY),
        ((0, 2_400), (u32::MAX, 2_400), DAY),
        // the second day comes before the first timeline
        ((57_210, 2_400), (51_543, 200), DAY),
        ((57_210, 2_400), (51_543, 205), DAY),
        ((57_210, 2_400), (57_210, 200), TIMELINE),
        ((57_210, 200), (57_210, 260), TIMELINE),
        ((57_210, 205), (57_210, 65_535), TIMELINE),
    ];
    let Bridge {
        mut requests,
        mut answers,
    } = Bridge::start();
    for (first, shot, due) in cases {
        let told = frame_number(first, shot);
        assert_eq!(told.map_err(|refusal| numbers::<()>(&Err(refusal))), due);
        requests
            .ask_frame_number(first, shot)
            .expect("the bridge reads");
    }
    requests.end().expect("the bridge reads");
    for (first, shot, due) in cases {
        let given = answers.next_frame_number().expect("the bridge answers");
        let due = match due {
            Ok(number) => (FINE, number),
            Err(refusal) => (refusal, 0),
        };
        assert_eq!(given, due, "from {first:?} to {shot:?}");
    }
    assert!(answers.ended_well(), "the bridge did not end well");
}
