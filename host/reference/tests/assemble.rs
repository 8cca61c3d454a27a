//! Slate, record and frame by the reference: the rules of documents 01 and 02, one by one.

use reference::assemble::{even, line, offer, open, uneven, Record, Slate, MARKS, OUTSIDE};
use reference::make::{Recipe, Sample};
use reference::random::Random;
use reference::takes::{check_orders, Takes};
use reference::{numbers, Answer, FINE};

const SLATE: Slate = Slate {
    satellite: 8,
    day: 57_210,
    timeline: 200,
    band: 13,
    area: *b"FLDK",
    columns: 4,
    total: 3,
    heights: even(2),
};

fn recipe(number: u64) -> Recipe {
    Recipe {
        number,
        total: 3,
        first_line: 1 + (number - 1) * 2,
        ..Recipe::plain()
    }
}

/// A file whose counts are 1000 times its number, and on from there.
fn file(recipe: &Recipe) -> Vec<u8> {
    let mut sample = Sample::make(recipe, &mut Random::new(1));
    for place in 0..recipe.columns * recipe.lines {
        sample.put(12, 2 * place as usize, 2, 1_000 * recipe.number + place);
    }
    sample.bytes
}

/// Cut by these heights.
fn cut(heights: &[u16], beyond: u16) -> Slate {
    Slate {
        total: heights.len() as u8,
        heights: uneven(heights, beyond),
        ..SLATE
    }
}

/// One segment of a shot with so many, in a place of its own.
fn part(total: u64, number: u64, lines: u64, first_line: u64) -> Recipe {
    Recipe {
        total,
        number,
        lines,
        first_line,
        ..Recipe::plain()
    }
}

fn record(marked: &[usize]) -> Record {
    let mut marks = [false; MARKS];
    for number in marked {
        marks[number - 1] = true;
    }
    Record { marks }
}

#[test]
fn slates_are_good_within_their_ranges() {
    let good = |change: fn(&mut Slate)| {
        let mut slate = SLATE;
        change(&mut slate);
        slate.is_good()
    };
    assert!(good(|_| {}));
    assert!(!good(|s| s.satellite = 7) && good(|s| s.satellite = 9) && !good(|s| s.satellite = 10));
    assert!(!good(|s| s.day = 51_543) && good(|s| s.day = 51_544));
    assert!(good(|s| s.day = 88_068) && !good(|s| s.day = 88_069));
    assert!(good(|s| s.timeline = 2_350) && !good(|s| s.timeline = 2_400));
    assert!(!good(|s| s.timeline = 205) && !good(|s| s.timeline = 260));
    assert!(!good(|s| s.band = 0) && good(|s| s.band = 16) && !good(|s| s.band = 17));
    assert!(good(|s| s.area = *b"R520") && !good(|s| s.area = *b"JP05"));
    assert!(!good(|s| s.columns = 0) && good(|s| s.columns = 22_000));
    assert!(!good(|s| s.columns = 22_001) && !good(|s| s.total = 0) && good(|s| s.total = 99));
    assert!(!good(|s| s.total = 100) && !good(|s| s.total = 255));
}

#[test]
fn heights_are_good_up_to_a_sum_of_22_000() {
    for heights in [
        &[1][..],
        &[22_000],
        &[11_000, 11_000],
        &[21_999, 1],
        &[1, 21_999],
        &[3, 1, 2],
        &[1; 99],
        &[222; 99],
        &[10_000, 1, 11_999],
    ] {
        for beyond in [0, 1, 22_000, 65_535] {
            assert!(cut(heights, beyond).is_good(), "{heights:?}, {beyond}");
        }
    }
}

#[test]
fn a_height_of_0_and_a_larger_sum_are_bad() {
    let mut wraps = [662; 99];
    wraps[40] = 661;
    for heights in [
        &[0][..],
        &[0, 1, 2],
        &[3, 0, 2],
        &[3, 1, 0],
        &[0; 99],
        &[22_001],
        &[22_000, 1],
        &[1, 22_000],
        &[11_000, 11_001],
        &[10_000, 2, 11_999],
        &[223; 99],
        // in 16 bits 2, 0, 22,000, 2, 1 and 65,437
        &[65_535, 3],
        &[65_535, 1],
        &[22_001, 65_535],
        &[662; 99],
        &wraps,
        &[65_535; 99],
    ] {
        for beyond in [0, 1] {
            assert!(!cut(heights, beyond).is_good(), "{heights:?}, {beyond}");
        }
    }
}

/// Document 01's slate has one number of lines for all segments: where all heights agree, that is what it still says.
#[test]
fn even_heights_are_as_one_number_of_lines() {
    for total in 1..=99 {
        let most = 22_000 / total;
        for lines in [0, 1, 2, 3, 7, 222, most - 1, most, most + 1, 22_001, 65_535] {
            let slate = cut(&vec![lines as u16; total], 0);
            assert_eq!(slate.is_good(), lines >= 1 && total * lines <= 22_000);
            assert_eq!(slate.frame_lines(), total * lines);
            assert_eq!(slate.frame_size(), total * lines * 4);
            assert!((1..=total).all(|k| slate.first_line(k) == 1 + (k - 1) * lines));
        }
    }
}

#[test]
fn even_heights_cover_lines_as_one_number_of_lines() {
    for total in 1..=99 {
        for lines in 1..=20 {
            let slate = cut(&vec![lines as u16; total], 0);
            let due = |line| Some((line - 1) / lines + 1);
            assert!((1..=total * lines).all(|line| slate.covering(line) == due(line)));
            assert_eq!(slate.covering(0), None);
            assert_eq!(slate.covering(total * lines + 1), None);
        }
    }
}

/// Three heights in each order, where each segment begins, and which one covers each line.
const THREE: [([u16; 3], [u64; 3], [usize; 6]); 6] = [
    ([3, 1, 2], [1, 4, 5], [1, 1, 1, 2, 3, 3]),
    ([3, 2, 1], [1, 4, 6], [1, 1, 1, 2, 2, 3]),
    ([1, 3, 2], [1, 2, 5], [1, 2, 2, 2, 3, 3]),
    ([1, 2, 3], [1, 2, 4], [1, 2, 2, 3, 3, 3]),
    ([2, 3, 1], [1, 3, 6], [1, 1, 2, 2, 2, 3]),
    ([2, 1, 3], [1, 3, 4], [1, 1, 2, 3, 3, 3]),
];

#[test]
fn a_segment_begins_one_line_after_those_before_it_end() {
    for (heights, firsts, covered) in THREE {
        let slate = cut(&heights, 65_535);
        assert_eq!((slate.frame_lines(), slate.frame_size()), (6, 24));
        assert_eq!([1, 2, 3].map(|k| slate.first_line(k) as u64), firsts);
        let covering: Vec<_> = (0..=7).map(|line| slate.covering(line)).collect();
        assert_eq!(covering[1..7], covered.map(Some));
        assert_eq!((covering[0], covering[7]), (None, None));
    }
}

/// What each line shows with these numbers in: counts of its segment, or else of the leader.
fn shown(numbers: &[usize], firsts: [u64; 3], covered: [usize; 6]) -> Vec<[u16; 4]> {
    let each = covered.iter().enumerate().map(|(place, number)| {
        let line = place as u16 + 1 - firsts[number - 1] as u16;
        let first = if numbers.contains(number) {
            1_000 * *number as u16 + 4 * line
        } else {
            1
        };
        [first, first + 1, first + 2, first + 3]
    });
    each.collect()
}

#[test]
fn each_segment_is_placed_by_its_own_height_and_first_line() {
    for (heights, firsts, covered) in THREE {
        let slate = cut(&heights, 0);
        let segment = |k: usize| part(3, k as u64, heights[k - 1].into(), firsts[k - 1]);
        for numbers in [&[1][..], &[2], &[3], &[1, 2, 3], &[3, 2, 1], &[2, 3, 1]] {
            let mut frame = [0; 24];
            let mut marked = open(&slate, &mut frame).unwrap();
            for &k in numbers {
                let file = file(&segment(k));
                assert_eq!(offer(&slate, &mut marked, &mut frame, &file), Ok(()));
            }
            assert_eq!(marked, record(numbers));
            let at = |number| line(&slate, &marked, &frame, &[1, 2, 3, 4], number);
            let lines: Vec<&[u16]> = (1..=6).map(at).collect();
            assert_eq!(lines, shown(numbers, firsts, covered));
            assert!([0, 7, u16::MAX].iter().all(|&line| at(line).is_empty()));
        }
    }
}

#[test]
fn a_files_lines_are_compared_with_the_height_of_its_own_number() {
    let slate = cut(&[3, 1, 2], 1);
    let told = |number, lines, first_line| {
        let file = file(&part(3, number, lines, first_line));
        answer(&slate, &[], 24, &file)
    };
    assert_eq!(told(1, 3, 1), FINE);
    assert_eq!(told(2, 1, 4), FINE);
    assert_eq!(told(3, 2, 5), FINE);
    // a neighbour's height
    assert_eq!(told(1, 1, 1), (15, 0, 0));
    assert_eq!(told(2, 3, 4), (15, 0, 0));
    assert_eq!(told(3, 1, 5), (15, 0, 0));
    // another's first line, and that of an even cut
    assert_eq!(told(2, 1, 5), (15, 0, 0));
    assert_eq!(told(2, 1, 2), (15, 0, 0));
    assert_eq!(told(3, 2, 4), (15, 0, 0));
    assert_eq!(told(3, 2, 3), (15, 0, 0));
    // another's place
    assert_eq!(told(2, 2, 5), (15, 0, 0));
}

#[test]
fn what_stands_beyond_the_last_height_is_ignored() {
    let takes = Takes::new(2_000, 0);
    for case in 0..takes.small {
        let mut history = takes.case(case).history;
        let played = history.play().bytes();
        let beyond = history.slate.cut().len();
        for height in [0, 1, 22_000, 65_535] {
            history.slate.heights[beyond..].fill(height);
            assert_eq!(history.play().bytes(), played);
        }
    }
}

#[test]
fn opening_fills_the_frame() {
    let mut frame = [7; 24];
    assert_eq!(open(&SLATE, &mut frame), Ok(record(&[])));
    assert_eq!(frame, [OUTSIDE; 24]);
}

#[test]
fn opening_checks_the_slate_and_then_the_frame() {
    let bad = Slate { band: 0, ..SLATE };
    let mut frame = [7; 24];
    assert_eq!(numbers(&open(&bad, &mut frame[..23])), (13, 0, 0));
    assert_eq!(numbers(&open(&SLATE, &mut frame[..23])), (14, 0, 0));
    assert_eq!(numbers(&open(&SLATE, &mut [7; 25])), (14, 0, 0));
    assert_eq!(frame, [7; 24]);
}

#[test]
fn placing_writes_the_segments_lines_and_marks_its_number() {
    for order in [0, 1] {
        let mut frame = [7; 24];
        let mut marked = record(&[1]);
        let second = file(&Recipe { order, ..recipe(2) });
        assert_eq!(offer(&SLATE, &mut marked, &mut frame, &second), Ok(()));
        assert_eq!(marked, record(&[1, 2]));
        assert_eq!(marked.tally(), 2);
        assert_eq!(
            frame[8..16],
            [2_000, 2_001, 2_002, 2_003, 2_004, 2_005, 2_006, 2_007]
        );
        assert_eq!((&frame[..8], &frame[16..]), (&[7; 8][..], &[7; 8][..]));
    }
}

/// The answer to a file, where a refusal must leave everything as it was.
fn answer(slate: &Slate, marked: &[usize], size: usize, file: &[u8]) -> Answer {
    let mut frame = vec![7; size];
    let mut now = record(marked);
    let answer = numbers(&offer(slate, &mut now, &mut frame, file));
    if answer != FINE {
        assert_eq!(now, record(marked));
        assert_eq!(frame, vec![7; size]);
    }
    answer
}

#[test]
fn offering_checks_in_the_papers_order() {
    let bad = Slate { band: 0, ..SLATE };
    let good = file(&recipe(2));
    let cut = &good[..good.len() - 1];
    let stray = file(&Recipe {
        timeline: 210,
        ..recipe(2)
    });
    assert_eq!(answer(&bad, &[], 23, cut), (13, 0, 0));
    assert_eq!(answer(&SLATE, &[4], 23, cut), (13, 0, 0));
    assert_eq!(answer(&SLATE, &[99], 23, cut), (13, 0, 0));
    assert_eq!(answer(&SLATE, &[2], 23, cut), (14, 0, 0));
    assert_eq!(answer(&SLATE, &[2], 24, cut), (11, 12, 1_463));
    assert_eq!(answer(&SLATE, &[2], 24, &[]), (1, 1, 0));
    assert_eq!(answer(&SLATE, &[2], 24, &stray), (15, 0, 0));
    assert_eq!(answer(&SLATE, &[2], 24, &good), (16, 0, 0));
    assert_eq!(answer(&SLATE, &[1, 3], 24, &good), FINE);
}

#[test]
fn a_file_matches_when_all_parts_agree() {
    let changes: [fn(&mut Recipe); 10] = [
        |r| r.satellite = 9,
        |r| r.day = 8,
        |r| r.timeline = 210,
        |r| r.band = 14,
        |r| r.area = *b"JP01",
        |r| r.columns = 5,
        |r| r.total = 4,
        |r| r.lines = 3,
        |r| r.first_line = 4,
        |r| r.number = 3,
    ];
    for change in changes {
        let mut other = recipe(2);
        change(&mut other);
        assert_eq!(answer(&SLATE, &[], 24, &file(&other)), (15, 0, 0));
    }
}

#[test]
fn a_line_is_of_the_frame_or_of_the_leader() {
    let mut frame = [0; 24];
    let mut marked = open(&SLATE, &mut frame).unwrap();
    offer(&SLATE, &mut marked, &mut frame, &file(&recipe(2))).unwrap();
    let leader = [1, 2, 3, 4, 5];
    let at = |number, leader| line(&SLATE, &marked, &frame, leader, number).to_vec();
    assert_eq!(at(0, &leader[..]), []);
    assert_eq!(at(1, &leader[..]), [1, 2, 3, 4]);
    assert_eq!(at(2, &leader[..4]), [1, 2, 3, 4]);
    assert_eq!(at(3, &[]), [2_000, 2_001, 2_002, 2_003]);
    assert_eq!(at(4, &[]), [2_004, 2_005, 2_006, 2_007]);
    assert_eq!(at(5, &leader[..3]), []);
    assert_eq!(at(6, &leader[..]), [1, 2, 3, 4]);
    assert_eq!(at(7, &leader[..]), []);
}

#[test]
fn a_line_is_empty_for_a_bad_slate_record_or_frame() {
    let bad = Slate { band: 0, ..SLATE };
    let whole = record(&[1, 2, 3]);
    let frame = [7; 25];
    assert_eq!(line(&SLATE, &whole, &frame[..24], &[], 1), [7; 4]);
    assert_eq!(line(&bad, &whole, &frame[..24], &[7; 4], 1), []);
    assert_eq!(line(&SLATE, &record(&[1, 4]), &frame[..24], &[7; 4], 1), []);
    assert_eq!(line(&SLATE, &whole, &frame, &[7; 4], 1), []);
    assert_eq!(line(&SLATE, &whole, &frame[..23], &[7; 4], 1), []);
}

#[test]
fn the_record_alone_says_what_has_come() {
    let mut frame = [0; 24];
    let mut marked = open(&SLATE, &mut frame).unwrap();
    let mut sample = Sample::make(&recipe(1), &mut Random::new(1));
    for place in 0..8 {
        sample.put(12, 2 * place, 2, u64::from(OUTSIDE));
    }
    offer(&SLATE, &mut marked, &mut frame, &sample.bytes).unwrap();
    assert_eq!(frame, [OUTSIDE; 24]);
    assert_eq!(line(&SLATE, &marked, &frame, &[1; 4], 1), [OUTSIDE; 4]);
    assert_eq!(line(&SLATE, &marked, &frame, &[1; 4], 3), [1; 4]);
}

#[test]
fn the_order_of_files_makes_no_difference() {
    let takes = Takes::new(0, 500);
    for case in takes.small..takes.small + takes.shuffled {
        let history = takes.case(case).history;
        check_orders(&history, &history.play());
    }
}
