//! Why a file is not one of a slate's, by the reference alone: the documents' rules, with every expected value worked out by
//! hand, and the offers that must go with it.

use reference::accept;
use reference::assemble::{even, offer, uneven, Record, Slate, MARKS, OTHER_SHOT};
use reference::make::{Recipe, Sample};
use reference::random::Random;
use reference::why::{
    why, Difference, Part,
    Part::{Area, Band, Columns, Day, FirstLine, Lines, Satellite, Timeline, Total},
    PARTS,
};
use reference::whys::{Whys, POSED};
use reference::{numbers, Answer};

/// The night of 0200, in ten segments.
const SLATE: Slate = Slate {
    satellite: 8,
    day: 57_210,
    timeline: 200,
    band: 13,
    area: *b"FLDK",
    columns: 4,
    total: 10,
    heights: even(2),
};

fn segment(number: u64) -> Recipe {
    Recipe {
        number,
        total: 10,
        first_line: 1 + (number - 1) * 2,
        ..Recipe::plain()
    }
}

fn file(recipe: &Recipe) -> Vec<u8> {
    Sample::make(recipe, &mut Random::new(1)).bytes
}

/// The same in both byte orders.
fn told(slate: &Slate, recipe: &Recipe) -> Option<Difference> {
    let [little, big] = [0, 1].map(|order| {
        let recipe = Recipe {
            order,
            ..recipe.clone()
        };
        why(slate, &file(&recipe)).expect("nothing is refused")
    });
    assert_eq!(little, big);
    little
}

fn differ(part: Part, slate: u64, file: u64) -> Option<Difference> {
    Some(Difference { part, slate, file })
}

#[test]
fn the_stray_of_0210() {
    for number in 1..=10 {
        assert_eq!(told(&SLATE, &segment(number)), None);
        let stray = Recipe {
            timeline: 210,
            ..segment(number)
        };
        assert_eq!(told(&SLATE, &stray), differ(Timeline, 200, 210));
    }
}

/// A part, how it is changed, and then its value for the slate and for the file.
type Change<T> = (Part, fn(&mut T), u64, u64);

/// Each part of a file.
const IN_FILE: [Change<Recipe>; 9] = [
    (Satellite, |r| r.satellite = 9, 8, 9),
    (Day, |r| r.day = 8, 57_210, 57_211),
    (Timeline, |r| r.timeline = 210, 200, 210),
    (Band, |r| r.band = 14, 13, 14),
    (Area, |r| r.area = *b"JP01", 0x464c_444b, 0x4a50_3031),
    (Columns, |r| r.columns = 5, 4, 5),
    (Total, |r| r.total = 9, 10, 9),
    (Lines, |r| r.lines = 1, 2, 1),
    (FirstLine, |r| r.first_line = 4, 5, 4),
];

/// Each part of a slate; where the third segment begins follows from the heights before it.
const IN_SLATE: [Change<Slate>; 9] = [
    (Satellite, |s| s.satellite = 9, 9, 8),
    (Day, |s| s.day = 57_209, 57_209, 57_210),
    (Timeline, |s| s.timeline = 150, 150, 200),
    (Band, |s| s.band = 12, 12, 13),
    (Area, |s| s.area = *b"R520", 0x5235_3230, 0x464c_444b),
    (Columns, |s| s.columns = 22_000, 22_000, 4),
    (Total, |s| s.total = 99, 99, 10),
    (Lines, |s| s.heights[2] = 3, 3, 2),
    (FirstLine, |s| s.heights[1] = 1, 4, 5),
];

#[test]
fn the_order_is_the_papers() {
    let order = IN_FILE.map(|(part, ..)| part);
    assert_eq!(PARTS, order);
    assert_eq!(PARTS.map(|part| part as u8), [1, 2, 3, 4, 5, 6, 7, 8, 9]);
}

#[test]
fn each_part_alone() {
    for (part, change, slate, file) in IN_FILE {
        let mut recipe = segment(3);
        change(&mut recipe);
        assert_eq!(told(&SLATE, &recipe), differ(part, slate, file));
    }
    for (part, change, slate, file) in IN_SLATE {
        let mut other = SLATE;
        change(&mut other);
        assert_eq!(told(&other, &segment(3)), differ(part, slate, file));
    }
}

/// On one side or one on each.
#[test]
fn of_two_the_first_is_told() {
    for (place, (part, change, slate, file)) in IN_FILE.into_iter().enumerate() {
        let mut recipe = segment(3);
        change(&mut recipe);
        check_later(&SLATE, &recipe, place, differ(part, slate, file));
    }
    for (place, (part, change, slate, file)) in IN_SLATE.into_iter().enumerate() {
        let mut other = SLATE;
        change(&mut other);
        check_later(&other, &segment(3), place, differ(part, slate, file));
    }
}

/// Nothing that comes later has a say.
fn check_later(slate: &Slate, recipe: &Recipe, place: usize, due: Option<Difference>) {
    for (_, change, ..) in &IN_FILE[place + 1..] {
        let mut recipe = recipe.clone();
        change(&mut recipe);
        assert_eq!(told(slate, &recipe), due);
    }
    for (_, change, ..) in IN_SLATE.iter().skip(place + 1) {
        let mut slate = *slate;
        change(&mut slate);
        assert_eq!(told(&slate, recipe), due);
    }
}

#[test]
fn the_slate_says_where_the_files_number_begins() {
    let at = |number, first_line| {
        let recipe = Recipe {
            first_line,
            ..segment(number)
        };
        told(&SLATE, &recipe)
    };
    assert_eq!(at(1, 2), differ(FirstLine, 1, 2));
    assert_eq!(at(2, 1), differ(FirstLine, 3, 1));
    assert_eq!(at(2, 5), differ(FirstLine, 3, 5));
    assert_eq!(at(10, 21_999), differ(FirstLine, 19, 21_999));
    // segment 3's place under another number
    assert_eq!(at(4, 5), differ(FirstLine, 7, 5));
    // a number that the slate has not
    let eleventh = Recipe {
        total: 11,
        ..segment(11)
    };
    assert_eq!(told(&SLATE, &eleventh), differ(Total, 10, 11));
}

#[test]
fn heights_are_those_of_the_files_own_number() {
    let slate = Slate {
        total: 4,
        heights: uneven(&[3, 1, 4, 2], 65_535),
        ..SLATE
    };
    let at = |number, lines, first_line| {
        let recipe = Recipe {
            total: 4,
            number,
            lines,
            first_line,
            ..Recipe::plain()
        };
        told(&slate, &recipe)
    };
    assert_eq!(at(1, 3, 1), None);
    assert_eq!(at(2, 1, 4), None);
    assert_eq!(at(3, 4, 5), None);
    assert_eq!(at(4, 2, 9), None);
    // a neighbour's height
    assert_eq!(at(1, 1, 1), differ(Lines, 3, 1));
    assert_eq!(at(2, 3, 4), differ(Lines, 1, 3));
    assert_eq!(at(2, 4, 4), differ(Lines, 1, 4));
    assert_eq!(at(4, 4, 9), differ(Lines, 2, 4));
    // a neighbour's place
    assert_eq!(at(3, 1, 4), differ(Lines, 4, 1));
    assert_eq!(at(2, 1, 5), differ(FirstLine, 4, 5));
    assert_eq!(at(3, 4, 9), differ(FirstLine, 5, 9));
    // where an even cut of its own height, or of the first one's, would have it
    assert_eq!(at(2, 1, 2), differ(FirstLine, 4, 2));
    assert_eq!(at(3, 4, 7), differ(FirstLine, 5, 7));
    assert_eq!(at(4, 2, 10), differ(FirstLine, 9, 10));
    assert_eq!(at(4, 2, 7), differ(FirstLine, 9, 7));
}

/// With one number of lines for all segments, as document 01 has it.
#[test]
fn an_even_slate_agrees_as_before() {
    let whys = Whys::new(20_000);
    let mut times = [0; 2];
    for pair in (0..whys.cases).map(|case| whys.case(case)) {
        let (slate, told) = (&pair.slate, why(&pair.slate, &pair.file));
        let (true, Ok(file), Ok(told)) = (slate.is_even(), accept(&pair.file), told) else {
            continue;
        };
        let lines = slate.heights[0];
        let agrees = (file.satellite, file.day, file.timeline)
            == (slate.satellite, slate.day, slate.timeline)
            && (file.band, file.area, file.columns) == (slate.band, slate.area, slate.columns)
            && (file.total, file.lines) == (slate.total, lines)
            && file.first_line == 1 + (u16::from(file.number) - 1) * lines;
        assert_eq!(told.is_none(), agrees);
        times[usize::from(agrees)] += 1;
    }
    assert!(times.iter().all(|&times| times >= 1_000), "{times:?}");
}

#[test]
fn the_last_of_99() {
    let slate = Slate {
        columns: 1,
        total: 99,
        heights: even(222),
        ..SLATE
    };
    let at = |first_line| {
        let recipe = Recipe {
            columns: 1,
            lines: 222,
            number: 99,
            total: 99,
            first_line,
            ..Recipe::plain()
        };
        told(&slate, &recipe)
    };
    assert_eq!(at(21_757), None);
    assert_eq!(at(21_758), differ(FirstLine, 21_757, 21_758));
    // the same in eight bits
    assert_eq!(at(253), differ(FirstLine, 21_757, 253));
}

#[test]
fn refusals_come_first() {
    let answer = |slate: &Slate, file: &[u8]| -> Answer { numbers(&why(slate, file)) };
    let bad = Slate { total: 0, ..SLATE };
    let good = file(&segment(3));
    let stray = file(&Recipe {
        timeline: 210,
        ..segment(3)
    });
    for file in [&good[..], &stray, &stray[..1_478], &[]] {
        assert_eq!(answer(&bad, file), (13, 0, 0));
    }
    assert_eq!(answer(&SLATE, &[]), (1, 1, 0));
    assert_eq!(answer(&SLATE, &good[..1_478]), (11, 12, 1_463));
    assert_eq!(answer(&SLATE, &stray[..1_478]), (11, 12, 1_463));
    // a timeline that no file has
    let mut sample = Sample::make(&segment(3), &mut Random::new(1));
    sample.put(1, 44, 2, 260);
    assert_eq!(answer(&SLATE, &sample.bytes), (33, 1, 44));
}

/// What an offer to such a record and frame answers.
fn offered(slate: &Slate, marks: [bool; MARKS], size: usize, file: &[u8]) -> u8 {
    let mut record = Record { marks };
    numbers(&offer(slate, &mut record, &mut vec![0; size], file)).0
}

/// Each mark may be set, up to that number.
fn any_marks(last: usize, random: &mut Random) -> [bool; MARKS] {
    let often = random.within(1, 4);
    std::array::from_fn(|place| place < last && random.below(often) == 0)
}

#[test]
fn agrees_exactly_where_offering_cannot_answer_15() {
    let whys = Whys::new(20_000);
    let posed = POSED.into_iter().flat_map(|pose| pose(&whys));
    let any = (0..whys.cases).map(|case| whys.case(case));
    let mut random = Random::new(2);
    let mut times = [0; 2];
    for pair in posed.chain(any) {
        let (slate, file) = (&pair.slate, &pair.file);
        let size = slate.frame_size();
        if size > 100_000 {
            continue;
        }
        let agrees = why(slate, file) == Ok(None);
        let could = slate.is_good() && accept(file).is_ok() && !agrees;
        let check = |marks, size| {
            let other_shot = offered(slate, marks, size, file) == OTHER_SHOT;
            assert!(!other_shot || could, "{}", pair.kind);
            other_shot
        };
        let within = any_marks(slate.total.into(), &mut random);
        assert_eq!(check([false; MARKS], size), could, "{}", pair.kind);
        assert_eq!(check(within, size), could, "{}", pair.kind);
        check(any_marks(MARKS, &mut random), size);
        let any_size = random.below(2 * size as u64 + 2) as usize;
        check(any_marks(MARKS, &mut random), any_size);
        times[usize::from(agrees)] += 1;
    }
    assert!(times.iter().all(|&times| times >= 5_000), "{times:?}");
}
