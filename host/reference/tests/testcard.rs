//! The program `testcard`: its segments are good, they join to one picture, and what it cannot write
//! it tells.

use std::fs::File;
use std::process::{Command, Output, Stdio};

use reference::accept;
use reference::assemble::{offer, open, uneven, Slate};

fn testcard(arguments: &str) -> Command {
    let mut command = Command::new(concat!(env!("CARGO_MANIFEST_DIR"), "/../testcard"));
    command.args(arguments.split(' '));
    command
}

fn run(arguments: &str) -> Output {
    testcard(arguments).output().expect("the program starts")
}

/// The bytes of a segment that must come.
fn segment(arguments: &str) -> Vec<u8> {
    let output = run(arguments);
    assert!(output.status.success() && output.stderr.is_empty());
    output.stdout
}

/// The counts of a segment in the byte order that its header names.
fn counts(file: &[u8]) -> Vec<u16> {
    let facts = accept(file).expect("it is good");
    let number = if facts.order == 0 {
        u16::from_le_bytes
    } else {
        u16::from_be_bytes
    };
    file[facts.header_length as usize..]
        .chunks(2)
        .map(|pair| number([pair[0], pair[1]]))
        .collect()
}

#[test]
fn a_segment_says_what_was_asked_for() {
    let facts = accept(&segment("9 20240229 2350 7 R420 37 5 3 9 1")).expect("it is good");
    assert_eq!((facts.satellite, facts.day), (9, 60_369));
    assert_eq!((facts.timeline, facts.band), (2_350, 7));
    assert_eq!(&facts.area, b"R420");
    assert_eq!((facts.columns, facts.lines), (37, 5));
    assert_eq!((facts.number, facts.total, facts.first_line), (3, 9, 11));
    assert_eq!((facts.order, facts.valid_bits), (1, 14));
}

#[test]
fn counts_lie_outside_or_within_the_valid_bits() {
    for band in 1..=16 {
        for order in 0..=1 {
            let file = segment(&format!("8 20150707 0200 {band} FLDK 60 60 1 1 {order}"));
            let bits = accept(&file).expect("it is good").valid_bits;
            let counts = counts(&file);
            let inside: Vec<u16> = counts.iter().copied().filter(|&c| c != 65_534).collect();
            assert!(inside.iter().all(|&count| count < 1 << bits));
            // a disk in its square
            assert!(
                inside.len() * 100 > counts.len() * 77 && inside.len() * 100 < counts.len() * 80
            );
        }
    }
}

#[test]
fn segments_join_to_one_picture() {
    let whole = counts(&segment("8 20150707 0200 13 FLDK 50 60 1 1 0"));
    let mut joined = Vec::new();
    for number in 1..=10 {
        let order = number % 2;
        let ask = format!("8 20150707 0200 13 FLDK 50 6 {number} 10 {order}");
        joined.extend(counts(&segment(&ask)));
    }
    assert_eq!(joined, whole);
}

/// Cuts of 60 lines.
const CUTS: [&[u16]; 7] = [
    &[59, 1],
    &[10, 20, 30],
    &[30, 10, 20],
    &[20, 30, 10],
    &[7, 20, 1, 32],
    &[15, 15, 15, 15],
    &[9, 6, 6, 3, 3, 3, 6, 6, 9, 9],
];

/// As it is typed, and as a slate.
fn typed(heights: &[u16]) -> String {
    let each: Vec<String> = heights.iter().map(u16::to_string).collect();
    each.join("+")
}

fn slated(heights: &[u16]) -> Slate {
    Slate {
        satellite: 8,
        day: 57_210,
        timeline: 200,
        band: 13,
        area: *b"FLDK",
        columns: 50,
        total: heights.len() as u8,
        heights: uneven(heights, 0),
    }
}

#[test]
fn a_segment_of_an_uneven_cut_says_what_was_asked_for() {
    for (number, lines, first_line) in [(1, 3, 1), (2, 1, 4), (3, 4, 5), (4, 2, 9)] {
        let ask = format!("8 20150707 0200 13 FLDK 5 3+1+4+2 {number} 4 0");
        let facts = accept(&segment(&ask)).expect("it is good");
        assert_eq!((facts.number, facts.total), (number, 4));
        assert_eq!((facts.lines, facts.first_line), (lines, first_line));
    }
    // 900 + 1,850 + 1,850 + 900 lines of a real disk, here one column of it
    let file = segment("8 20150707 0200 13 FLDK 1 900+1850+1850+900 2 4 0");
    let facts = accept(&file).expect("it is good");
    assert_eq!((facts.lines, facts.first_line), (1_850, 901));
}

#[test]
fn uneven_segments_join_to_the_same_picture() {
    let whole = counts(&segment("8 20150707 0200 13 FLDK 50 60 1 1 0"));
    for heights in CUTS {
        let (slate, total) = (slated(heights), heights.len());
        let mut frame = vec![0; 50 * 60];
        let mut record = open(&slate, &mut frame).expect("the slate is good");
        for number in (1..=total).rev() {
            let (word, order) = (typed(heights), number % 2);
            let ask = format!("8 20150707 0200 13 FLDK 50 {word} {number} {total} {order}");
            let placed = offer(&slate, &mut record, &mut frame, &segment(&ask));
            assert_eq!(placed, Ok(()), "{ask}");
        }
        assert_eq!(record.tally(), total);
        assert!(frame == whole, "{heights:?}");
    }
}

#[test]
fn heights_that_agree_are_as_one_number() {
    for number in 1..=4 {
        let even = segment(&format!("9 20240229 2350 7 R420 37 5 {number} 4 1"));
        let each = segment(&format!("9 20240229 2350 7 R420 37 5+5+5+5 {number} 4 1"));
        assert!(even == each);
    }
}

#[test]
fn another_shot_looks_different() {
    let shot = counts(&segment("8 20150707 0200 13 FLDK 50 6 4 10 0"));
    for other in ["20150707 0210", "20150707 0300", "20150708 0200"] {
        let other = counts(&segment(&format!("8 {other} 13 FLDK 50 6 4 10 0")));
        let same = shot.iter().zip(&other).filter(|(a, b)| a == b).count();
        assert!(same * 4 < shot.len());
    }
}

#[test]
fn the_largest_sizes_are_written() {
    let file = segment("8 20150707 0200 3 FLDK 22000 220 99 99 0");
    assert_eq!(file.len(), 1_463 + 2 * 22_000 * 220);
    assert_eq!(accept(&file).expect("it is good").first_line, 21_561);
    let file = segment("8 20150707 0200 3 FLDK 1 22000 1 1 1");
    assert_eq!(accept(&file).expect("it is good").lines, 22_000);
    let file = segment("8 20150707 0200 3 FLDK 1 21999+1 2 2 0");
    assert_eq!(accept(&file).expect("it is good").first_line, 22_000);
}

/// Nothing on standard output, one line on standard error, and a status that is not 0.
fn is_told(output: &Output) -> bool {
    let lines = output.stderr.iter().filter(|&&byte| byte == b'\n').count();
    output.stdout.is_empty()
        && lines == 1
        && output.stderr.ends_with(b"\n")
        && !output.status.success()
}

#[test]
fn bad_arguments_are_told() {
    for bad in [
        "8",
        "8 20150707 0200 13 FLDK 8 4 2 3",
        "8 20150707 0200 13 FLDK 8 4 2 3 0 0",
        "7 20150707 0200 13 FLDK 8 4 2 3 0",
        "Himawari-8 20150707 0200 13 FLDK 8 4 2 3 0",
        "8 20150229 0200 13 FLDK 8 4 2 3 0",
        "8 2015707 0200 13 FLDK 8 4 2 3 0",
        "8 19991231 0200 13 FLDK 8 4 2 3 0",
        "8 20150707 0205 13 FLDK 8 4 2 3 0",
        "8 20150707 2400 13 FLDK 8 4 2 3 0",
        "8 20150707 -200 13 FLDK 8 4 2 3 0",
        "8 20150707  13 FLDK 8 4 2 3 0",
        "8 20150707 0200 0 FLDK 8 4 2 3 0",
        "8 20150707 0200 17 FLDK 8 4 2 3 0",
        "8 20150707 0200 13 FLD 8 4 2 3 0",
        "8 20150707 0200 13 FLDKX 8 4 2 3 0",
        "8 20150707 0200 13 JP05 8 4 2 3 0",
        "8 20150707 0200 13 FLDK 0 4 2 3 0",
        "8 20150707 0200 13 FLDK 22001 4 2 3 0",
        "8 20150707 0200 13 FLDK 65544 4 2 3 0",
        "8 20150707 0200 13 FLDK 4294967304 4 2 3 0",
        "8 20150707 0200 13 FLDK 8x 4 2 3 0",
        "8 20150707 0200 13 FLDK 8 22001 1 1 0",
        "8 20150707 0200 13 FLDK 8 11001 2 2 0",
        "8 20150707 0200 13 FLDK 8 4 0 3 0",
        "8 20150707 0200 13 FLDK 8 4 4 3 0",
        "8 20150707 0200 13 FLDK 8 4 258 3 0",
        "8 20150707 0200 13 FLDK 8 4 2 100 0",
        "8 20150707 0200 13 FLDK 8 4 2 3 2",
        "8 20150707 0200 13 FLDK 8 4 2 3 256",
    ] {
        assert!(is_told(&run(bad)), "{bad}");
    }
}

/// Another number of heights than the total, one that is none, and sums that are too large.
#[test]
fn bad_heights_are_told() {
    for bad in [
        "4+4 2 3",
        "4+4+4+4 2 3",
        "4+4+ 2 3",
        "+4+4 2 3",
        "4++4 2 3",
        "4+4,4 2 3",
        "4+4x+4 2 3",
        "4+0+4 2 3",
        "+ 1 2",
        "22000+1 2 2",
        "65535+3 2 2",
        "65536+3 2 2",
    ] {
        let ask = format!("8 20150707 0200 13 FLDK 8 {bad} 0");
        assert!(is_told(&run(&ask)), "{ask}");
    }
}

#[test]
fn a_full_and_a_closed_output_are_told() {
    let ask = "8 20150707 0200 13 FLDK 5500 550 3 10 0";
    let full = File::options()
        .write(true)
        .open("/dev/full")
        .expect("it is there");
    let mut to_full = testcard(ask);
    to_full.stdout(full);
    assert!(is_told(
        &to_full
            .stderr(Stdio::piped())
            .spawn()
            .unwrap()
            .wait_with_output()
            .unwrap()
    ));

    let mut closed = testcard(ask)
        .stdout(Stdio::piped())
        .stderr(Stdio::piped())
        .spawn()
        .unwrap();
    drop(closed.stdout.take());
    assert!(is_told(&closed.wait_with_output().unwrap()));
}
