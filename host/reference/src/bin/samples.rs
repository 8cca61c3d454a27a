//! Writes the files on which the command is tried, into a folder, with what it must say of them: good ones, one for
//! every rule that is broken, one for every quality flag, the segments of a small frame with its pictures, and reels of
//! these. Everything comes from documents 01 and 02.

use std::fs;
use std::path::{Path, PathBuf};

use reference::breach::{breaches, recipe};
use reference::make::{Recipe, Sample};
use reference::quality::{marks, NAMES};
use reference::random::Random;
use reference::reel;
use reference::{accept, numbers};

const COLUMNS: u64 = 64;
const LINES: u64 = 3;
const TOTAL: u64 = 4;
const GREATEST: u16 = 4_095;

fn main() {
    let folder = PathBuf::from(std::env::args().nth(1).expect("a folder"));
    fs::create_dir_all(&folder).expect("the folder is made");
    let mut random = Random::new(20_150_707);
    write_good(&folder, &mut random);
    write_refused(&folder, &mut random);
    write_frame(&folder, &mut random);
    write_quality(&folder, &mut random);
    write_reels(&folder);
}

fn write(folder: &Path, name: &str, bytes: &[u8]) {
    fs::write(folder.join(name), bytes).expect("the file is written");
}

/// The file whose listing the paper gives, in either byte order, with gain 0.5, constant -1 and a count of each kind.
fn write_good(folder: &Path, random: &mut Random) {
    for (name, order) in [("good-0", 0), ("good-1", 1)] {
        let mut sample = Sample::make(
            &Recipe {
                order,
                ..Recipe::plain()
            },
            random,
        );
        sample.put(5, 19, 8, 0.5_f64.to_bits());
        sample.put(5, 27, 8, (-1.0_f64).to_bits());
        for (place, count) in [10, 4_095, 4_096, 65_533, 65_534, 65_535, 0, 1]
            .into_iter()
            .enumerate()
        {
            sample.put(12, 2 * place, 2, count);
        }
        write(folder, name, &sample.bytes);
        sample.put(5, 19, 8, f64::INFINITY.to_bits());
        write(folder, &format!("{name}-uncalibrated"), &sample.bytes);
    }
}

/// A file for every breach in either byte order, and the lines that the listing must have of them.
fn write_refused(folder: &Path, random: &mut Random) {
    let mut lines = String::new();
    for order in [0, 1] {
        for (number, breach) in breaches(&recipe(order)).iter().enumerate() {
            let mut sample = Sample::make(&recipe(order), random);
            breach.apply(&mut sample);
            assert_eq!(numbers(&accept(&sample.bytes)), breach.answer);
            write(
                folder,
                &format!("refused-{order}-{number:03}"),
                &sample.bytes,
            );
            let (refusal, block, offset) = breach.answer;
            lines += &format!("NO {refusal} {block} {offset}\n");
        }
    }
    write(folder, "refused.lines", lines.as_bytes());
}

/// Reels of samples that are there already, what the listing must have of the first one, and which file of a bad one is
/// at fault: its number, offset and length, and its refusal, block and byte from its own start.
fn write_reels(folder: &Path) {
    let sample = |name: &str| fs::read(folder.join(name)).expect("the sample is written");
    let box_of = |names: &[&str]| names.iter().map(|name| sample(name)).collect::<Vec<_>>();

    let files = box_of(&["segment-1", "segment-2", "segment-3", "segment-4", "good-0"]);
    let mut reel = reel_of(&files);
    write(folder, "reel", &reel);
    let lines: String = files.iter().map(|file| listing(file)).collect();
    write(folder, "reel.lines", lines.as_bytes());
    let twice = box_of(&["segment-1", "segment-2", "segment-1"]);
    write(folder, "reel-twice", &reel_of(&twice));
    let by_turns = box_of(&["good-0", "good-1"]).into_iter().cycle();
    let most: Vec<_> = by_turns.take(reel::MOST_FILES).collect();
    write(folder, "reel-255", &reel_of(&most));

    let mut bad = box_of(&["segment-1", "refused-0-022", "good-0"]);
    let (refusal, block, byte) = numbers(&accept(&bad[1]));
    let (offset, length) = (bad[0].len(), bad[1].len());
    let line = format!("2 {offset} {length} {refusal} {block} {byte}\n");
    bad.push(trailer_of(&bad));
    write(folder, "reel-bad", &bad.concat());
    write(folder, "reel-bad.line", line.as_bytes());

    let end = reel.len();
    let offset = u32::from_le_bytes(reel[end - 8..end - 4].try_into().expect("four bytes"));
    let mut broken = reel.clone();
    broken[end - 8..end - 4].copy_from_slice(&(offset + 1).to_le_bytes());
    write(folder, "reel-broken", &broken);
    reel[end - 4..].copy_from_slice(b"REL2");
    write(folder, "reel-letters", &reel);
}

/// The trailer of files that need not be good.
fn trailer_of(files: &[Vec<u8>]) -> Vec<u8> {
    let lengths: Vec<u32> = files.iter().map(|file| file.len() as u32).collect();
    let offered = lengths.iter().map(|length| u64::from(*length)).sum();
    reel::trailer(offered, &lengths).expect("the files have a trailer")
}

/// The reel of good files.
fn reel_of(files: &[Vec<u8>]) -> Vec<u8> {
    let lengths: Vec<u32> = files.iter().map(|file| file.len() as u32).collect();
    let bytes = files.concat();
    let mut reel = vec![0; bytes.len() + 8 * files.len() + 9];
    reel::write(&bytes, &lengths, &mut reel).expect("the files have a reel");
    assert_eq!(reel::open(&reel), Ok(files.len() as u16));
    reel
}

/// The line that the listing has of a good file.
fn listing(file: &[u8]) -> String {
    let facts = accept(file).expect("the file is good");
    let area = String::from_utf8_lossy(&facts.area).into_owned();
    format!(
        "OK {} {} {:04} {} {area} {} {} {} {} {}\n",
        facts.satellite,
        facts.day,
        facts.timeline,
        facts.band,
        facts.columns,
        facts.lines,
        facts.number,
        facts.total,
        facts.first_line
    )
}

/// A good file for every quality flag, in byte orders that alternate, and the lines that `quality` must have of them.
fn write_quality(folder: &Path, random: &mut Random) {
    let mut lines = String::new();
    for flag in 0..=u8::MAX {
        let mut sample = Sample::make(
            &Recipe {
                order: u64::from(flag % 2),
                ..Recipe::plain()
            },
            random,
        );
        sample.put(1, 78, 1, u64::from(flag));
        let facts = accept(&sample.bytes).expect("any flag is accepted");
        assert_eq!(facts.quality, flag);
        let name = format!("quality-{flag:02x}");
        write(folder, &name, &sample.bytes);
        let shown = NAMES.iter().zip(marks(flag));
        let shown: Vec<String> = shown.map(|(n, m)| format!("{n}={}", m.word())).collect();
        lines += &format!("{name}: {}\n", shown.join(" "));
    }
    write(folder, "quality.lines", lines.as_bytes());
}

fn segment(number: u64, order: u64) -> Recipe {
    Recipe {
        order,
        columns: COLUMNS,
        lines: LINES,
        number,
        total: TOTAL,
        first_line: 1 + (number - 1) * LINES,
        ..Recipe::plain()
    }
}

/// Four segments and two strays with the number 3: one is ten minutes late, the other has the timeline of another day.
fn write_frame(folder: &Path, random: &mut Random) {
    let mut frame = Vec::new();
    for number in 1..=TOTAL {
        let mut sample = Sample::make(&segment(number, number % 2), random);
        for place in 0..(LINES * COLUMNS) as usize {
            let count = random.below(2 * u64::from(GREATEST));
            sample.put(12, 2 * place, 2, count);
            frame.push(count as u16);
        }
        write(folder, &format!("segment-{number}"), &sample.bytes);
    }
    let late = Recipe {
        timeline: 210,
        ..segment(3, 0)
    };
    write(folder, "stray-late", &Sample::make(&late, random).bytes);
    let other_day = Recipe {
        day: 8,
        ..segment(3, 0)
    };
    write(folder, "stray-day", &Sample::make(&other_day, random).bytes);
    write(folder, "whole.pgm", &picture(&frame));
    write(folder, "bands.pgm", &picture(&without_third(&frame, bands)));
    let grey = without_third(&frame, |_| 2_048);
    write(folder, "grey.pgm", &picture(&grey));
}

/// The command's leader: 32 upright bands, the first one white.
fn bands(column: u64) -> u16 {
    if (column * 32 / COLUMNS).is_multiple_of(2) {
        GREATEST
    } else {
        0
    }
}

fn without_third(frame: &[u16], leader: impl Fn(u64) -> u16) -> Vec<u16> {
    let mut frame = frame.to_vec();
    let third = (2 * LINES * COLUMNS) as usize..(3 * LINES * COLUMNS) as usize;
    for (place, count) in frame[third].iter_mut().enumerate() {
        *count = leader(place as u64 % COLUMNS);
    }
    frame
}

/// The picture of a frame: counts above the band's greatest are black.
fn picture(frame: &[u16]) -> Vec<u8> {
    let mut bytes = format!("P5\n{COLUMNS} {}\n{GREATEST}\n", TOTAL * LINES).into_bytes();
    for count in frame {
        let shown = if *count <= GREATEST { *count } else { 0 };
        bytes.extend(shown.to_be_bytes());
    }
    bytes
}
