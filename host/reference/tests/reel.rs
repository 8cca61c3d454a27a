//! The reel: document 02's rules by the reference alone, with every expected value spelt out, and then random lists of
//! files and their damaged reels by the proved library too.

use std::io;
use std::sync::mpsc::{channel, Sender};
use std::sync::Arc;
use std::thread;
use std::time::Instant;

use reference::lists::{damaged, opening, List, Lists, WRITING};
use reference::make::{Recipe, Sample};
use reference::proved::{Answers, Bridge, Requests};
use reference::random::Random;
use reference::reel::{open, part, seal, trailer, trailer_length, write};
use reference::tally::Tally;
use reference::{numbers, Answer, Refusal, FINE};

/// Of a file without entries, wherever in the reel it stands.
const SHORT_1: Answer = (1, 1, 0);
const NUMBER_2: Answer = (2, 2, 282);
const ORDER: Answer = (3, 1, 5);
const CUT: Answer = (11, 12, 1_463);
const TAIL: Answer = (12, 12, 1_463);
const ROOM: Answer = (17, 0, 0);
const REEL: Answer = (18, 0, 0);

/// With this an output is filled before it is written.
const UNTOUCHED: u8 = 0xaa;

/// The file of 1,479 bytes, in either byte order.
fn plain(order: u64) -> Vec<u8> {
    let recipe = Recipe {
        order,
        ..Recipe::plain()
    };
    Sample::make(&recipe, &mut Random::new(1)).bytes
}

/// 1,463 + 10 + 10 + 4 bytes of header and 16 of counts: 1,503 bytes.
fn with_entries(order: u64) -> Vec<u8> {
    let recipe = Recipe {
        order,
        a: 1,
        b: 1,
        c: 1,
        ..Recipe::plain()
    };
    Sample::make(&recipe, &mut Random::new(2)).bytes
}

/// A file of 1,479 bytes with its byte order above 1.
fn bad_order() -> Vec<u8> {
    let mut file = plain(0);
    file[5] = 2;
    file
}

/// A file of 1,479 bytes whose block 2 does not begin with its number.
fn bad_number() -> Vec<u8> {
    let mut file = plain(1);
    file[282] = 3;
    file
}

fn lengths(files: &[Vec<u8>]) -> Vec<u32> {
    files.iter().map(|file| file.len() as u32).collect()
}

type Writer = fn(&[u8], &[u32], &mut [u8]) -> Result<(), Refusal>;

/// What is answered, and the whole output of so many bytes.
fn output(by: Writer, files: &[u8], lengths: &[u32], room: usize) -> (Answer, Vec<u8>) {
    let mut out = vec![UNTOUCHED; room];
    let answer = by(files, lengths, &mut out);
    (numbers(&answer), out)
}

/// Both writers answer this and leave their outputs as they were, although there is room for all.
fn assert_refused(files: &[u8], lengths: &[u32], answer: Answer) {
    let room = files.len() + 8 * lengths.len() + 9;
    for by in [write as Writer, seal] {
        let untouched = vec![UNTOUCHED; room];
        assert_eq!(output(by, files, lengths, room), (answer, untouched));
    }
}

/// The reel of good files, which fills its output.
fn reel_of(files: &[Vec<u8>]) -> Vec<u8> {
    let bytes = files.concat();
    let room = bytes.len() + 8 * files.len() + 9;
    let (answer, reel) = output(write, &bytes, &lengths(files), room);
    assert_eq!(answer, FINE);
    reel
}

/// Numbers of four bytes, the lowest first.
fn fours(numbers: &[u32]) -> Vec<u8> {
    numbers.iter().flat_map(|n| n.to_le_bytes()).collect()
}

/// A trailer as it is spelt out.
fn spelt(entries: &[u32], files: u8, offset: u32, letters: &[u8; 4]) -> Vec<u8> {
    [&fours(entries)[..], &[files], &fours(&[offset]), letters].concat()
}

/// What opening these bytes with this trailer behind them answers.
fn opened(bytes: &[u8], trailer: &[u8]) -> Answer {
    numbers(&open(&[bytes, trailer].concat()))
}

#[test]
fn one_file_byte_for_byte() {
    for order in [0, 1] {
        let file = plain(order);
        assert_eq!(file.len(), 1_479);
        // 1,479 is 5 x 256 + 199
        let end = [
            0, 0, 0, 0, 199, 5, 0, 0, 1, 199, 5, 0, 0, b'R', b'E', b'E', b'L',
        ];
        let reel = [&file[..], &end].concat();
        assert_eq!(reel.len(), 1_496);
        assert_eq!(output(write, &file, &[1_479], 1_496), (FINE, reel.clone()));
        assert_eq!(output(seal, &file, &[1_479], 17), (FINE, end.to_vec()));
        assert_eq!(open(&reel), Ok(1));
        let parts = [0, 1, 2, 65_535].map(|number| part(&reel, number));
        assert_eq!(parts, [(0, 0), (0, 1_479), (0, 0), (0, 0)]);
    }
}

#[test]
fn two_files_byte_for_byte() {
    for (first, second) in [(0, 0), (0, 1), (1, 0), (1, 1)] {
        let files = [plain(first), with_entries(second)];
        assert_eq!(files[1].len(), 1_503);
        // 1,503 is 5 x 256 + 223, and 2,982 is 11 x 256 + 166
        let end = [
            0, 0, 0, 0, 199, 5, 0, 0, // from 0, 1,479 bytes
            199, 5, 0, 0, 223, 5, 0, 0, // from 1,479, 1,503 bytes
            2, 166, 11, 0, 0, b'R', b'E', b'E', b'L',
        ];
        let reel = [&files[0][..], &files[1], &end].concat();
        assert_eq!(reel.len(), 3_007);
        assert_eq!(reel_of(&files), reel);
        let sealed = output(seal, &files.concat(), &[1_479, 1_503], 25);
        assert_eq!(sealed, (FINE, end.to_vec()));
        assert_eq!(open(&reel), Ok(2));
        let parts = [0, 1, 2, 3].map(|number| part(&reel, number));
        assert_eq!(parts, [(0, 0), (0, 1_479), (1_479, 1_503), (0, 0)]);
    }
}

#[test]
fn the_same_file_twice_is_another_list_than_once() {
    let reel = reel_of(&[plain(0), plain(0)]);
    let end = spelt(&[0, 1_479, 1_479, 1_479], 2, 2_958, b"REEL");
    assert_eq!(reel, [plain(0), plain(0), end].concat());
    assert_eq!(open(&reel), Ok(2));
}

#[test]
fn as_many_files_as_can_be() {
    let files = vec![plain(1); 255];
    let reel = reel_of(&files);
    // 255 x 1,479 is 377,145, or 5 x 65,536 + 193 x 256 + 57; 254 x 1,479 is 5 x 65,536 + 187 x 256 + 114
    assert_eq!(reel.len(), 377_145 + 2_049);
    assert_eq!(reel[377_145..][..8], [0, 0, 0, 0, 199, 5, 0, 0]);
    let last = [
        114, 187, 5, 0, 199, 5, 0, 0, 255, 57, 193, 5, 0, b'R', b'E', b'E', b'L',
    ];
    assert_eq!(reel[reel.len() - 17..], last);
    assert_eq!(open(&reel), Ok(255));
    for number in 1..=255 {
        let offset = 1_479 * (u32::from(number) - 1);
        assert_eq!(part(&reel, number), (offset, 1_479));
    }
    for number in [0, 256, 257, 511, 512, 65_535] {
        assert_eq!(part(&reel, number), (0, 0));
    }
}

#[test]
fn no_files_and_too_many() {
    assert_refused(&[], &[], REEL);
    assert_refused(&plain(0), &[], REEL);
    let files = vec![plain(0); 256];
    assert_refused(&files.concat(), &lengths(&files), REEL);
    // 256 has the low byte of no files, and 257 that of one
    let files = vec![plain(0); 257];
    assert_refused(&files.concat(), &lengths(&files), REEL);
    assert_refused(&[], &[0; 256], REEL);
    // a trailer of no files over nothing, and over a file
    assert_eq!(opened(&[], &spelt(&[], 0, 0, b"REEL")), REEL);
    assert_eq!(opened(&plain(0), &spelt(&[], 0, 1_479, b"REEL")), REEL);
}

#[test]
fn one_file_of_no_bytes() {
    assert_refused(&[], &[0], SHORT_1);
    assert_eq!(opened(&[], &spelt(&[0, 0], 1, 0, b"REEL")), SHORT_1);
}

#[test]
fn trailer_lengths() {
    let told = [0, 1, 2, 254, 255, 256, 257, 1 << 32, 1 << 61, u64::MAX].map(trailer_length);
    assert_eq!(told, [0, 17, 25, 2_041, 2_049, 0, 0, 0, 0, 0]);
}

#[test]
fn each_trailer_byte_one_off() {
    for files in [vec![plain(0)], vec![plain(1), with_entries(0), plain(0)]] {
        let reel = reel_of(&files);
        let begins = reel.len() - 8 * files.len() - 9;
        for at in begins..reel.len() {
            for by in [1, 255] {
                let mut other = reel.clone();
                other[at] = other[at].wrapping_add(by);
                assert_eq!(numbers(&open(&other)), REEL, "byte {at}");
            }
        }
        assert_eq!(numbers(&open(&reel)), FINE);
    }
}

#[test]
fn the_letters() {
    let file = plain(0);
    assert_eq!(opened(&file, &spelt(&[0, 1_479], 1, 1_479, b"REEL")), FINE);
    for letters in [b"REL2", b"LEER", b"reel", b"Reel", b"REE\0", b"\0\0\0\0"] {
        let end = spelt(&[0, 1_479], 1, 1_479, letters);
        assert_eq!(opened(&file, &end), REEL);
    }
}

#[test]
fn entries_that_do_not_tile() {
    let bytes = [plain(0), plain(1)].concat();
    let entries: [[u32; 4]; 11] = [
        // exchanged, overlapping by a byte, with a gap of a byte
        [1_479, 1_479, 0, 1_479],
        [0, 1_479, 1_478, 1_480],
        [0, 1_480, 1_479, 1_479],
        [0, 1_479, 1_480, 1_478],
        [0, 1_478, 1_479, 1_479],
        // not from 0, not to the trailer, beyond it
        [1, 1_478, 1_479, 1_479],
        [0, 1_479, 1_479, 1_478],
        [0, 1_479, 1_479, 1_480],
        // each file is all of it, or there twice
        [0, 2_958, 0, 2_958],
        [0, 1_479, 0, 1_479],
        // in four bytes the second one begins where the first one ends, and ends at the trailer
        [0, 0xffff_ffff, 0xffff_ffff, 2_959],
    ];
    for entries in &entries {
        let end = spelt(entries, 2, 2_958, b"REEL");
        assert_eq!(opened(&bytes, &end), REEL, "{entries:?}");
    }
    let right = spelt(&[0, 1_479, 1_479, 1_479], 2, 2_958, b"REEL");
    assert_eq!(opened(&bytes, &right), FINE);
}

#[test]
fn a_trailer_in_another_place() {
    let bytes = [plain(0), plain(1)].concat();
    let first = spelt(&[0, 1_479], 1, 1_479, b"REEL");
    // a reel with a file behind it, a file with a reel behind it, and a reel of a reel
    assert_eq!(opened(&[plain(0), first.clone()].concat(), &plain(1)), REEL);
    assert_eq!(opened(&bytes, &first), REEL);
    let reel = [plain(0), first].concat();
    let end = spelt(&[0, 1_496], 1, 1_496, b"REEL");
    assert_eq!(opened(&reel, &end), TAIL);
    // one entry is more, or less, than the number says
    let more = spelt(&[0, 1_479, 1_479, 1_479], 1, 2_958, b"REEL");
    assert_eq!(opened(&bytes, &more), REEL);
    let less = spelt(&[0, 2_958], 2, 2_958, b"REEL");
    assert_eq!(opened(&bytes, &less), REEL);
}

#[test]
fn an_entry_of_no_bytes_is_a_short_file() {
    let bytes = [plain(0), plain(1)].concat();
    for entries in [
        [0, 0, 0, 1_479, 1_479, 1_479],
        [0, 1_479, 1_479, 0, 1_479, 1_479],
        [0, 1_479, 1_479, 1_479, 2_958, 0],
    ] {
        let end = spelt(&entries, 3, 2_958, b"REEL");
        assert_eq!(opened(&bytes, &end), SHORT_1);
    }
    // beside the place where it would tile it has no file to answer for
    let beside = [0, 1_479, 1_478, 0, 1_479, 1_479];
    assert_eq!(opened(&bytes, &spelt(&beside, 3, 2_958, b"REEL")), REEL);
    for lengths in [[0, 1_479, 1_479], [1_479, 0, 1_479], [1_479, 1_479, 0]] {
        assert_refused(&bytes, &lengths, SHORT_1);
    }
}

#[test]
fn a_few_bytes_are_no_reel() {
    let end = spelt(&[0, 0], 1, 0, b"REEL");
    for length in 0..17 {
        for bytes in [&end[..length], &end[17 - length..], &[0; 17][..length]] {
            assert_eq!(numbers(&open(bytes)), REEL, "{bytes:?}");
        }
    }
}

#[test]
fn a_border_in_another_place() {
    let bytes = [plain(0), plain(1)].concat();
    let later = spelt(&[0, 1_480, 1_480, 1_478], 2, 2_958, b"REEL");
    assert_eq!(opened(&bytes, &later), TAIL);
    assert_refused(&bytes, &[1_480, 1_478], TAIL);
    let earlier = spelt(&[0, 1_478, 1_478, 1_480], 2, 2_958, b"REEL");
    assert_eq!(opened(&bytes, &earlier), CUT);
    assert_refused(&bytes, &[1_478, 1_480], CUT);
    let none = spelt(&[0, 2_958], 1, 2_958, b"REEL");
    assert_eq!(opened(&bytes, &none), TAIL);
    assert_refused(&bytes, &[2_958], TAIL);
}

#[test]
fn the_first_bad_file_answers() {
    let (good, order, number) = (plain(0), bad_order(), bad_number());
    let mut longer = plain(1);
    longer.push(0);
    for (files, answer) in [
        ([&order, &good, &good], ORDER),
        ([&good, &order, &good], ORDER),
        ([&good, &good, &order], ORDER),
        ([&order, &number, &good], ORDER),
        ([&number, &order, &good], NUMBER_2),
        ([&good, &order, &number], ORDER),
        ([&good, &number, &order], NUMBER_2),
        ([&good, &longer, &order], TAIL),
        ([&good, &good, &longer], TAIL),
    ] {
        let files = files.map(Clone::clone);
        let bytes = files.concat();
        assert_refused(&bytes, &lengths(&files), answer);
        let [first, second, third] = [0, 1, 2].map(|at: usize| files[at].len() as u32);
        let entries = [0, first, first, second, first + second, third];
        let end = spelt(&entries, 3, first + second + third, b"REEL");
        assert_eq!(opened(&bytes, &end), answer);
        // the files have no say while the trailer is broken
        let mut broken = end;
        broken[0] = 1;
        assert_eq!(opened(&bytes, &broken), REEL);
    }
}

#[test]
fn lengths_that_do_not_add_up() {
    let bytes = [plain(0), plain(1)].concat();
    for lengths in [
        &[1_479, 1_480][..],
        &[1_480, 1_479],
        &[1_479, 1_478],
        &[1_478, 1_479],
        &[1_479],
        &[1_479, 1_479, 1_479],
        // 2 to the 32 and 2,958
        &[0xffff_ffff, 2_959],
        &[0x8000_0000, 0x8000_0b8e],
        &[1_479, 0xffff_ffff, 1_480],
    ] {
        assert_refused(&bytes, lengths, REEL);
    }
    // bad files have no say there
    let bad = [bad_order(), bad_number()].concat();
    assert_refused(&bad, &[1_479, 1_480], REEL);
    assert_refused(&bad, &[1_479, 1_479], ORDER);
}

#[test]
fn room_comes_last() {
    let files = [plain(0), with_entries(1)];
    let (bytes, lengths) = (files.concat(), [1_479, 1_503]);
    let reel = reel_of(&files);
    let (needed, end) = (3_007, &reel[2_982..]);
    for room in [0, 1, 2_982, needed - 1] {
        let untouched = vec![UNTOUCHED; room];
        assert_eq!(output(write, &bytes, &lengths, room), (ROOM, untouched));
    }
    for room in [0, 1, 9, 24] {
        let untouched = vec![UNTOUCHED; room];
        assert_eq!(output(seal, &bytes, &lengths, room), (ROOM, untouched));
    }
    for more in [0, 1, 100] {
        let rest = vec![UNTOUCHED; more];
        let written = [&reel[..], &rest].concat();
        let told = output(write, &bytes, &lengths, needed + more);
        assert_eq!(told, (FINE, written));
        let sealed = [end, &rest].concat();
        assert_eq!(output(seal, &bytes, &lengths, 25 + more), (FINE, sealed));
    }
    // no room is no reason before the others
    for by in [write as Writer, seal] {
        assert_eq!(output(by, &bytes, &[1_479, 1_502], 0).0, REEL);
        assert_eq!(output(by, &bytes, &[1_478, 1_504], 0).0, CUT);
        assert_eq!(output(by, &[], &[], 0).0, REEL);
        assert_eq!(output(by, &[], &[0], 0).0, SHORT_1);
    }
}

/// By the trailer alone: nobody wants to have so many bytes.
#[test]
fn a_reel_is_smaller_than_two_to_the_32() {
    let two_to_32 = 1_u64 << 32;
    // with 17 bytes of trailer
    assert!(trailer(two_to_32 - 18, &[0xffff_ffee]).is_some());
    assert_eq!(trailer(two_to_32 - 17, &[0xffff_ffef]), None);
    assert_eq!(trailer(two_to_32 - 1, &[0xffff_ffff]), None);
    // with 25
    let end = spelt(
        &[0, 0xffff_0000, 0xffff_0000, 0xffe6],
        2,
        0xffff_ffe6,
        b"REEL",
    );
    assert_eq!(trailer(two_to_32 - 26, &[0xffff_0000, 0xffe6]), Some(end));
    assert_eq!(trailer(two_to_32 - 25, &[0xffff_0000, 0xffe7]), None);
    // the sum itself needs more than four bytes, and what is left of it in four would do
    assert_eq!(trailer(two_to_32 + 5, &[0xffff_ffff, 6]), None);
    assert_eq!(trailer(5, &[0xffff_ffff, 6]), None);
    assert_eq!(trailer(two_to_32 + 5, &[3, 2]), None);
}

/// Each list has one reel: whatever opens is what would be written of its parts.
#[test]
fn what_opens_is_the_reel_of_its_files() {
    let lists = Lists::new(500);
    let mut random = Random::new(3);
    let mut seen = 0;
    for reel in (0..500).filter_map(|number| lists.case(number).reel()) {
        let files = usize::from(reel[reel.len() - 9]);
        let mut all = damaged(&reel, files, &mut random);
        all.push(("as it was made", reel));
        for (kind, reel) in all {
            let Ok(files) = open(&reel) else {
                continue;
            };
            let parts = (1..=files).map(|number| part(&reel, number));
            let files: Vec<Vec<u8>> = parts
                .map(|(offset, length)| reel[offset as usize..][..length as usize].to_vec())
                .collect();
            assert!(reel_of(&files) == reel, "{kind}");
            seen += 1;
        }
    }
    assert!(seen > 300, "only {seen} opened");
}

/// A part is only what its entry says, in any bytes.
#[test]
fn parts_of_any_bytes() {
    // 17 bytes, with the trailer from 0
    for (offset, length, told) in [
        (3, 5, (3, 5)),
        (0, 17, (0, 17)),
        (12, 5, (12, 5)),
        (13, 5, (0, 0)),
        (17, 0, (17, 0)),
        (18, 0, (0, 0)),
        (0, 18, (0, 0)),
        // these end within the bytes if only four bytes are counted
        (0xffff_ffff, 5, (0, 0)),
        (5, 0xffff_ffff, (0, 0)),
    ] {
        for letters in [b"REEL", b"none"] {
            let bytes = spelt(&[offset, length], 1, 0, letters);
            let parts = [0, 1, 2].map(|number| part(&bytes, number));
            assert_eq!(parts, [(0, 0), told, (0, 0)]);
        }
    }
    // the trailer's offset tells where the entry is: behind or before other bytes too
    let entry = fours(&[7, 2]);
    for (before, between) in [(0, 0), (3, 0), (0, 1), (5, 6), (300, 70)] {
        let bytes = [vec![9; before], entry.clone(), vec![9; between]].concat();
        let bytes = [bytes, spelt(&[], 1, before as u32, b"REEL")].concat();
        assert_eq!(part(&bytes, 1), (7, 2));
        assert_eq!(part(&bytes, 2), (0, 0));
    }
}

/// An entry that does not stand before the last nine bytes says nothing, whatever would be read there.
#[test]
fn parts_without_an_entry() {
    // 17 bytes; from 9 it would be 9 and 3, and from 13 it would be 3 and what is outside
    for from in [1, 4, 8, 9, 10, 13, 16, 17, 18, 0xffff_fff8, 0xffff_ffff] {
        let bytes = spelt(&[7, 2], 1, from, b"\x03\0\0\0");
        assert_eq!(part(&bytes, 1), (0, 0), "{from}");
    }
    // one byte within the last nine: with the number of files the length is 2 to the 24, and so many bytes there are
    let one = |before: usize| {
        let end = [0, 0, 0, 0, 0, 0, 0];
        let base = spelt(&[], 1, before as u32, b"REEL");
        [&vec![0; before][..], &end, &base].concat()
    };
    assert_eq!(part(&one(0), 1), (0, 0));
    assert_eq!(part(&one(1 << 24), 1), (0, 0));
    // two bytes within, where the length is 2 to the 16
    let two = [vec![0; (1 << 16) + 6], spelt(&[], 1, 1 << 16, b"REEL")].concat();
    assert_eq!(part(&two, 1), (0, 0));
    // with one byte more it is there
    let mut bytes = one(1 << 24);
    bytes.insert((1 << 24) + 6, 1);
    assert_eq!(bytes[(1 << 24)..][..9], [0, 0, 0, 0, 0, 0, 1, 0, 1]);
    assert_eq!(part(&bytes, 1), (0, 1 << 16));
    // the number of files may be more than there are entries
    for before in [0, 1, 1_000] {
        let end = spelt(&[3, 5], 255, before, b"\0\0\0\0");
        let bytes = [vec![0; before as usize], end].concat();
        assert_eq!(part(&bytes, 1), (3, 5));
        for number in (2..=300).chain([0, 65_535]) {
            assert_eq!(part(&bytes, number), (0, 0), "{before}, {number}");
        }
    }
}

/// In four bytes an entry far behind would be one at the front, or end there.
#[test]
fn parts_do_not_wrap() {
    let entries: Vec<u32> = [3, 5].repeat(255);
    for back in 1..=256_u32 {
        let from = 0_u32.wrapping_sub(8 * back);
        for bytes in [
            spelt(&[3, 5], 255, from, b"REEL"),
            spelt(&entries, 255, from, b"REEL"),
        ] {
            for number in 0..=256 {
                assert_eq!(part(&bytes, number), (0, 0), "{from}, {number}");
            }
        }
    }
    let bytes = spelt(&entries, 255, 0, b"REEL");
    assert_eq!(
        [1, 255, 256].map(|n| part(&bytes, n)),
        [(3, 5), (3, 5), (0, 0)]
    );
}

/// Without room for an entry before the last nine there is no part.
#[test]
fn parts_of_a_few_bytes() {
    for bytes in [
        &[][..],
        &[1],
        &[255],
        &[1, 0, 0, 0, 0, 4, 0],
        // 8 bytes, the first of which is 1
        &[1, 0, 0, 0, 0, 0, 0, 0],
        &[1, 0, 0, 0, 0, 8, 0, 0],
        &[1, 0, 0, 0, 2, 0, 0, 0],
        // 9, with the entry from 0, and from 1: 1 and 2
        &[1, 0, 0, 0, 0, 0, 0, 0, 0],
        &[1, 1, 0, 0, 0, 2, 0, 0, 0],
        // 14, with the entry from 9: 0 and 6, though of the length one byte is there
        &[0, 0, 0, 0, 0, 1, 9, 0, 0, 0, 0, 0, 0, 6],
        // 16, with the entry from 0, where its last byte would be the number, and from 8: 8 and 3
        &[1, 0, 0, 0, 2, 0, 0, 1, 0, 0, 0, 0, 0, 0, 0, 0],
        &[0, 0, 0, 0, 0, 0, 0, 1, 8, 0, 0, 0, 3, 0, 0, 0],
    ] {
        for number in [0, 1, 2, 255, 256, 65_535] {
            assert_eq!(part(bytes, number), (0, 0), "{bytes:?}");
        }
    }
    // one byte more than 16
    let bytes = [1, 0, 0, 0, 2, 0, 0, 0, 1, 0, 0, 0, 0, 0, 0, 0, 0];
    assert_eq!([0, 1, 2].map(|n| part(&bytes, n)), [(0, 0), (1, 2), (0, 0)]);
    for (entry, told) in [([0, 17], (0, 17)), ([17, 0], (17, 0)), ([1, 17], (0, 0))] {
        let bytes = spelt(&entry, 1, 0, b"REEL");
        assert_eq!(bytes.len(), 17);
        assert_eq!(part(&bytes, 1), told);
    }
}

/// What the proved library was asked, with the reference's answer.
enum Due {
    /// What comes next is of the list of this number.
    List(u64),
    Written(Output),
    Sealed(Output),
    Trailer(u64, u64),
    Opened(&'static str, Result<u16, Refusal>),
    Part(u16, (u32, u32)),
}

struct Output {
    kind: &'static str,
    answer: Result<(), Refusal>,
    out: Vec<u8>,
    files: Vec<Vec<u8>>,
}

#[test]
fn the_proved_library_opens_and_writes_the_same() {
    let lists = Arc::new(Lists::new(12_000));
    println!("seed {}", lists.seed);
    let began = Instant::now();
    let Bridge {
        mut requests,
        mut answers,
    } = Bridge::start();

    // one thread makes the lists, answers by the reference and asks; this one compares. The channel has no bound of its
    // own, so that nobody waits for it: what is asked and not yet compared is bounded by the pipes.
    let (tell, told) = channel();
    let asking = Arc::clone(&lists);
    let asker = thread::spawn(move || {
        for number in 0..asking.cases {
            tell.send(Due::List(number)).expect("it is compared");
            let mut random = Random::of_case(!asking.seed, number);
            let list = asking.case(number);
            ask(&list, &mut random, &mut requests, &tell).expect("the bridge reads");
        }
        requests.end().expect("the bridge reads");
    });

    let mut seen = Seen::new();
    let mut list = 0;
    for due in told {
        let compared = compare(&due, &mut answers).expect("the bridge answers");
        if let Err(difference) = compared {
            panic!("seed {}, list {list}: {difference}", lists.seed);
        }
        match due {
            Due::List(number) => list = number,
            due => seen.count(&due),
        }
    }
    asker.join().expect("every list was asked");
    assert!(answers.ended_well(), "the bridge did not end well");
    seen.print();
    println!(
        "{} lists compared in {:.1} s",
        lists.cases,
        began.elapsed().as_secs_f64()
    );
    seen.check(lists.cases);
}

/// Writes the list and its trailer, opens its reel and damaged ones, and asks for parts of them.
fn ask(
    list: &List,
    random: &mut Random,
    requests: &mut Requests,
    tell: &Sender<Due>,
) -> io::Result<()> {
    let send = |due| tell.send(due).expect("it is compared");
    let bytes = list.bytes();
    let told = |by: Writer, room| {
        let mut out = vec![UNTOUCHED; room];
        Output {
            kind: list.kind,
            answer: by(&bytes, &list.lengths, &mut out),
            out,
            files: list.files.clone(),
        }
    };
    requests.ask_reel_write(&bytes, &list.lengths, list.room)?;
    send(Due::Written(told(write, list.room)));
    requests.ask_reel_seal(&bytes, &list.lengths, list.trailer_room)?;
    send(Due::Sealed(told(seal, list.trailer_room)));
    let files = list.lengths.len() as u64 + random.pick(&[0, 0, 0, 255, 1 << 32]);
    requests.ask_reel_trailer(files)?;
    send(Due::Trailer(files, trailer_length(files)));

    let reel = list.as_told();
    requests.ask_reel_open(&reel)?;
    send(Due::Opened("as it was told", open(&reel)));
    let Some(reel) = list.reel() else {
        return Ok(());
    };
    requests.ask_reel_open(&reel)?;
    send(Due::Opened("as it was made", open(&reel)));
    for number in 0..=list.files.len() as u16 + 1 {
        requests.ask_reel_part(&reel, number)?;
        send(Due::Part(number, part(&reel, number)));
    }
    for (kind, reel) in damaged(&reel, list.files.len(), random) {
        requests.ask_reel_open(&reel)?;
        send(Due::Opened(kind, open(&reel)));
        let number = any_number(&reel, list.files.len(), random);
        // of a few bytes all that they can state
        let numbers = if reel.len() <= 40 {
            0..=10
        } else {
            number..=number
        };
        for number in numbers {
            requests.ask_reel_part(&reel, number)?;
            send(Due::Part(number, part(&reel, number)));
        }
    }
    Ok(())
}

/// The number of a part that was there, that the bytes now state, or any; or one beside.
fn any_number(reel: &[u8], files: usize, random: &mut Random) -> u16 {
    let stated = reel.len().checked_sub(9).map_or(0, |at| reel[at]);
    let last = random.pick(&[files as u64, u64::from(stated), 255]);
    match random.below(50) {
        0 => random.number() as u16,
        _ => random.within(0, last + 1) as u16,
    }
}

/// Reads an answer; it may differ from what is due.
fn compare(due: &Due, answers: &mut Answers) -> io::Result<Result<(), String>> {
    Ok(match due {
        Due::List(_) => Ok(()),
        Due::Written(output) => {
            let given = answers.next_reel_output(output.out.len())?;
            same_output("write", output, &given).and_then(|()| same_files(output, &given.1))
        }
        Due::Sealed(output) => {
            let given = answers.next_reel_output(output.out.len())?;
            same_output("seal", output, &given)
        }
        Due::Trailer(files, length) => {
            let what = format!("the trailer of {files} files");
            same(&what, length, &answers.next_reel_trailer()?)
        }
        Due::Opened(kind, answer) => {
            let told = (numbers(answer), *answer.as_ref().unwrap_or(&0));
            let what = format!("open, {kind}");
            same(&what, &told, &answers.next_reel_open()?)
        }
        Due::Part(number, told) => {
            let what = format!("part {number}");
            same(&what, told, &answers.next_reel_part()?)
        }
    })
}

fn same<T: PartialEq + std::fmt::Debug>(what: &str, due: &T, given: &T) -> Result<(), String> {
    if due == given {
        Ok(())
    } else {
        Err(format!("{what}: reference {due:?}, proved {given:?}"))
    }
}

fn same_output(what: &str, due: &Output, given: &(Answer, Vec<u8>)) -> Result<(), String> {
    let what = format!("{what}, {}", due.kind);
    same(&what, &numbers(&due.answer), &given.0)?;
    let mut bytes = due.out.iter().zip(&given.1).enumerate();
    match bytes.find(|(_, (due, given))| due != given) {
        None => Ok(()),
        Some((at, _)) => Err(format!("{what}: byte {at} of the output differs")),
    }
}

/// The reference opens what the proved library wrote, and finds the files of the list.
fn same_files(due: &Output, given: &[u8]) -> Result<(), String> {
    if due.answer.is_err() {
        return Ok(());
    }
    let files = due.files.len();
    let size: usize = due.files.iter().map(Vec::len).sum();
    let reel = &given[..size + 8 * files + 9];
    same("the written reel", &Ok(files as u16), &open(reel))?;
    for (file, number) in due.files.iter().zip(1..) {
        let (offset, length) = part(reel, number);
        let found = &reel[offset as usize..][..length as usize];
        same("a file of the written reel", &file.as_slice(), &found)?;
    }
    Ok(())
}

/// How often each answer came.
struct Seen {
    written: Tally,
    sealed: Tally,
    opened: Tally,
    trailers: u64,
    no_trailers: u64,
    parts: u64,
    no_parts: u64,
    /// By the number of files: none, 1 to 6, 7 to 40, 255, 256.
    sizes: [u64; 5],
}

impl Seen {
    fn new() -> Seen {
        Seen {
            written: Tally::new("written", &WRITING),
            sealed: Tally::new("sealed", &WRITING),
            opened: Tally::new("opened", opening()),
            trailers: 0,
            no_trailers: 0,
            parts: 0,
            no_parts: 0,
            sizes: [0; 5],
        }
    }

    fn count(&mut self, due: &Due) {
        match due {
            Due::List(_) => {}
            Due::Written(output) => {
                self.written.count(output.kind, &output.answer);
                let size = match output.files.len() {
                    0 => 0,
                    1..=6 => 1,
                    7..=40 => 2,
                    255 => 3,
                    _ => 4,
                };
                self.sizes[size] += 1;
            }
            Due::Sealed(output) => self.sealed.count(output.kind, &output.answer),
            Due::Trailer(_, 0) => self.no_trailers += 1,
            Due::Trailer(..) => self.trailers += 1,
            Due::Opened(kind, answer) => self.opened.count(kind, answer),
            Due::Part(_, (0, 0)) => self.no_parts += 1,
            Due::Part(..) => self.parts += 1,
        }
    }

    fn print(&self) {
        for tally in [&self.written, &self.sealed, &self.opened] {
            tally.print();
        }
        let [none, few, some, most, too_many] = self.sizes;
        println!("{none:>9}  lists of no files, {few} of up to 6, {some} of up to 40");
        println!("{most:>9}  lists of 255 files, {too_many} of 256");
        println!(
            "{:>9}  trailer lengths, and {} that are none",
            self.trailers, self.no_trailers
        );
        println!(
            "{:>9}  parts, and {} that are none",
            self.parts, self.no_parts
        );
    }

    /// No answer that can be given may be missing or rare, and no other may be given.
    fn check(&self, lists: u64) {
        // which block answers is seen most often when reels are opened
        let least = lists / 1_000;
        self.written.check(lists / 10, least, 0);
        self.sealed.check(lists / 10, least, 0);
        self.opened.check(lists / 2, 5 * least, 1);
        assert!(self.trailers > 0 && self.no_trailers > 0);
        assert!(self.parts > lists && self.no_parts > lists);
        assert!(self.sizes.iter().all(|&times| times > 0));
    }
}
