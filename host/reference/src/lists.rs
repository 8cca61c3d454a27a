//! The lists of files on which the reel is tried, each made from a seed and its number, the damage that reels get, and
//! the refusals that both can lead to.

use crate::accept::{accept, ROOM};
use crate::make::{Recipe, Sample, BASE};
use crate::mix::{setting, small_case, REFUSALS};
use crate::random::Random;
use crate::reel::{self, MOST_FILES, REEL};
use crate::tally::{Place::At, Row};

pub struct Lists {
    pub seed: u64,
    pub cases: u64,
}

pub struct List {
    pub kind: &'static str,
    /// As they stand end to end.
    pub files: Vec<Vec<u8>>,
    /// The files' lengths as they are told, which may be wrong.
    pub lengths: Vec<u32>,
    /// The bytes of the outputs for the reel and for its trailer alone.
    pub room: usize,
    pub trailer_room: usize,
}

impl Lists {
    /// Seed and number can be set from outside, to try others.
    pub fn new(cases: u64) -> Lists {
        Lists {
            seed: setting("MIX_SEED", 20_150_707),
            cases: setting("REEL_CASES", cases),
        }
    }

    /// A few lists are as long as can be, and some are one file longer.
    pub fn case(&self, case: u64) -> List {
        let mut random = Random::of_case(self.seed, case);
        let number = match case % 2_000 {
            1_000 => MOST_FILES,
            1_001 => MOST_FILES + 1,
            _ => any_number(&mut random),
        };
        let mut files: Vec<_> = (0..number).map(|_| good_file(&mut random)).collect();
        let (kind, lengths) = spoiled(&mut files, &mut random);
        let trailer = 8 * lengths.len() + 9;
        let bytes: usize = files.iter().map(Vec::len).sum();
        List {
            kind,
            room: room_for(bytes + trailer, &mut random),
            trailer_room: room_for(trailer, &mut random),
            files,
            lengths,
        }
    }
}

impl List {
    pub fn bytes(&self) -> Vec<u8> {
        self.files.concat()
    }

    /// The files with the trailer of their true lengths, whether they are good or not, if there can be one.
    pub fn reel(&self) -> Option<Vec<u8>> {
        let files = self.bytes();
        let trailer = reel::trailer(files.len() as u64, &true_lengths(&self.files))?;
        Some([files, trailer].concat())
    }

    /// The files with a trailer of the lengths as they are told: whatever does not fit is dropped.
    pub fn as_told(&self) -> Vec<u8> {
        let mut bytes = self.bytes();
        let mut offset = 0_u32;
        for length in &self.lengths {
            bytes.extend(offset.to_le_bytes());
            bytes.extend(length.to_le_bytes());
            offset = offset.wrapping_add(*length);
        }
        bytes.push(self.lengths.len() as u8);
        bytes.extend(offset.to_le_bytes());
        bytes.extend(b"REEL");
        bytes
    }
}

fn any_number(random: &mut Random) -> usize {
    let number = match random.below(100) {
        0 => 0,
        1..=2 => random.within(7, 40),
        3..=59 => random.within(1, 3),
        _ => random.within(1, 6),
    };
    number as usize
}

/// A small file, half of the time without entries.
fn good_file(random: &mut Random) -> Vec<u8> {
    let mut recipe = Recipe::small(random);
    if random.coin() {
        (recipe.a, recipe.b, recipe.c) = (0, 0, 0);
    }
    Sample::make(&recipe, random).bytes
}

/// A damaged file, or noise, that is refused and not much longer than a good one.
fn bad_file(random: &mut Random) -> Vec<u8> {
    loop {
        let bytes = small_case(random).bytes;
        if bytes.len() < 3_000 && accept(&bytes).is_err() {
            return bytes;
        }
    }
}

fn true_lengths(files: &[Vec<u8>]) -> Vec<u32> {
    files.iter().map(|file| file.len() as u32).collect()
}

/// Some lists get a bad file or two, and some are told wrong lengths.
fn spoiled(files: &mut [Vec<u8>], random: &mut Random) -> (&'static str, Vec<u32>) {
    let kind = random.below(100);
    if files.is_empty() {
        return ("no files", if kind < 50 { vec![] } else { vec![0] });
    }
    let (kind, bad) = match kind {
        0..=44 => ("good files", 0),
        45..=64 => ("a bad file", 1),
        65..=74 => ("two bad files", 2),
        _ => return wrong_lengths(true_lengths(files), random),
    };
    for _ in 0..bad {
        let at = random.below(files.len() as u64) as usize;
        files[at] = bad_file(random);
    }
    (kind, true_lengths(files))
}

/// The first ways break the sum; the last ones leave it, and whole files are cut in other places.
fn wrong_lengths(mut lengths: Vec<u32>, random: &mut Random) -> (&'static str, Vec<u32>) {
    let at = random.below(lengths.len() as u64) as usize;
    let kind = match random.below(8) {
        0 => {
            lengths[at] += 1;
            "a length is one more"
        }
        1 => {
            lengths[at] -= 1;
            "a length is one less"
        }
        2 => {
            // instead of one length two, which are together 2 to the 32 more
            let part = random.within(1, 1_000_000) as u32;
            lengths.insert(at, u32::MAX - part);
            lengths[at + 1] += part + 1;
            "a sum that is right in four bytes"
        }
        3 => {
            lengths.remove(at);
            "a length is left out"
        }
        4 => {
            lengths.insert(at, lengths[at]);
            "a length is told twice"
        }
        5 => {
            lengths.insert(at, 0);
            "a file of no bytes"
        }
        6 => {
            lengths.swap(0, at);
            "two lengths exchanged"
        }
        _ => {
            move_border(&mut lengths, random);
            "a border moved"
        }
    };
    (kind, lengths)
}

/// One file ends later or earlier and the next one begins there; of a single file a part is cut off.
fn move_border(lengths: &mut Vec<u32>, random: &mut Random) {
    if lengths.len() == 1 {
        lengths.push(0);
    }
    let at = random.below(lengths.len() as u64 - 1) as usize;
    let (first, both) = (lengths[at], lengths[at] + lengths[at + 1]);
    let any = random.within(0, u64::from(both)) as u32;
    let border = random.pick(&[first + 1, first.saturating_sub(1), any]);
    lengths[at] = border.min(both);
    lengths[at + 1] = both - lengths[at];
}

fn room_for(needed: usize, random: &mut Random) -> usize {
    match random.below(10) {
        0..=4 => needed,
        5..=6 => needed + random.within(1, 40) as usize,
        7..=8 => needed - 1,
        _ => random.below(needed as u64) as usize,
    }
}

/// A reel of so many files in many ways that are not right, or not quite: every byte of its trailer changed (the last
/// nine and some others, if it has more than sixty), cut, longer, with other entries, and a few bytes that are nearly
/// nothing.
pub fn damaged(reel: &[u8], files: usize, random: &mut Random) -> Vec<(&'static str, Vec<u8>)> {
    let mut all = Vec::new();
    let mut add = |kind: &'static str, bytes: Vec<u8>| all.push((kind, bytes));
    for at in places(reel.len(), files, random) {
        let mut bytes = reel.to_vec();
        bytes[at] = other(bytes[at], random);
        add("a byte of the trailer changed", bytes);
    }
    let mut longer = reel.to_vec();
    longer.push(random.byte());
    add("a byte more at the end", longer);
    add("a byte less at the end", reel[..reel.len() - 1].to_vec());
    add("a byte less in front", reel[1..].to_vec());
    add("the letters alone lost", reel[..reel.len() - 4].to_vec());
    let mut gap = vec![0; random.within(1, 16) as usize];
    random.fill(&mut gap);
    let (entries, end) = reel.split_at(reel.len() - 9);
    add("bytes after the entries", [entries, &gap, end].concat());
    if let Some(bytes) = header_changed(reel, files, random) {
        add("a byte of a header changed", bytes);
    }
    for _ in 0..2 {
        let (kind, bytes) = entries_changed(reel, files, random);
        add(kind, bytes);
    }
    if let Some(bytes) = other_lengths(reel, files, random) {
        add("the trailer of other lengths", bytes);
    }
    add("a few bytes", few_bytes(random));
    all
}

/// All places of the trailer, or sixty of them with the last nine.
fn places(length: usize, files: usize, random: &mut Random) -> Vec<usize> {
    let base = length - 9;
    let mut entries: Vec<usize> = (base - 8 * files..base).collect();
    while entries.len() > 51 {
        let at = random.below(entries.len() as u64) as usize;
        entries.swap_remove(at);
    }
    entries.into_iter().chain(base..length).collect()
}

fn other(byte: u8, random: &mut Random) -> u8 {
    match random.below(4) {
        0 => byte.wrapping_add(1),
        1 => byte.wrapping_sub(1),
        _ => byte ^ random.within(1, 255) as u8,
    }
}

/// Half of the changes are at places that acceptance looks at. A file that is no longer a whole header is left alone.
fn header_changed(reel: &[u8], files: usize, random: &mut Random) -> Option<Vec<u8>> {
    let (offset, length) = reel::part(reel, random.within(1, files as u64) as u16);
    let header: usize = BASE.iter().sum();
    if (length as usize) < header {
        return None;
    }
    let looked_at = [
        0, 1, 3, 5, 6, 15, 38, 44, 70, 74, 114, 123, 157, 282, 283, 285, 287, 289, 291, 332, 459,
        598, 601, 611, 613, 615, 745, 1_004, 1_007, 1_008, 1_009, 1_051, 1_070,
    ];
    let any = random.below(header as u64) as usize;
    let place = random.pick(&looked_at);
    let at = offset as usize + random.pick(&[any, place]);
    let mut bytes = reel.to_vec();
    bytes[at] = other(bytes[at], random);
    Some(bytes)
}

/// Entries that do not tile, with the rest of the trailer right.
fn entries_changed(reel: &[u8], files: usize, random: &mut Random) -> (&'static str, Vec<u8>) {
    let begins = reel.len() - 9 - 8 * files;
    let mut entries: Vec<(u32, u32)> = (1..=files as u16).map(|k| reel::part(reel, k)).collect();
    let at = random.below(files as u64) as usize;
    let (offset, length) = entries[at];
    let kind = match random.below(6) {
        0 => {
            entries.swap(0, at);
            "two entries exchanged"
        }
        1 => {
            entries[at] = (offset.saturating_sub(1), length + 1);
            "an entry that overlaps"
        }
        2 => {
            entries[at] = (offset + 1, length.saturating_sub(1));
            "an entry after a gap"
        }
        3 => {
            entries.remove(at);
            "an entry left out"
        }
        4 if files < MOST_FILES => {
            entries.insert(at, entries[at]);
            "an entry told twice"
        }
        _ if files < MOST_FILES => {
            // each begins where the one before ends, in four bytes
            let first = u32::MAX - random.below(1_000) as u32;
            let end = offset + length;
            entries[at] = (offset, first);
            let next = offset.wrapping_add(first);
            entries.insert(at + 1, (next, end.wrapping_sub(next)));
            "entries that go round"
        }
        _ => {
            entries[at] = (length, offset);
            "offset and length exchanged"
        }
    };
    let mut bytes = reel[..begins].to_vec();
    for (offset, length) in &entries {
        bytes.extend(offset.to_le_bytes());
        bytes.extend(length.to_le_bytes());
    }
    bytes.push(entries.len() as u8);
    bytes.extend(&reel[reel.len() - 8..]);
    (kind, bytes)
}

/// A trailer without a fault over other files than were written.
fn other_lengths(reel: &[u8], files: usize, random: &mut Random) -> Option<Vec<u8>> {
    let begins = reel.len() - 9 - 8 * files;
    let mut lengths: Vec<u32> = (1..=files as u16).map(|k| reel::part(reel, k).1).collect();
    if random.coin() {
        move_border(&mut lengths, random);
    } else {
        let at = random.within(0, files as u64) as usize;
        lengths.insert(at, 0);
    }
    let trailer = reel::trailer(begins as u64, &lengths)?;
    Some([&reel[..begins], &trailer].concat())
}

/// Up to forty small numbers, so that what looks like an entry often lies within them. Some begin close to 2 to the 32,
/// from where it is not far to 0 in four bytes.
fn few_bytes(random: &mut Random) -> Vec<u8> {
    let most = random.pick(&[12, 40]);
    let mut bytes: Vec<u8> = (0..random.within(0, most))
        .map(|_| random.pick(&[0, 0, 0, 0, 0, 1, 2, 3, 9]))
        .collect();
    let length = bytes.len();
    if length >= 9 && random.coin() {
        bytes[length - 4..].copy_from_slice(b"REEL");
    }
    if length >= 9 && random.below(4) == 0 {
        let below = 8 * random.within(1, 3) as u32;
        bytes[length - 8..length - 4].copy_from_slice(&below.wrapping_neg().to_le_bytes());
    }
    bytes
}

/// Every refusal of a list that is written, with the places that it can name: a file's own, from its own start.
pub const WRITING: [Row; 21] = {
    let mut rows: [Row; 21] = [(ROOM, "ROOM", &[At(0, 0)]); 21];
    rows[0] = (REEL, "REEL", &[At(0, 0)]);
    let mut row = 0;
    while row < REFUSALS.len() {
        rows[1 + row] = REFUSALS[row];
        row += 1;
    }
    rows
};

/// And of a reel that is opened: all of them but ROOM, the last.
pub fn opening() -> &'static [Row] {
    &WRITING[..20]
}
