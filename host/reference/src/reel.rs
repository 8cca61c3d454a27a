//! The reel: whole files end to end and a trailer that points back to them. From document 02 alone. The trailer of a
//! list of lengths is always built anew; bytes are a reel when they end with the trailer of the lengths that they state.

use crate::accept::{accept, demand, Refusal, ROOM};

pub const REEL: u8 = 18;

/// The number of files has one byte.
pub const MOST_FILES: usize = 255;

/// A reel is smaller than this.
const TOO_LONG: u64 = 1 << 32;

/// A trailer without its entries: the number of files, its own offset and the letters.
const BASE: usize = 9;

const NO_REEL: Refusal = Refusal {
    number: REEL,
    block: 0,
    offset: 0,
};

/// How many bytes a trailer of so many files has; 0 if no reel has so many.
pub fn trailer_length(files: u64) -> u64 {
    match files {
        1..=255 => 8 * files + 9,
        _ => 0,
    }
}

/// The trailer behind so many bytes of files with these lengths, if they have a reel.
pub fn trailer(offered: u64, lengths: &[u32]) -> Option<Vec<u8>> {
    let mut bytes = Vec::new();
    let mut offset = 0_u64;
    for &length in lengths {
        // an offset that needs more than four bytes has no reel
        bytes.extend(u32::try_from(offset).ok()?.to_le_bytes());
        bytes.extend(length.to_le_bytes());
        offset += u64::from(length);
    }
    bytes.push(u8::try_from(lengths.len()).ok()?);
    bytes.extend(u32::try_from(offset).ok()?.to_le_bytes());
    bytes.extend(b"REEL");
    let fits = offset == offered && offset + (bytes.len() as u64) < TOO_LONG;
    (fits && !lengths.is_empty()).then_some(bytes)
}

/// How many files a reel has: its trailer is judged first, and then each file.
pub fn open(reel: &[u8]) -> Result<u16, Refusal> {
    let (files, found) = apart(reel).ok_or(NO_REEL)?;
    let lengths = lengths_in(found);
    let due = trailer(files.len() as u64, &lengths);
    demand(due.as_deref() == Some(found), REEL, 0)?;
    judge(files, &lengths)?;
    Ok(lengths.len() as u16)
}

/// Bytes cut where the trailer of as many files as they state would begin.
fn apart(reel: &[u8]) -> Option<(&[u8], &[u8])> {
    let number = reel.len().checked_sub(BASE)?;
    let begins = number.checked_sub(8 * usize::from(reel[number]))?;
    Some(reel.split_at(begins))
}

/// The lengths that a trailer's entries state, whatever else it states.
fn lengths_in(trailer: &[u8]) -> Vec<u32> {
    let entries = trailer[..trailer.len() - BASE].chunks_exact(8);
    entries.map(|entry| four(entry, 4)).collect()
}

/// The first file that is not accepted answers, with an offset from its own start. The lengths add up to the bytes.
fn judge(files: &[u8], lengths: &[u32]) -> Result<(), Refusal> {
    let mut rest = files;
    for &length in lengths {
        let (file, more) = rest.split_at(length as usize);
        accept(file)?;
        rest = more;
    }
    Ok(())
}

/// The reel of files that stand end to end, at the front of the output.
pub fn write(files: &[u8], lengths: &[u32], out: &mut [u8]) -> Result<(), Refusal> {
    let trailer = trailer(files.len() as u64, lengths).ok_or(NO_REEL)?;
    judge(files, lengths)?;
    put(&[files, &trailer].concat(), out)
}

/// The trailer alone, at the front of the output.
pub fn seal(files: &[u8], lengths: &[u32], out: &mut [u8]) -> Result<(), Refusal> {
    let trailer = trailer(files.len() as u64, lengths).ok_or(NO_REEL)?;
    judge(files, lengths)?;
    put(&trailer, out)
}

fn put(bytes: &[u8], out: &mut [u8]) -> Result<(), Refusal> {
    demand(bytes.len() <= out.len(), ROOM, 0)?;
    out[..bytes.len()].copy_from_slice(bytes);
    Ok(())
}

/// Offset and length of a file, counted from 1, as its entry in any bytes states them; 0 and 0 if the entry does not
/// stand before the last nine of the bytes, or what it points to is not within them.
pub fn part(reel: &[u8], number: u16) -> (u32, u32) {
    let size = reel.len() as u64;
    match entry(reel, number) {
        Some((offset, length)) if u64::from(offset) + u64::from(length) <= size => (offset, length),
        _ => (0, 0),
    }
}

/// What the entry of a file states, where the trailer's own offset has it; none if not all of it stands there.
fn entry(reel: &[u8], number: u16) -> Option<(u32, u32)> {
    let (before, base) = reel.split_at(reel.len().checked_sub(BASE)?);
    if !(1..=u16::from(base[0])).contains(&number) {
        return None;
    }
    let entries = u64::from(four(base, 1));
    let begins = usize::try_from(entries + 8 * u64::from(number - 1)).ok()?;
    let entry = before.get(begins..)?.get(..8)?;
    Some((four(entry, 0), four(entry, 4)))
}

/// The number of four bytes there, the lowest first.
fn four(bytes: &[u8], at: usize) -> u32 {
    u32::from_le_bytes([bytes[at], bytes[at + 1], bytes[at + 2], bytes[at + 3]])
}
