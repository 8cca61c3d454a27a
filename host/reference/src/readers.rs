//! What the four readers of a file say: that of its header, and those of the entries of blocks 8, 9
//! and 10 into lent slices. Counts how often each of them read and how often there was no room.

use crate::accept::{demand, Facts, Refusal, ROOM};
use crate::mix::REFUSALS;
use crate::tally::Tally;

/// The readers of entries, by block.
const OF_ENTRIES: [&str; 3] = ["shifts", "times", "errors"];

/// Of the header, the shifts, the times and the errors: the file's own refusal first, and then a
/// slice of so many places that cannot hold the entries.
pub fn verdicts(file: &Result<Facts, Refusal>, room: usize) -> [Result<(), Refusal>; 4] {
    match file {
        Err(refusal) => [Err(*refusal); 4],
        Ok(facts) => {
            let [a, b, c] = entries(facts).map(|entries| demand(entries <= room, ROOM, 0));
            [Ok(()), a, b, c]
        }
    }
}

fn entries(facts: &Facts) -> [usize; 3] {
    [facts.a, facts.b, facts.c].map(usize::from)
}

/// What the readers were tried on: files good and bad, and with what room.
pub struct Readings {
    files: Tally,
    /// All four read, by byte order, without entries and with some.
    read: [[u64; 2]; 2],
    /// What all four read was written.
    written: u64,
    /// Of each reader of entries: no room.
    refused: [u64; 3],
    /// Of each, where there are entries: room for one less, for just as many and for one more.
    close: [[u64; 3]; 3],
}

impl Readings {
    pub fn new() -> Readings {
        Readings {
            files: Tally::new("accepted", &REFUSALS),
            read: [[0; 2]; 2],
            written: 0,
            refused: [0; 3],
            close: [[0; 3]; 3],
        }
    }

    pub fn count(&mut self, file: &Result<Facts, Refusal>, room: usize, written: bool) {
        self.files.count("tried as files", file);
        let Ok(facts) = file else { return };
        let verdicts = verdicts(file, room);
        if verdicts.iter().all(Result::is_ok) {
            let some = entries(facts) != [0; 3];
            self.read[usize::from(facts.order)][usize::from(some)] += 1;
            self.written += u64::from(written);
        }
        for (block, entries) in entries(facts).into_iter().enumerate() {
            self.refused[block] += u64::from(verdicts[1 + block].is_err());
            if entries > 0 && entries.abs_diff(room) <= 1 {
                self.close[block][room + 1 - entries] += 1;
            }
        }
    }

    fn read(&self) -> u64 {
        self.read.iter().flatten().sum()
    }

    pub fn print(&self) {
        self.files.print();
        let [little, big] = self.read;
        println!("{:>9}  read by all four readers", self.read());
        println!("{:>9}  of them written again", self.written);
        println!("           little-endian, without entries and with: {little:?}");
        println!("           big-endian, without entries and with: {big:?}");
        for (block, who) in OF_ENTRIES.iter().enumerate() {
            println!("{:>9}  {who} told ROOM", self.refused[block]);
            let close = self.close[block];
            println!("           room for one less, just as many, one more: {close:?}");
        }
    }

    /// A fifth is read by all four and written, and none of the rest is rare.
    pub fn check(&self, cases: u64) {
        self.files.check(cases / 5, cases / 600, cases / 20_000);
        assert!(
            self.written >= cases / 5,
            "only {} read by all four readers and written",
            self.written
        );
        let read = self.read.iter().flatten();
        let close = self.close.iter().flatten();
        for &times in read.chain(&self.refused).chain(close) {
            assert!(times >= cases / 100, "something came only {times} times");
        }
    }
}
