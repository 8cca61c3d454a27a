//! How often each kind of input came, and each answer: none that can be given may be missing or rare.

use std::collections::BTreeMap;

use crate::accept::{numbers, Answer, Refusal, FINE};
use Place::{At, From};

/// A block, and where the field that a refusal concerns stands in a file.
#[derive(Clone, Copy)]
pub enum Place {
    At(u8, u32),
    /// Behind the entries of blocks before it: this is where it stands in a file without any.
    From(u8, u32),
}

impl Place {
    fn is(self, block: u8, offset: u32) -> bool {
        match self {
            At(its, place) => block == its && offset == place,
            // an entry has 10 bytes or 4
            From(its, first) => {
                block == its && offset >= first && (offset - first).is_multiple_of(2)
            }
        }
    }
}

/// A refusal's number and name, and the places that it can name.
pub type Row = (u8, &'static str, &'static [Place]);

pub struct Tally {
    /// What is said of an input that is not refused.
    done: &'static str,
    table: &'static [Row],
    kinds: BTreeMap<&'static str, u64>,
    good: u64,
    refused: BTreeMap<Answer, u64>,
}

impl Tally {
    pub fn new(done: &'static str, table: &'static [Row]) -> Tally {
        Tally {
            done,
            table,
            kinds: BTreeMap::new(),
            good: 0,
            refused: BTreeMap::new(),
        }
    }

    pub fn count<T>(&mut self, kind: &'static str, answer: &Result<T, Refusal>) {
        *self.kinds.entry(kind).or_default() += 1;
        match numbers(answer) {
            FINE => self.good += 1,
            refused => *self.refused.entry(refused).or_default() += 1,
        }
    }

    /// How often a refusal named the place, and how many offsets it had there.
    fn refusals(&self, number: u8, place: Place) -> (u64, usize) {
        let all = self.refused.iter();
        let here = all.filter(|((its, block, at), _)| *its == number && place.is(*block, *at));
        let times: Vec<u64> = here.map(|(_, times)| *times).collect();
        (times.iter().sum(), times.len())
    }

    fn in_all(&self, number: u8, places: &[Place]) -> u64 {
        places
            .iter()
            .map(|&place| self.refusals(number, place).0)
            .sum()
    }

    pub fn print(&self) {
        for (kind, times) in &self.kinds {
            println!("{times:>9}  {kind}");
        }
        println!("{:>9}  {}", self.good, self.done);
        for &(number, name, places) in self.table {
            let all = self.in_all(number, places);
            print!("{all:>9}  {number} {name}, by block and byte:");
            for &place in places {
                let (times, offsets) = self.refusals(number, place);
                match place {
                    At(block, offset) => print!(" {block}, {offset}: {times};"),
                    From(block, first) => {
                        print!(" {block}, {first} and on: {times} at {offsets} bytes;")
                    }
                }
            }
            println!();
        }
        let answers = self.refused.len();
        println!("{answers:>9}  refusals that differ in number, block or byte");
    }

    /// No answer that can be given may be missing or rare, and no other may be given. Where a place moves with the
    /// entries, it must have moved.
    pub fn check(&self, least_good: u64, least: u64, least_by_place: u64) {
        assert!(
            self.good >= least_good,
            "only {} were {}",
            self.good,
            self.done
        );
        let mut listed = 0;
        for &(number, name, places) in self.table {
            for &place in places {
                let (times, offsets) = self.refusals(number, place);
                let (At(block, byte) | From(block, byte)) = place;
                assert!(
                    times >= least_by_place,
                    "{name} in block {block}, byte {byte}, came only {times} times"
                );
                assert!(
                    matches!(place, At(..)) || offsets >= 2 || least_by_place == 0,
                    "{name} in block {block} came at {offsets} bytes"
                );
            }
            let all = self.in_all(number, places);
            assert!(all >= least, "{name} came only {all} times");
            listed += all;
        }
        let given: u64 = self.refused.values().sum();
        assert_eq!(listed, given, "a refusal that the table does not list");
    }
}
