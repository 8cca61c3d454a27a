//! Compares the proved library's frames with the reference's: every answer, mark, count and line of
//! more than 40,000 histories. Prints how many of each kind and of each answer there were; any
//! difference or thin spot fails.

use std::collections::BTreeMap;
use std::sync::mpsc::sync_channel;
use std::sync::Arc;
use std::thread;
use std::time::Instant;

use reference::histories::{History, Played, Step, Told};
use reference::proved::Bridge;
use reference::takes::{check_orders, opening, Ordered, Takes, EVERY_ORDER, OFFERING};
use reference::tally::Tally;

fn main() {
    let takes = Arc::new(Takes::new(40_000, 200));
    println!("seed {}", takes.seed);
    let began = Instant::now();
    let Bridge {
        mut requests,
        mut answers,
    } = Bridge::start();

    // one thread makes the histories, plays them by the reference and asks; this one compares
    let (tell, told) = sync_channel(100);
    let asking = Arc::clone(&takes);
    let asker = thread::spawn(move || {
        for take in (0..asking.cases()).map(|number| asking.case(number)) {
            let asked = requests.ask_history(&take.history);
            asked.expect("the bridge reads");
            let played = take.history.play();
            tell.send((take, played)).expect("it is compared");
        }
        requests.end().expect("the bridge reads");
    });

    let mut seen = Seen::new();
    for (number, (take, played)) in told.iter().enumerate() {
        let due = played.bytes();
        let given = answers.next_history(due.len()).expect("the bridge answers");
        if given != due {
            println!("seed {}, case {number}, {}", takes.seed, take.kind);
            print_difference(&take.history, &played, &given);
            std::process::exit(1);
        }
        seen.count(take.kind, &take.history, &played);
    }
    asker.join().expect("every history was asked");
    assert!(answers.ended_well(), "the bridge did not end well");
    seen.print(began.elapsed().as_secs_f64());
    seen.check(takes.small / 200);
}

/// The first step whose answer differs, or the stage at the end.
fn print_difference(history: &History, played: &Played, given: &[u8]) {
    println!("{:?}", history.slate);
    let mut at = 0;
    for (step, told) in history.steps.iter().zip(&played.told) {
        let due = told.bytes();
        let given = &given[at..at + due.len()];
        if given != due {
            println!("{step:?} of {:?}", history.steps);
            println!("reference: {due:02x?}");
            println!("proved:    {given:02x?}");
            return;
        }
        at += due.len();
    }
    println!("the frame or the marks at the end differ");
}

struct Seen {
    /// By kind, and by whether the cut is even.
    kinds: BTreeMap<(&'static str, bool), u64>,
    opened: Tally,
    offered: Tally,
    lines: BTreeMap<&'static str, u64>,
    /// Each order of some files is a history.
    histories: u64,
    /// Those over uneven cuts.
    uneven: u64,
    orders: u64,
    /// Orders of files that are apart, and of those that agree without being so.
    apart: u64,
    agree: u64,
}

impl Seen {
    fn new() -> Seen {
        Seen {
            kinds: BTreeMap::new(),
            opened: Tally::new("opened", opening()),
            offered: Tally::new("placed", &OFFERING),
            lines: BTreeMap::new(),
            histories: 0,
            uneven: 0,
            orders: 0,
            apart: 0,
            agree: 0,
        }
    }

    fn count(&mut self, kind: &'static str, history: &History, played: &Played) {
        let is_even = history.slate.is_even();
        *self.kinds.entry((kind, is_even)).or_default() += 1;
        let histories = match kind {
            EVERY_ORDER => self.count_orders(&check_orders(history, played)),
            _ => 1,
        };
        self.histories += histories;
        self.uneven += if is_even { 0 } else { histories };
        for (step, told) in history.steps.iter().zip(&played.told) {
            match (step, told) {
                (Step::Open, Told::Answer(answer, _)) => self.opened.count("openings", answer),
                (_, Told::Answer(answer, _)) => self.offered.count("offers", answer),
                (_, Told::Line(counts, out)) => {
                    let whose = whose_line(history, &out[..*counts as usize]);
                    *self.lines.entry(whose).or_default() += 1;
                }
            }
        }
    }

    /// How many they are.
    fn count_orders(&mut self, ordered: &Ordered) -> u64 {
        self.orders += ordered.orders;
        if ordered.apart {
            self.apart += ordered.orders;
        } else if ordered.agree {
            self.agree += ordered.orders;
        }
        ordered.orders
    }

    fn print(&self, seconds: f64) {
        for ((kind, is_even), times) in &self.kinds {
            let cut = if *is_even { "even" } else { "uneven" };
            println!("{times:>9}  {kind}, {cut}");
        }
        println!(
            "{:>9}  orders, of {} no two matching files bear one number, and of {} such files agree",
            self.orders, self.apart, self.agree
        );
        self.opened.print();
        self.offered.print();
        for (whose, times) in &self.lines {
            println!("{times:>9}  {whose}");
        }
        println!(
            "{} histories compared in {seconds:.1} s, {} of them over uneven cuts",
            self.histories, self.uneven
        );
    }

    /// No answer that can be given may be missing or rare, and no other may be given.
    fn check(&self, least: u64) {
        let share = 100.0 * self.uneven as f64 / self.histories as f64;
        assert!((45.0..=55.0).contains(&share), "{share} in 100 are uneven");
        // fifteen kinds over either cut, heights that are all 0, and three that differ
        assert_eq!(self.kinds.len(), 32, "{:?}", self.kinds);
        self.opened.check(least, least, least);
        self.offered.check(least, least, least / 10);
        assert_eq!(self.lines.len(), 3, "{:?}", self.lines);
        assert!(self.lines.values().all(|&times| times >= least));
        let differ = self.orders - self.apart - self.agree;
        assert!(self.apart >= 1_000 && self.agree >= 500 && differ >= 1_000);
    }
}

fn whose_line(history: &History, line: &[u16]) -> &'static str {
    match history.leader.get(..line.len()) {
        _ if line.is_empty() => "no line",
        Some(leader) if leader == line => "leader",
        _ => "line of the frame",
    }
}
