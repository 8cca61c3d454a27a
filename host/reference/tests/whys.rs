//! Why a file is not one of a slate's, by the reference and by the proved library: all members of each answer are compared.
//! Where nothing is refused and the frame is small, offering the file must answer OTHER SHOT just where a part differs: by
//! the reference each time, and by the proved library now and then. Prints what was compared; any difference or thin spot
//! fails.

use std::fmt;
use std::sync::mpsc::{channel, Sender};
use std::thread;
use std::time::Instant;

use reference::assemble::{Slate, OTHER_SHOT};
use reference::histories::Told;
use reference::proved::{Answers, Bridge, Requests};
use reference::tally::Tally;
use reference::why::{why, Difference, PARTS};
use reference::whys::{offering, Pair, Whys, ASKING, POSED};
use reference::{accept, numbers, Answer, Facts, Refusal, FINE};

/// The greatest frame to which files are offered, in counts.
const SMALL: usize = 100_000;

/// The proved library is offered one file of so many.
const NOW_AND_THEN: u64 = 10;

/// What was asked, with the reference's answers.
struct Due {
    kind: &'static str,
    slate: Slate,
    judged: Result<Facts, Refusal>,
    answer: Result<Option<Difference>, Refusal>,
    offered: bool,
    /// What the proved library must answer to the offer, if it is made to it as well.
    history: Option<Vec<u8>>,
}

/// Answers by the reference and asks the proved library.
struct Asker {
    requests: Requests,
    tell: Sender<Due>,
    offers: u64,
}

impl Asker {
    fn ask(&mut self, pair: Pair) {
        let asked = self.requests.ask_why(&pair.slate, &pair.file);
        asked.expect("the bridge reads");
        let answer = why(&pair.slate, &pair.file);
        let mut due = Due {
            kind: pair.kind,
            slate: pair.slate,
            judged: accept(&pair.file),
            answer,
            offered: false,
            history: None,
        };
        if let Ok(told) = answer {
            let part = told.map(|difference| difference.part);
            assert!(pair.first.is_none() || part == pair.first, "{due}");
            due.offered = pair.slate.frame_size() <= SMALL;
            if due.offered {
                due.history = self.offer(&pair, told);
            }
        }
        self.tell.send(due).expect("it is compared");
    }

    /// A file is placed if all agrees: nothing else is in yet.
    fn offer(&mut self, pair: &Pair, told: Option<Difference>) -> Option<Vec<u8>> {
        let history = offering(&pair.slate, &pair.file);
        let played = history.play();
        let Told::Answer(answer, _) = &played.told[1] else {
            panic!("a line was not asked for");
        };
        let due = told.map_or(FINE, |_| (OTHER_SHOT, 0, 0));
        assert_eq!(numbers(answer), due, "{}, {told:?}", pair.kind);
        self.offers += 1;
        if !self.offers.is_multiple_of(NOW_AND_THEN) {
            return None;
        }
        let asked = self.requests.ask_history(&history);
        asked.expect("the bridge reads");
        Some(played.bytes())
    }
}

impl Due {
    /// The members of an `HsdWhy`.
    fn members(&self) -> (Answer, u8, u64, u64) {
        let told = self.answer.ok().flatten();
        let (part, slate, file) = told.map_or((0, 0, 0), |difference| {
            (difference.part as u8, difference.slate, difference.file)
        });
        (numbers(&self.answer), part, slate, file)
    }

    fn compare(&self, answers: &mut Answers) {
        let given = answers.next_why().expect("the bridge answers");
        assert_eq!(self.members(), given, "reference, proved: {self}");
        if let Some(due) = &self.history {
            let given = answers.next_history(due.len());
            let same = given.expect("the bridge answers") == *due;
            assert!(same, "the proved offer is another: {self}");
        }
    }
}

impl fmt::Display for Due {
    fn fmt(&self, to: &mut fmt::Formatter) -> fmt::Result {
        let Due { kind, slate, .. } = self;
        write!(to, "{kind}, {slate:?}, the file: {:?}", self.judged)
    }
}

/// How often each case came.
struct Seen {
    answers: Tally,
    agree: u64,
    /// Those that differ, by their first part.
    parts: [u64; 9],
    refusals: u64,
    uneven: u64,
    offers: u64,
    proved_offers: u64,
}

impl Seen {
    fn new() -> Seen {
        Seen {
            answers: Tally::new("agree or differ", &ASKING),
            agree: 0,
            parts: [0; 9],
            refusals: 0,
            uneven: 0,
            offers: 0,
            proved_offers: 0,
        }
    }

    fn count(&mut self, due: &Due) {
        self.answers.count(due.kind, &due.answer);
        match &due.answer {
            Ok(None) => self.agree += 1,
            Ok(Some(difference)) => self.parts[difference.part as usize - 1] += 1,
            Err(_) => self.refusals += 1,
        }
        self.uneven += u64::from(!due.slate.is_even());
        self.offers += u64::from(due.offered);
        self.proved_offers += u64::from(due.history.is_some());
    }

    fn questions(&self) -> u64 {
        self.agree + self.parts.iter().sum::<u64>() + self.refusals
    }

    fn print(&self, seconds: f64) {
        let differ: u64 = self.parts.iter().sum();
        let questions = self.questions();
        let each = PARTS.iter().zip(self.parts);
        let each: Vec<String> = each
            .map(|(part, times)| format!("{part:?} {times}"))
            .collect();
        println!(
            "{questions} questions compared in {seconds:.1} s: {} agree, {differ} differ ({}), {} refusals; {} of uneven \
             slates; {} offers, {} of them by the proved library, too",
            self.agree,
            each.join(", "),
            self.refusals,
            self.uneven,
            self.offers,
            self.proved_offers
        );
    }

    /// No answer that can be given may be missing or rare, and no other may be given. The posed pairs alone are enough of
    /// each; of those that are made from their number most can be offered.
    fn check(&self, cases: u64) {
        self.answers.check(20_000, 150, 50);
        let share = 100.0 * self.uneven as f64 / self.questions() as f64;
        assert!((45.0..=55.0).contains(&share), "{share} in 100 are uneven");
        let rare = self.parts.iter().any(|&times| times < 500);
        assert!(!rare, "by part: {:?}", self.parts);
        assert!(self.agree >= 5_000, "only {} agree", self.agree);
        let least = 20_000 + cases / 2;
        assert!(self.offers >= least, "only {} offers", self.offers);
        let proved = self.proved_offers;
        assert!(proved >= 2_000, "only {proved} by the proved library");
    }
}

fn main() {
    let whys = Whys::new(70_000);
    let cases = whys.cases;
    println!("seed {}", whys.seed);
    let began = Instant::now();
    let Bridge {
        requests,
        mut answers,
    } = Bridge::start();

    // one thread makes the pairs, answers by the reference and asks; this one compares
    let (tell, told) = channel();
    let asker = thread::spawn(move || {
        let mut asker = Asker {
            requests,
            tell,
            offers: 0,
        };
        let posed = POSED.into_iter().flat_map(|pose| pose(&whys));
        let any = (0..whys.cases).map(|case| whys.case(case));
        posed.chain(any).for_each(|pair| asker.ask(pair));
        asker.requests.end().expect("the bridge reads");
    });

    let mut seen = Seen::new();
    for due in told {
        due.compare(&mut answers);
        seen.count(&due);
    }
    asker.join().expect("every pair was asked");
    assert!(answers.ended_well(), "the bridge did not end well");
    seen.print(began.elapsed().as_secs_f64());
    seen.check(cases);
}
