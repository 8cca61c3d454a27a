//! Scenes of slates, frames and offers: `timeline 210, segment 10 from line 19, offered`.

use super::{number, refused, remake, words};
use crate::assemble::{line, offer, open, Record, Slate, MARKS, OUTSIDE, SLATE};
use crate::make::{Recipe, Sample};
use crate::shots::slate_of;

const LEADER: [u16; 5] = [901, 902, 903, 904, 905];

/// What a step is made of. What it changes holds for it alone.
#[derive(Clone)]
struct Plan {
    /// The slate's parts, too.
    file: Recipe,
    day: u64,
    take: u64,
    damage: Option<(usize, u8)>,
    /// How much of the file, the strip and the leader is lent.
    bytes: usize,
    strip: usize,
    leader: usize,
    line: u16,
    /// The number that is marked by hand, or none for all.
    marked: Option<usize>,
}

/// A slate with a record and a strip, on which the steps follow each other.
pub struct Scene {
    plan: Plan,
    slate: Slate,
    record: Record,
    strip: [u16; 128],
}

impl Scene {
    pub fn new(title: &str) -> Scene {
        let (columns, total, lines) = match title {
            "the night of 0200" | "slates" => (4, 10, 2),
            "opening" => (4, 1, 2),
            "offers" | "byte orders and entries" | "lines" | "records" => (4, 3, 2),
            "99 segments" => (1, 99, 1),
            "the same files in one of ten orders" => (4, 6, 2),
            _ => panic!("{title}?"),
        };
        let file = Recipe {
            columns,
            total,
            lines,
            ..Recipe::plain()
        };
        let plan = Plan {
            bytes: file.file_length() as usize,
            file,
            day: 57_210,
            take: 1,
            damage: None,
            strip: (columns * total * lines) as usize,
            leader: 4,
            line: 1,
            marked: None,
        };
        Scene {
            slate: plan.slate(),
            plan,
            record: Record {
                marks: [false; MARKS],
            },
            strip: [7; 128],
        }
    }

    pub fn answer(&mut self, case: &str) -> String {
        let mut plan = self.plan.clone();
        let mut changes: Vec<&str> = case.split(", ").collect();
        let deed = changes.pop();
        for change in changes {
            plan.change(change);
        }
        match deed {
            Some("slated") => plan.slated(),
            Some("opened") => self.held(&plan, true),
            Some("offered") => self.held(&plan, false),
            Some("asked") => self.asked(&plan),
            Some("shown") => counts(&self.strip[..plan.strip]),
            Some("marked") => self.marked(plan.marked),
            _ => panic!("{case}?"),
        }
    }

    fn held(&mut self, plan: &Plan, opens: bool) -> String {
        let before = (self.record.clone(), self.strip);
        let strip = &mut self.strip[..plan.strip];
        let answer = if opens {
            open(&self.slate, strip).map(|record| self.record = record)
        } else {
            offer(&self.slate, &mut self.record, strip, &plan.file())
        };
        let answer = answer.map_or_else(refused, |()| "OK".to_string());
        let kept = before == (self.record.clone(), self.strip);
        let kept = if kept { ", kept" } else { "" };
        format!("{answer}, {} in{kept}", self.record.tally())
    }

    fn asked(&self, plan: &Plan) -> String {
        let (strip, leader) = (&self.strip[..plan.strip], &LEADER[..plan.leader]);
        counts(line(&self.slate, &self.record, strip, leader, plan.line))
    }

    fn marked(&mut self, number: Option<usize>) -> String {
        match number {
            Some(number) => self.record.marks[number - 1] = true,
            None => self.record.marks = [true; MARKS],
        }
        format!("{} in", self.record.tally())
    }
}

impl Plan {
    fn change(&mut self, change: &str) {
        match words(change)[..] {
            ["day", day] => self.day = number(day),
            ["segment", segment, "from", "line", first] => {
                (self.file.number, self.file.first_line) = (number(segment), number(first));
            }
            ["take", take] => self.take = number(take),
            ["entries", c] => self.file.c = number(c),
            ["byte", at, "as", byte] => self.damage = Some((number(at), number(byte))),
            ["bytes", bytes] => self.bytes = number(bytes),
            ["strip", counts] => self.strip = number(counts),
            ["leader", counts] => self.leader = number(counts),
            ["line", line] => self.line = number(line),
            ["number", marked] => self.marked = Some(number(marked)),
            _ => assert!(remake(&mut self.file, change), "{change}?"),
        }
    }

    fn slate(&self) -> Slate {
        Slate {
            day: self.day as u32,
            ..slate_of(&self.file)
        }
    }

    /// No frame is without counts, so that with no strip only a bad slate is refused as such.
    fn slated(&self) -> String {
        let slate = self.slate();
        match open(&slate, &mut []) {
            Err(refusal) if refusal.number == SLATE => refused(refusal),
            _ => format!("{} counts", slate.frame_size()),
        }
    }

    /// Counts tell the take, the first line and their places; those of take 0 are outside.
    fn file(&self) -> Vec<u8> {
        let recipe = Recipe {
            // of July 2015, before which 57,203 is the last day
            day: self.day - 57_203,
            ..self.file.clone()
        };
        let mut sample = Sample::on(&recipe, vec![0; self.bytes]);
        for place in 0..recipe.columns * recipe.lines {
            let count = match self.take {
                0 => u64::from(OUTSIDE),
                take => 10_000 * take + 100 * recipe.first_line + 1 + place,
            };
            sample.put(12, 2 * place as usize, 2, count);
        }
        if let Some((at, byte)) = self.damage {
            sample.bytes[at] = byte;
        }
        sample.bytes
    }
}

fn counts(counts: &[u16]) -> String {
    if counts.is_empty() {
        return "empty".to_string();
    }
    let each: Vec<String> = counts.iter().map(u16::to_string).collect();
    each.join(" ")
}
