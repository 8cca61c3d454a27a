//! Dates, slots, film frame numbers and quality marks: `slot 57210 60`.

use super::{hexadecimal, number, refused, words};
use crate::accept::{day_of_date, demand, Refusal, NAME};
use crate::film::frame_number;
use crate::quality::{marks, Mark, NAMES};

pub fn answer(case: &str) -> String {
    match words(case)[..] {
        ["date", year, month, day] => told(date(number(year), number(month), number(day))),
        ["slot", day, timeline] => told(slot(number(day), number(timeline))),
        ["film", first_day, first_timeline, day, timeline] => told(frame_number(
            (number(first_day), number(first_timeline)),
            (number(day), number(timeline)),
        )),
        [.., "marks", flag] => lit(hexadecimal(flag) as u8),
        _ => panic!("{case}?"),
    }
}

fn told<T: ToString>(answer: Result<T, Refusal>) -> String {
    answer.map_or_else(refused, |number| number.to_string())
}

/// A date that is not real breaks the name's rule, but stands in no file here.
fn date(year: u64, month: u64, day: u64) -> Result<u64, Refusal> {
    let counted = day_of_date(year, month, day);
    demand(counted.is_some(), NAME, 1).map(|()| counted.unwrap_or_default())
}

/// As a number on a film whose first shot is the first of all, which has this slot.
fn slot(day: u32, timeline: u16) -> Result<i64, Refusal> {
    Ok(51_544 * 144 + frame_number((51_544, 0), (day, timeline))?)
}

/// The names of the marks that are lit, and those of the unknown ones with a question mark.
fn lit(flag: u8) -> String {
    let named = NAMES.iter().zip(marks(flag));
    let lit: Vec<String> = named
        .filter_map(|(name, mark)| match mark {
            Mark::No => None,
            Mark::Yes => Some(name.to_string()),
            Mark::NotKnown => Some(format!("{name}?")),
        })
        .collect();
    if lit.is_empty() {
        return "none".to_string();
    }
    lit.join(" ")
}
