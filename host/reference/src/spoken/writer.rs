//! What the header's writer is given: `name at 23 '4', room 0`.

use super::{number, refused, remake, words};
use crate::make::{Recipe, Sample};
use crate::Values;

pub fn answer(case: &str) -> String {
    let mut recipe = Recipe::plain();
    let mut others: Vec<&str> = case.split(", ").collect();
    others.retain(|change| !remake(&mut recipe, change));
    let sample = Sample::on(&recipe, vec![0; 1_463]);
    let mut values = Values::of_image(&sample.bytes);
    // whatever the band is, where nothing else is said
    values.valid_bits = 12;
    // how long the lists of blocks 8, 9 and 10 are
    let mut lists = [4, 4, 4, 2, 2, 3, 3];
    let mut room = 2_048;
    for change in others {
        match words(change)[..] {
            ["good", "values"] => {}
            ["flag", flag] => values.flag = number(flag),
            ["valid", "bits", bits] => values.valid_bits = number(bits),
            ["lines", "of", "block", "8", long] => lists[0] = number(long),
            ["column", "shifts", long] => lists[1] = number(long),
            ["line", "shifts", long] => lists[2] = number(long),
            ["lines", "of", "block", "9", long] => lists[3] = number(long),
            ["times", long] => lists[4] = number(long),
            ["lines", "of", "block", "10", long] => lists[5] = number(long),
            ["error", "pixels", long] => lists[6] = number(long),
            ["a", a] => lists[..3].fill(number(a)),
            ["b", b] => lists[3..5].fill(number(b)),
            ["c", c] => lists[5..].fill(number(c)),
            // the letter stands between marks at the end, and may be a blank
            ["name", "at", at, ..] => {
                values.name[number::<usize>(at)] = change.as_bytes()[change.len() - 2];
            }
            ["room", bytes] => room = number(bytes),
            _ => panic!("{change}?"),
        }
    }
    values.shifted_lines = vec![0; lists[0]];
    values.column_shifts = vec![0; lists[1]];
    values.line_shifts = vec![0; lists[2]];
    values.timed_lines = vec![0; lists[3]];
    values.line_times = vec![0; lists[4]];
    values.error_lines = vec![0; lists[5]];
    values.error_pixels = vec![0; lists[6]];
    match values.write(room) {
        Ok(_) => "written, rest kept".to_string(),
        Err(refusal) => refused(refusal) + ", output kept",
    }
}
