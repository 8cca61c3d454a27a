//! The lines that the proved programs of cases print, each `CASE: ANSWER`: what the words of a case stand for, and what the
//! reference answers to it.

use std::str::FromStr;

use crate::make::Recipe;
use crate::{numbers, Refusal};

pub mod files;
pub mod frames;
pub mod values;
pub mod writer;

fn refused(refusal: Refusal) -> String {
    let (number, block, offset) = numbers::<()>(&Err(refusal));
    format!("NO {number} {block} {offset}")
}

fn number<T: FromStr>(text: &str) -> T {
    let number = text.parse().ok();
    number.unwrap_or_else(|| panic!("{text} is no number for this"))
}

fn hexadecimal(text: &str) -> u64 {
    u64::from_str_radix(text, 16).expect("hexadecimal digits")
}

fn words(text: &str) -> Vec<&str> {
    text.split(' ').collect()
}

/// Changes what a file is made of, and answers whether the words are about that. The name, the valid bits and the sums
/// follow.
fn remake(recipe: &mut Recipe, change: &str) -> bool {
    let Some((what, value)) = change.rsplit_once(' ') else {
        return false;
    };
    let place = match what {
        "order" => &mut recipe.order,
        "satellite" => &mut recipe.satellite,
        "timeline" => &mut recipe.timeline,
        "band" => &mut recipe.band,
        "columns" => &mut recipe.columns,
        "lines" => &mut recipe.lines,
        "segment" | "number" => &mut recipe.number,
        "total" => &mut recipe.total,
        "first" | "first line" => &mut recipe.first_line,
        "area" => {
            recipe.area = value.as_bytes().try_into().expect("four letters");
            return true;
        }
        "date" => {
            (recipe.year, recipe.month, recipe.day) = (
                number(&value[..4]),
                number(&value[4..6]),
                number(&value[6..]),
            );
            return true;
        }
        _ => return false,
    };
    *place = number(value);
    true
}
