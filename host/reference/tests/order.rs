//! The order of the checks: breaches of all rules in the paper's order, each alone and every two
//! of them together. Of two, the earlier answers, with its own place.

use std::collections::BTreeSet;

use reference::breach::{breaches, recipe};
use reference::make::{Recipe, Sample};
use reference::random::Random;
use reference::{accept, numbers, Answer, FINE};

fn answer(sample: &Sample) -> Answer {
    numbers(&accept(&sample.bytes))
}

/// With entries in blocks 8 to 10 and without, in both byte orders.
fn recipes() -> [Recipe; 4] {
    let without = |order| Recipe {
        order,
        ..Recipe::plain()
    };
    [recipe(0), recipe(1), without(0), without(1)]
}

#[test]
fn each_breach_alone() {
    for recipe in recipes() {
        let good = Sample::make(&recipe, &mut Random::new(1));
        assert_eq!(answer(&good), FINE);
        for breach in breaches(&recipe) {
            let mut sample = good.clone();
            breach.apply(&mut sample);
            assert_eq!(answer(&sample), breach.answer);
        }
    }
}

/// Every row of the tables, spelt out for a file that has 2, 3 and 4 entries in blocks 8, 9 and 10.
#[test]
fn every_answer_of_a_file_is_among_them() {
    let starts = [
        0, 282, 332, 459, 598, 745, 1_004, 1_051, 1_132, 1_207, 1_270,
    ];
    let mut expected = BTreeSet::new();
    for (block, start) in (1..).zip(starts) {
        expected.extend([(1, block, start), (2, block, start), (4, block, start + 1)]);
    }
    expected.extend([(3, 1, 5), (5, 1, 3), (5, 2, 285), (5, 5, 613), (5, 5, 615)]);
    expected.extend([(6, 2, 291), (31, 1, 6), (32, 1, 38), (33, 1, 44)]);
    expected.extend([(34, 2, 287), (34, 2, 289), (35, 2, 291)]);
    expected.extend([(36, 5, 601), (37, 5, 611)]);
    expected.extend([(38, 7, 1_007), (38, 7, 1_008), (38, 7, 1_009)]);
    expected.extend([(8, 1, 70), (9, 1, 74), (10, 1, 114)]);
    expected.extend([(11, 12, 1_529), (12, 12, 1_529)]);
    let all = breaches(&recipe(0));
    let found: BTreeSet<Answer> = all.iter().map(|breach| breach.answer).collect();
    assert_eq!(found, expected);
}

#[test]
fn of_two_breaches_the_earlier_answers() {
    for recipe in recipes() {
        let good = Sample::make(&recipe, &mut Random::new(1));
        let all = breaches(&recipe);
        for (place, earlier) in all.iter().enumerate() {
            for later in &all[place + 1..] {
                // The earlier one is done last, so that it stands where both write the same field.
                let mut sample = good.clone();
                later.apply(&mut sample);
                earlier.apply(&mut sample);
                assert_eq!(answer(&sample), earlier.answer, "then {:?}", later.answer);
            }
        }
    }
}
