//! Night totals by the reference alone: the documents' rules, with every expected value worked out by hand.

use reference::breach::{breaches, recipe};
use reference::make::{Recipe, Sample};
use reference::night::Reading::{ErrorPixel, Outside, OverRange, Radiance, Uncalibrated};
use reference::night::{add, read_count, Run, KINDS, MOST_COUNTS};
use reference::random::Random;
use reference::{numbers, Answer, FINE};

const RUN: Answer = (19, 0, 0);
const SHORT_1: Answer = (1, 1, 0);

/// The file of 1,479 bytes, of band 13, which has 12 valid bits: gain 0.5, constant -1, and a count of each kind that they
/// leave.
fn plain(order: u64) -> Sample {
    let counts = [10, 4_095, 4_096, 65_533, 65_534, 65_535, 0, 1];
    with_counts(
        &Recipe {
            order,
            ..Recipe::plain()
        },
        &counts,
    )
}

fn with_counts(recipe: &Recipe, counts: &[u64]) -> Sample {
    let mut sample = Sample::make(recipe, &mut Random::new(1));
    sample.put(5, 19, 8, 0.5_f64.to_bits());
    sample.put(5, 27, 8, (-1.0_f64).to_bits());
    for (place, &count) in counts.iter().enumerate() {
        sample.put(12, 2 * place, 2, count);
    }
    sample
}

/// What adding a file to a run answers: refusal, block and offset, the difference, and the run afterwards.
fn added(run: &Run, file: &[u8]) -> (Answer, i64, Run) {
    let mut after = run.clone();
    let answer = add(&mut after, file);
    (numbers(&answer), answer.unwrap_or(0), after)
}

/// A run of accepted files alone.
fn totals(totals: [u64; 5], accepted: u32) -> Run {
    Run {
        totals,
        accepted,
        ..Run::EMPTY
    }
}

/// A run of so many files that were refused with that number.
fn refused(place: usize, files: u32) -> Run {
    let mut run = Run::EMPTY;
    run.refused[place] = files;
    run
}

#[test]
fn counts_of_document_01() {
    let read = |count| read_count(0.5, -1.0, 11, count);
    assert_eq!(read(0), Radiance(-1.0));
    assert_eq!(read(10), Radiance(4.0));
    assert_eq!(read(2_047), Radiance(1_022.5));
    assert_eq!(read(2_048), OverRange);
    assert_eq!(read(65_533), OverRange);
    assert_eq!(read(65_534), Outside);
    assert_eq!(read(65_535), ErrorPixel);
    let huge = 2_f64.powi(1_023);
    assert_eq!(read_count(huge, -1.0, 11, 2), Uncalibrated);
    assert_eq!(read_count(huge, -1.0, 11, 1), Radiance(huge));
    // a negative gain is no damage
    assert_eq!(read_count(-0.5, 1.0, 11, 10), Radiance(-4.0));
}

#[test]
fn valid_bits() {
    for (bits, last) in [(0, 0), (1, 1), (11, 2_047), (12, 4_095), (14, 16_383)] {
        let read = |count| read_count(1.0, 0.0, bits, count);
        assert_eq!(read(last), Radiance(f64::from(last)));
        assert_eq!(read(last + 1), OverRange);
        assert_eq!(read(65_535), ErrorPixel);
    }
    // 65,534 and 65,535 are no radiance with any bits
    for bits in [16, 17, 32, 64, 65_535] {
        let read = |count| read_count(1.0, 0.0, bits, count);
        assert_eq!(read(65_533), Radiance(65_533.0));
        assert_eq!([read(65_534), read(65_535)], [Outside, ErrorPixel]);
    }
}

#[test]
fn each_operation_is_rounded() {
    // 3 x 0.1 is 0.30000000000000004, which is two steps of 2 to the -55 above 0.3; rounded only once it would be one
    let step = 2_f64.powi(-55);
    assert_eq!(read_count(0.1, -0.3, 11, 3), Radiance(2.0 * step));
    // the product is infinite, though the sum would not be
    let huge = 2_f64.powi(1_023);
    assert_eq!(read_count(huge, -huge, 11, 2), Uncalibrated);
    assert_eq!(read_count(-huge, huge, 11, 2), Uncalibrated);
    // half a step above the greatest number is infinite, a little less is not
    let half = 2_f64.powi(970);
    assert_eq!(read_count(f64::MAX, half, 11, 1), Uncalibrated);
    let less = f64::from_bits(half.to_bits() - 1);
    assert_eq!(read_count(f64::MAX, less, 11, 1), Radiance(f64::MAX));
    assert_eq!(read_count(f64::MAX, half, 11, 0), Radiance(half));
}

#[test]
fn what_is_not_finite() {
    let infinite = f64::INFINITY;
    let nan = f64::NAN;
    for count in [0, 1, 2_047] {
        for (gain, constant) in [
            (infinite, 0.0),
            (-infinite, 0.0),
            (nan, 0.0),
            (1.0, infinite),
            (1.0, -infinite),
            (1.0, nan),
            (infinite, -infinite),
            (0.0, nan),
        ] {
            assert_eq!(read_count(gain, constant, 11, count), Uncalibrated);
        }
        // the other kinds ask for no calibration
        assert_eq!(read_count(nan, nan, 11, 2_048), OverRange);
        assert_eq!(read_count(nan, nan, 11, 65_534), Outside);
        assert_eq!(read_count(nan, nan, 11, 65_535), ErrorPixel);
    }
}

#[test]
fn one_file() {
    assert_eq!(
        KINDS,
        ["radiance", "error", "outside", "over", "uncalibrated"]
    );
    for order in [0, 1] {
        let mut sample = plain(order);
        // 10, 4,095, 0 and 1; 65,535; 65,534; 4,096 and 65,533
        let due = (FINE, 1, totals([4, 1, 1, 2, 0], 1));
        assert_eq!(added(&Run::EMPTY, &sample.bytes), due);
        sample.put(5, 19, 8, f64::INFINITY.to_bits());
        let due = (FINE, 1, totals([0, 1, 1, 2, 4], 1));
        assert_eq!(added(&Run::EMPTY, &sample.bytes), due);
        // twice 10 to the 308 is infinite, and once it is not
        sample.put(5, 19, 8, 1e308_f64.to_bits());
        let due = (FINE, 1, totals([2, 1, 1, 2, 2], 1));
        assert_eq!(added(&Run::EMPTY, &sample.bytes), due);
    }
}

#[test]
fn counts_follow_the_byte_order() {
    for (order, first) in [(0, [0, 0, 0, 1, 0]), (1, [0, 0, 1, 0, 0])] {
        let recipe = Recipe {
            order,
            columns: 1,
            lines: 1,
            ..Recipe::plain()
        };
        let mut sample = with_counts(&recipe, &[]);
        // 65,279 or 65,534
        sample.put_text(12, 0, &[0xff, 0xfe]);
        let due = (FINE, 0, totals(first, 1));
        assert_eq!(added(&Run::EMPTY, &sample.bytes), due);
    }
}

#[test]
fn valid_bits_come_from_the_file() {
    // 2,047 to 16,384 around the three borders
    let counts = [2_047, 2_048, 4_095, 4_096, 16_383, 16_384];
    for (band, within) in [(1, 1), (9, 1), (10, 3), (15, 3), (16, 1), (7, 5)] {
        let recipe = Recipe {
            band,
            columns: 6,
            lines: 1,
            ..Recipe::plain()
        };
        let sample = with_counts(&recipe, &counts);
        let due = (FINE, 0, totals([within, 0, 0, 6 - within, 0], 1));
        assert_eq!(added(&Run::EMPTY, &sample.bytes), due);
    }
}

#[test]
fn what_block_10_lists() {
    for order in [0, 1] {
        for (a, b) in [(0, 0), (2, 3)] {
            let recipe = Recipe {
                order,
                a,
                b,
                c: 3,
                ..Recipe::plain()
            };
            let mut sample = with_counts(&recipe, &[65_535, 65_535, 0, 0, 0, 0, 0, 0]);
            // lines, which are not added, and error pixels: 1 + 0 + 300
            for (place, value) in [65_535, 1, 9, 0, 40_000, 300].into_iter().enumerate() {
                sample.put(10, 7 + 2 * place, 2, value);
            }
            let due = (FINE, 2 - 301, totals([6, 2, 0, 0, 0], 1));
            assert_eq!(added(&Run::EMPTY, &sample.bytes), due);
            // the last one now lists what is left
            sample.put(10, 7 + 10, 2, 1);
            let due = (FINE, 0, totals([6, 2, 0, 0, 0], 1));
            assert_eq!(added(&Run::EMPTY, &sample.bytes), due);
        }
    }
}

/// 65,535 entries of 65,535 each; more than 32 bits hold.
#[test]
fn as_much_as_block_10_can_list() {
    for order in [0, 1] {
        let recipe = Recipe {
            order,
            c: 65_535,
            ..Recipe::plain()
        };
        let mut sample = with_counts(&recipe, &[0; 8]);
        for entry in 0..65_535 {
            sample.put(10, 9 + 4 * entry, 2, 65_535);
        }
        let due = (FINE, -4_294_836_225, totals([8, 0, 0, 0, 0], 1));
        assert_eq!(added(&Run::EMPTY, &sample.bytes), due);
        sample.put(12, 6, 2, 65_535);
        let due = (FINE, -4_294_836_224, totals([7, 1, 0, 0, 0], 1));
        assert_eq!(added(&Run::EMPTY, &sample.bytes), due);
    }
}

#[test]
fn a_night_of_five_files() {
    let mut run = Run::EMPTY;
    let mut tail = plain(1).bytes;
    tail.push(0);
    let cut = &tail[..1_463];
    let files = [&plain(0).bytes[..], &tail, &plain(1).bytes, cut, &tail];
    let answers = files.map(|file| numbers(&add(&mut run, file)));
    let (cut, tail) = ((11, 12, 1_463), (12, 12, 1_463));
    assert_eq!(answers, [FINE, tail, FINE, cut, tail]);
    let mut due = totals([8, 2, 2, 4, 0], 2);
    (due.refused[11], due.refused[12]) = (1, 2);
    assert_eq!(run, due);
    assert_eq!(run.held(), 5);
}

/// Whatever is in the run already, only the refusal's number grows.
#[test]
fn each_refusal_is_counted_by_its_number() {
    let before = Run {
        totals: [1, 2, 3, 4, MOST_COUNTS],
        accepted: 5,
        refused: [6; 64],
    };
    let mut numbers = Vec::new();
    for order in [0, 1] {
        for breach in breaches(&recipe(order)) {
            let mut sample = with_counts(&recipe(order), &[65_535; 8]);
            breach.apply(&mut sample);
            let number = usize::from(breach.answer.0);
            let mut due = before.clone();
            due.refused[number] = 7;
            assert_eq!(added(&before, &sample.bytes), (breach.answer, 0, due));
            numbers.push(number);
        }
    }
    numbers.sort();
    numbers.dedup();
    let due: Vec<usize> = (1..=6).chain(8..=12).chain(31..=38).collect();
    assert_eq!(numbers, due);
    assert_eq!(added(&Run::EMPTY, &[]), (SHORT_1, 0, refused(1, 1)));
}

/// The run is kept, whether the file would be accepted or refused.
fn assert_full(run: &Run) {
    for file in [&plain(0).bytes[..], &[], &plain(1).bytes[..1_478]] {
        assert_eq!(added(run, file), (RUN, 0, run.clone()));
    }
}

#[test]
fn as_many_files_as_a_run_holds() {
    let file = plain(0).bytes;
    let (answer, _, after) = added(&totals([0; 5], 4_095), &file);
    assert_eq!((answer, after.accepted), (FINE, 4_096));
    assert_full(&after);
    for place in 0..64 {
        let (answer, _, after) = added(&refused(place, 4_095), &file);
        assert_eq!((answer, after.accepted), (FINE, 1));
        assert_full(&after);
        for files in [4_096, 4_097, u32::MAX] {
            assert_full(&refused(place, files));
        }
    }
    for accepted in [4_096, 4_097, u32::MAX] {
        assert_full(&totals([0; 5], accepted));
    }
    // 64 places of 64, and then one of them of 63
    let mut spread = Run {
        refused: [64; 64],
        ..Run::EMPTY
    };
    assert_full(&spread);
    spread.refused[19] = 63;
    let (answer, _, after) = added(&spread, &[]);
    assert_eq!((answer, after.refused[1]), (SHORT_1, 65));
    assert_full(&after);
    spread.accepted = 1;
    assert_full(&spread);
}

#[test]
fn as_many_counts_as_a_run_holds() {
    assert_eq!(MOST_COUNTS, 1_982_464_000_000);
    let grown = [4, 1, 1, 2, 0];
    for kind in 0..5 {
        let mut run = Run::EMPTY;
        run.totals[kind] = MOST_COUNTS;
        let mut due = totals(grown, 1);
        due.totals[kind] += MOST_COUNTS;
        assert_eq!(added(&run, &plain(0).bytes), (FINE, 1, due.clone()));
        if grown[kind] > 0 {
            assert_full(&due);
        }
        for total in [MOST_COUNTS + 1, u64::MAX] {
            run.totals[kind] = total;
            assert_full(&run);
        }
    }
    // each of them may be there
    let (answer, ..) = added(&totals([MOST_COUNTS; 5], 4_095), &plain(0).bytes);
    assert_eq!(answer, FINE);
}

/// In 32 bits these would hold no files.
#[test]
fn files_do_not_wrap() {
    for place in 0..64 {
        let mut run = refused(place, 1);
        run.accepted = u32::MAX;
        assert_full(&run);
        run.refused[place] = 4_095;
        run.accepted = u32::MAX - 4_094;
        assert_full(&run);
    }
    let all = Run {
        totals: [u64::MAX; 5],
        accepted: u32::MAX,
        refused: [u32::MAX; 64],
    };
    assert_eq!(all.held(), 65 * 4_294_967_295);
    assert_full(&all);
}
