//! How long acceptance takes, for a file of 1,479 bytes and for a segment with 6,050,000 bytes of
//! counts, by the proved library and by the reference.

use std::hint::black_box;
use std::time::Instant;

use reference::accept;
use reference::make::{Recipe, Sample};
use reference::proved::Bridge;
use reference::random::Random;

fn main() {
    let mut random = Random::new(1);
    let small = Sample::make(&Recipe::plain(), &mut random).bytes;
    let segment = Recipe {
        columns: 5_500,
        lines: 550,
        ..Recipe::plain()
    };
    let big = Sample::make(&segment, &mut random).bytes;
    assert!(accept(&small).is_ok() && accept(&big).is_ok());

    let Bridge {
        mut requests,
        mut answers,
    } = Bridge::start();
    requests.ask_time(&small).expect("the bridge reads");
    requests.ask_time(&big).expect("the bridge reads");
    requests.end().expect("the bridge reads");
    let proved_small = answers.next_time().expect("the bridge answers");
    let proved_big = answers.next_time().expect("the bridge answers");
    let reference_small = nanoseconds(|| accept(black_box(&small)));
    let reference_big = nanoseconds(|| accept(black_box(&big)));

    println!(
        "{:<20} {:>10} {:>10} {:>10}",
        "nanoseconds", "small", "big", "big/small"
    );
    print_row("proved", proved_small, proved_big);
    print_row("reference", reference_small, reference_big);
    println!(
        "{:<20} {:>10.2} {:>10.2}",
        "proved/reference",
        proved_small / reference_small,
        proved_big / reference_big
    );
}

fn print_row(name: &str, small: f64, big: f64) {
    println!("{name:<20} {small:>10.1} {big:>10.1} {:>10.2}", big / small);
}

/// The best of many rounds: others use the machine too, and they only ever add time.
fn nanoseconds<T>(run: impl Fn() -> T) -> f64 {
    let times = 1_000;
    let mut best = f64::INFINITY;
    for _ in 0..50 {
        let began = Instant::now();
        for _ in 0..times {
            black_box(run());
        }
        best = best.min(began.elapsed().as_nanos() as f64 / f64::from(times));
    }
    best
}
