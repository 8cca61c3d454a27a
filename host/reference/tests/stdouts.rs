//! What the proved programs of cases must print, line by line: the case is made from its words, and the answer that stands
//! there must be the reference's.

use std::collections::BTreeSet;
use std::fs;

use reference::spoken::frames::Scene;
use reference::spoken::{files, values, writer};

fn stdout(program: &str) -> String {
    let root = concat!(env!("CARGO_MANIFEST_DIR"), "/../..");
    let path = format!("{root}/crates/{program}/stdout");
    fs::read_to_string(path).expect("the program's stdout")
}

fn compare(line: &str, answer: impl FnOnce(&str) -> String) {
    let (case, told) = line.split_once(": ").expect("a case and its answer");
    assert_eq!(told, answer(case), "{case}");
}

#[test]
fn files() {
    for line in stdout("cases_files").lines() {
        compare(line, files::answer);
    }
}

#[test]
fn values() {
    // what a count reads as, the reference does not say
    let lines = stdout("cases_values");
    for line in lines.lines().filter(|line| !line.starts_with("count ")) {
        compare(line, values::answer);
    }
}

#[test]
fn what_the_writer_is_given() {
    for line in stdout("cases_writer").lines() {
        compare(line, writer::answer);
    }
}

#[test]
fn frames() {
    let mut scene = None;
    for line in stdout("cases_frames").lines() {
        match line.strip_prefix("-- ") {
            Some(title) => scene = Some(Scene::new(title)),
            None => {
                let scene = scene.as_mut().expect("a title");
                compare(line, |case| scene.answer(case));
            }
        }
    }
}

#[test]
fn every_refusal_is_among_them_but_that_of_reels() {
    let programs = [
        "cases_files",
        "cases_values",
        "cases_writer",
        "cases_frames",
    ];
    let lines = programs.map(stdout).concat();
    let refusals: BTreeSet<u8> = lines
        .lines()
        .filter_map(|line| line.split_once(": NO ")?.1.split(' ').next()?.parse().ok())
        .collect();
    assert!((1..=17).filter(|&n| n != 7).chain(31..=39).eq(refusals));
}
