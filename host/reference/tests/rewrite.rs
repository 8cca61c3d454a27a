//! Compares the proved library's four readers and its writer with the reference: each image is read
//! as a file, and what was read, or what a refused image states, is written. Prints how many of each
//! kind and of each answer there were; any difference or thin spot fails.

use std::io::{self, BufReader, Read, Write};
use std::process::{Child, ChildStdin, ChildStdout, Command, Stdio};
use std::sync::mpsc::{sync_channel, Receiver, SyncSender};
use std::sync::Arc;
use std::thread;
use std::time::Instant;

use reference::images::{Asked, Images, REFUSALS};
use reference::numbers;
use reference::proved::six_bytes;
use reference::readers::{verdicts, Readings};
use reference::tally::Tally;

/// With this the program fills its output before it writes.
const UNTOUCHED: u8 = 0xaa;

/// Who answers first, with refusal, block and offset in six bytes each; the output follows.
const WHO: [&str; 5] = ["read", "read_shifts", "read_times", "read_errors", "write"];
const TOLD: usize = 6 * WHO.len();

fn main() {
    let images = Arc::new(Images::new(120_000));
    println!("seed {}", images.seed);
    let began = Instant::now();
    let (mut child, requests, mut answers) = start();

    // one thread makes the images, judges them by the reference and asks; this one compares
    let (tell, told) = sync_channel(4_000);
    let asking = Arc::clone(&images);
    let asker = thread::spawn(move || ask_all(&asking, requests, &tell));
    let (tally, readings) = compare_all(images.seed, &mut answers, &told);
    asker.join().expect("every image was asked");
    let mut more = Vec::new();
    answers.read_to_end(&mut more).expect("the program ends");
    assert!(more.is_empty(), "{} bytes too many", more.len());
    assert!(child.wait().is_ok_and(|status| status.success()));
    tally.print();
    readings.print();
    println!(
        "{} images compared in {:.1} s",
        images.cases,
        began.elapsed().as_secs_f64()
    );
    let least = images.cases / 600;
    tally.check(images.cases / 12, least, least);
    readings.check(images.cases);
}

/// Starts the program that reads, and writes what it read.
fn start() -> (Child, ChildStdin, BufReader<ChildStdout>) {
    let root = concat!(env!("CARGO_MANIFEST_DIR"), "/../..");
    let mut child = Command::new(format!("{root}/crates/rewrite/out/rewrite"))
        .stdin(Stdio::piped())
        .stdout(Stdio::piped())
        .spawn()
        .expect("the program starts");
    let requests = child.stdin.take().expect("it is piped");
    let answers = child.stdout.take().expect("it is piped");
    (child, requests, BufReader::with_capacity(1 << 20, answers))
}

fn ask_all(images: &Images, mut requests: ChildStdin, tell: &SyncSender<Asked>) {
    for number in 0..images.cases {
        let asked = images.case(number);
        ask(&mut requests, &asked).expect("the program reads");
        tell.send(asked).expect("it is compared");
    }
}

/// One write for each request: none may stay behind while its answer is waited for.
fn ask(requests: &mut ChildStdin, asked: &Asked) -> io::Result<()> {
    let mut request = Vec::with_capacity(12 + asked.image.len());
    for number in [asked.image.len(), asked.room, asked.entries] {
        request.extend((number as u32).to_le_bytes());
    }
    request.extend_from_slice(&asked.image);
    requests.write_all(&request)
}

fn compare_all(seed: u64, answers: &mut impl Read, told: &Receiver<Asked>) -> (Tally, Readings) {
    let mut tally = Tally::new("written", &REFUSALS);
    let mut readings = Readings::new();
    for (number, asked) in told.iter().enumerate() {
        if let Err(difference) = compare(answers, &asked) {
            println!("seed {seed}, case {number}, {}", asked.kind);
            println!("image: {} bytes", asked.image.len());
            println!("room: {}, for entries: {}", asked.room, asked.entries);
            println!("{difference}");
            std::process::exit(1);
        }
        tally.count(asked.kind, &asked.written);
        readings.count(&asked.file, asked.entries, asked.written.is_ok());
    }
    (tally, readings)
}

fn compare(answers: &mut impl Read, asked: &Asked) -> Result<(), String> {
    let due = answer_due(asked);
    let mut given = vec![0; due.len()];
    answers
        .read_exact(&mut given)
        .map_err(|error| format!("no answer: {error}"))?;
    if given == due {
        Ok(())
    } else {
        Err(difference(&due, &given))
    }
}

/// What each says, and the whole output: the header and what is behind it, or nothing touched.
fn answer_due(asked: &Asked) -> Vec<u8> {
    let mut due = Vec::with_capacity(TOLD + asked.room);
    for verdict in verdicts(&asked.file, asked.entries) {
        due.extend(six_bytes(numbers(&verdict)));
    }
    due.extend(six_bytes(numbers(&asked.written)));
    due.extend_from_slice(asked.written.as_deref().unwrap_or(&[]));
    due.resize(TOLD + asked.room, UNTOUCHED);
    due
}

fn difference(due: &[u8], given: &[u8]) -> String {
    for (at, who) in WHO.iter().enumerate() {
        let (due, given) = (&due[6 * at..][..6], &given[6 * at..][..6]);
        if due != given {
            return format!(
                "{who}, refusal, block and offset's bytes: reference {due:?}, proved {given:?}"
            );
        }
    }
    let (due, given) = (&due[TOLD..], &given[TOLD..]);
    let at = (0..due.len()).find(|&at| due[at] != given[at]).unwrap_or(0);
    let end = due.len().min(at + 16);
    format!(
        "the output differs from byte {at} on\nreference: {:02x?}\nproved:    {:02x?}",
        &due[at..end],
        &given[at..end]
    )
}
