//! Compares the proved library with the reference on more than a million inputs. Prints how many
//! of each kind and of each answer there were; any difference or thin spot fails.

use std::sync::mpsc::sync_channel;
use std::sync::Arc;
use std::thread;
use std::time::Instant;

use reference::accept;
use reference::mix::{Plan, REFUSALS};
use reference::proved::{self, Bridge};
use reference::tally::Tally;

fn main() {
    let plan = Arc::new(Plan::new(1_000_000));
    println!("seed {}", plan.seed);
    let began = Instant::now();
    let Bridge {
        mut requests,
        mut answers,
    } = Bridge::start();

    // one thread makes the inputs, judges them by the reference and asks; this one compares
    let (tell, told) = sync_channel(100_000);
    let asking = Arc::clone(&plan);
    let asker = thread::spawn(move || {
        for number in 0..asking.cases() {
            let case = asking.case(number);
            let expected = accept(&case.bytes);
            requests.ask(&case.bytes).expect("the bridge reads");
            tell.send((case.kind, expected)).expect("it is compared");
        }
        requests.end().expect("the bridge reads");
    });

    let mut tally = Tally::new("accepted", &REFUSALS);
    for (number, (kind, expected)) in told.iter().enumerate() {
        let given = answers.next_file().expect("the bridge answers");
        if !proved::agrees(&expected, &given) {
            let bytes = plan.case(number as u64).bytes;
            println!(
                "seed {}, case {number}, {kind}, {} bytes",
                plan.seed,
                bytes.len()
            );
            println!("reference: {expected:?}");
            println!("proved:    {given:?}");
            println!("begins with {:02x?}", &bytes[..bytes.len().min(300)]);
            std::process::exit(1);
        }
        tally.count(kind, &expected);
    }
    asker.join().expect("every input was asked");
    assert!(answers.ended_well(), "the bridge did not end well");
    tally.print();
    println!(
        "{} inputs compared in {:.1} s",
        plan.cases(),
        began.elapsed().as_secs_f64()
    );
    let least = plan.small / 200;
    tally.check(least, least, plan.small / 2_000);
}
