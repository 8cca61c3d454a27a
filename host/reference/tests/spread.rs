//! The mix of inputs reaches every answer that a file can get, by the reference alone.

use reference::accept;
use reference::mix::{Plan, REFUSALS};
use reference::tally::Tally;

#[test]
fn every_answer_comes() {
    let plan = Plan::new(50_000);
    let mut tally = Tally::new("accepted", &REFUSALS);
    for number in 0..plan.cases() {
        let case = plan.case(number);
        tally.count(case.kind, &accept(&case.bytes));
    }
    tally.print();
    let least = plan.small / 200;
    tally.check(least, least, plan.small / 2_000);
}
