//! Random traces of lengths around the bounds that a reader may cut them at.

use crate::agreed;
use crate::shared::events_to_compare;
use crate::shared::random::Random;
use crate::spells::likely_trace;
use crate::tally::{Tally, LENGTHS, THOUSANDS};

#[test]
fn random_traces_agree() {
    let mut random = Random::new(0x104);
    let mut tally = Tally::default();
    let wanted = events_to_compare();
    while tally.settings() < wanted {
        let length = if random.one_in(32) {
            random.pick(&THOUSANDS) + random.below(100)
        } else {
            random.pick(&LENGTHS)
        };
        let (octet, trace) = likely_trace(&mut random, length);
        let (after, answers) = agreed(octet, &trace);
        tally.note(octet, &trace, &answers, after);
    }
    println!("{tally}");
    tally.assert_all_occurred();
}
