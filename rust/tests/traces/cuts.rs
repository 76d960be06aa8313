//! A trace in several calls is the trace in one, whichever reader takes which part.

use crate::shared::random::Random;
use crate::spells::likely_trace;
use crate::{agreed, read, READERS};

fn assert_uncut(octet: u8, trace: &[u8], parts: &[(usize, &[u8])]) {
    let expected = agreed(octet, trace);
    let mut told = (octet, Vec::new());
    for &(reader, part) in parts {
        let (after, answers) = read(READERS[reader].1, told.0, part);
        told.0 = after;
        told.1.extend(answers);
    }
    assert_eq!(told, expected, "from {octet:#x}: {parts:?}");
}

#[test]
fn a_trace_cut_anywhere_is_the_trace_uncut() {
    let mut random = Random::new(0xC07);
    for _ in 0..40 {
        let length = random.below(150);
        let (octet, trace) = likely_trace(&mut random, length);
        for cut in 0..=length {
            let (first, rest) = trace.split_at(cut);
            for readers in [[0, 0], [1, 1], [0, 1], [1, 0]] {
                assert_uncut(octet, &trace, &[(readers[0], first), (readers[1], rest)]);
            }
        }
    }
}

#[test]
fn random_parts_of_random_traces_are_the_traces_uncut() {
    let mut random = Random::new(0xC08);
    for _ in 0..2_000 {
        let length = random.below(600);
        let (octet, trace) = likely_trace(&mut random, length);
        let longest = random.pick(&[2, 20, 300]);
        let (mut rest, mut parts) = (&trace[..], Vec::new());
        while !rest.is_empty() {
            let (part, behind) = rest.split_at(random.below(longest).min(rest.len()));
            parts.push((random.below(READERS.len()), part));
            rest = behind;
        }
        assert_uncut(octet, &trace, &parts);
    }
}
