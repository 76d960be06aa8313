//! Whole traces of settings (request M-104): both readers of the archive, by the table and without
//! it, against so many calls for single settings and against the plain Rust.
//!
//! `PANTOGLIDE_EVENTS` sets the number of random settings, 100,000 where it is not set.

mod agreement;
mod answers;
mod bounds;
mod cuts;
mod long;
mod octets;
mod slices;
mod spells;
mod tally;

use pantoglide::raw;
use shared::plain;

#[allow(dead_code, unused_imports)] // the other tests and the speed program use the rest
#[path = "../../shared/mod.rs"]
mod shared;

type Reader = fn(&mut [u8], &[u8], &mut [u8]) -> u8;

/// The two of the archive, and the plain Rust.
const READERS: [(&str, Reader); 3] = [
    ("pg_lines", raw::lines),
    ("pg_lines_plain", raw::lines_plain),
    ("the plain Rust", plain::lines),
];

/// What stands in a lent slice before a call.
const BEFORE: u8 = 0xEE;
/// More octets than a call needs.
const EXCESS: [u8; 3] = [0xA5, 0x5A, BEFORE];

/// What a trace makes of a follower's octet, and the answers to it.
type Told = (u8, Vec<u8>);

/// What every reader and so many single settings tell alike.
fn agreed(octet: u8, trace: &[u8]) -> Told {
    let expected = by_single_settings(octet, trace);
    for (name, reader) in READERS {
        let told = read(reader, octet, trace);
        assert_same(&format!("{name}, from {octet:#x}"), trace, &told, &expected);
    }
    expected
}

fn by_single_settings(octet: u8, trace: &[u8]) -> Told {
    let mut follower = [octet];
    let settings = trace.iter();
    let answers = settings.map(|&setting| raw::line(&mut follower, setting));
    let answers = answers.collect();
    (follower[0], answers)
}

/// What a reader tells of a trace that it has room for. Nothing else is written.
fn read(reader: Reader, octet: u8, trace: &[u8]) -> Told {
    let mut follower = [&[octet][..], &EXCESS].concat();
    let mut answers = [&vec![BEFORE; trace.len()][..], &EXCESS].concat();
    assert_eq!(reader(&mut follower, trace, &mut answers), 0);
    assert_eq!(follower[1..], EXCESS, "behind the follower's octet");
    assert_eq!(answers.split_off(trace.len()), EXCESS, "behind the answers");
    (follower[0], answers)
}

/// Names the first setting that is answered otherwise, since a trace may be long.
fn assert_same(who: &str, trace: &[u8], told: &Told, expected: &Told) {
    let ((after, answers), (expected_after, expected)) = (told, expected);
    assert_eq!(answers.len(), expected.len(), "{who}");
    let differs = (0..answers.len()).find(|&at| answers[at] != expected[at]);
    if let Some(at) = differs {
        let (answer, expected) = (answers[at], expected[at]);
        let led_by = &trace[at.saturating_sub(8)..=at];
        panic!("{who}, setting {at} of {led_by:?}: {answer}, not {expected}");
    }
    assert_eq!(after, expected_after, "{who}: the follower after all");
}
