//! Ten million settings in one call, on a stack that has no room for an octet of each.

use crate::shared::plain;
use crate::shared::random::Random;
use crate::spells::likely_trace;
use crate::{assert_same, Reader, Told, BEFORE, READERS};
use std::thread;

const SETTINGS: usize = 10_000_000;
const STACK_OCTETS: usize = 32 << 10;

/// These settings, then the others over and over.
fn trace(first: &[u8], others: &[u8]) -> Vec<u8> {
    let others = others.iter().cycle();
    first.iter().chain(others).copied().take(SETTINGS).collect()
}

fn on_a_small_stack(reader: Reader, octet: u8, trace: &[u8]) -> Told {
    let (mut follower, mut answers) = ([octet], vec![BEFORE; trace.len()]);
    let returned = thread::scope(|scope| {
        let small = thread::Builder::new().stack_size(STACK_OCTETS);
        let reading = small.spawn_scoped(scope, || reader(&mut follower, trace, &mut answers));
        reading.expect("a thread").join()
    });
    assert_eq!(returned.ok(), Some(0));
    (follower[0], answers)
}

fn assert_told(what: &str, octet: u8, trace: &[u8]) {
    let (mut follower, mut answers) = ([octet], vec![BEFORE; trace.len()]);
    assert_eq!(plain::lines(&mut follower, trace, &mut answers), 0);
    let expected = (follower[0], answers);
    for (name, reader) in READERS {
        let told = on_a_small_stack(reader, octet, trace);
        assert_same(&format!("{name}, {what}"), trace, &told, &expected);
    }
}

#[test]
fn ten_million_settings_take_no_more_stack() {
    let mut random = Random::new(0x10_000_000);
    let (_, mixed) = likely_trace(&mut random, 10_007);
    assert_told("mixed settings", 0, &trace(&[], &mixed));
    let by_turns = trace(&[16, 24], &[25, 27, 26, 24]);
    assert_told("each side in turn", 0, &by_turns);
    assert_told("a follower that no trace reaches", 3, &by_turns);
    assert_told("one setting", 0, &trace(&[16], &[16]));
    assert_told("the controller alone", 0, &trace(&[], &[16, 0, 4, 0, 1, 0]));
    assert_told("lost", 0, &trace(&[], &[31, 1]));
    assert_told("over 31", 0, &trace(&[], &[32, 255]));
}
