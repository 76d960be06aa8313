//! Slices that are too short: these are refused, and nothing changes. And slices that just do.

use crate::{BEFORE, READERS};

const TOO_SHORT: u8 = 10;

/// Moves, a setting over 31, a lost stretch and the way back, over and over.
fn trace(settings: usize) -> Vec<u8> {
    let again = [16, 24, 32, 7, 5, 0].into_iter().cycle();
    again.take(settings).collect()
}

fn assert_refused(follower: &[u8], trace: &[u8], room: usize) {
    for (name, reader) in READERS {
        let (mut after, mut answers) = (follower.to_vec(), vec![BEFORE; room]);
        let returned = reader(&mut after, trace, &mut answers);
        let settings = trace.len();
        assert_eq!(returned, TOO_SHORT, "{name}: {settings} settings");
        assert_eq!(after, follower, "{name}: {settings} settings");
        assert_eq!(answers, vec![BEFORE; room], "{name}: {settings} settings");
    }
}

#[test]
fn answers_that_are_shorter_than_the_trace_are_10() {
    for octet in 0..=255 {
        for settings in [1, 2, 16, 17] {
            for room in 0..settings {
                assert_refused(&[octet, 0xA5], &trace(settings), room);
            }
        }
    }
    for settings in [64, 65, 256, 300, 5_000] {
        for room in [0, 1, settings / 2, settings - 1] {
            assert_refused(&[0], &trace(settings), room);
        }
    }
}

#[test]
fn a_follower_without_an_octet_is_10_whatever_the_trace() {
    for settings in [0, 1, 16, 300] {
        for room in [0, settings, settings + 3] {
            assert_refused(&[], &trace(settings), room);
        }
    }
}

#[test]
fn slices_that_just_do_are_filled() {
    for (name, reader) in READERS {
        for settings in [0, 1, 2, 15, 16, 17, 64, 65, 300, 5_000] {
            let (mut follower, mut answers) = ([0], vec![BEFORE; settings]);
            let returned = reader(&mut follower, &trace(settings), &mut answers);
            assert_eq!(returned, 0, "{name}: {settings} settings");
            let left = [0x30, 0x18, 0x18, 0x40, 0x40, 0].into_iter().cycle();
            let last = left.take(settings).last().unwrap_or(0);
            assert_eq!(follower, [last], "{name}: {settings} settings");
            let again = [17, 18, 8, 19, 20, 21].into_iter().cycle();
            assert!(
                again.take(settings).eq(answers),
                "{name}: {settings} settings"
            );
        }
    }
}
