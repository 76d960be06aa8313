//! Every octet that a follower may be handed in as, with short traces of every kind.

use crate::agreed;
use crate::answers::UNSOUND;

#[test]
fn every_follower_agrees_on_every_pair_of_settings() {
    let settings = (0..=33).chain([63, 64, 96, 127, 128, 160, 255]);
    let settings = settings.collect::<Vec<u8>>();
    for octet in 0..=255 {
        for &first in &settings {
            agreed(octet, &[first]);
            for &second in &settings {
                agreed(octet, &[first, second]);
            }
        }
    }
}

#[test]
fn a_follower_that_no_trace_reaches_stays_through_any_trace() {
    let mut refused = 0;
    for octet in 0..=255 {
        let trace = (0..=255).chain([0, 16, 0]).collect::<Vec<u8>>();
        let (after, answers) = agreed(octet, &trace);
        if answers[0] == UNSOUND {
            refused += 1;
            assert_eq!((after, answers), (octet, vec![UNSOUND; trace.len()]));
        }
    }
    assert_eq!(refused, 256 - 18);
}

#[test]
fn no_settings_change_nothing() {
    for octet in 0..=255 {
        assert_eq!(agreed(octet, &[]), (octet, vec![]));
    }
}
