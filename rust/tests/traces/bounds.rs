//! A reader may cut a trace into stretches. So all that a follower carries from one setting to a
//! later one is put at every distance from the front, and carried over every number of settings.

use crate::agreed;
use crate::answers::{CONTROLLERS as C, DRIVES as D};
use crate::answers::{IDLE_AGAIN, MALFORMED, SAME, STILL_LOST, UNDEFINED};
use crate::shared::settings::{LOST, MOVES};
use std::collections::BTreeSet;
use std::iter::repeat_n;

const FARTHEST: usize = 260;

/// Every listed move, from IDLE to IDLE, with the side of each.
const SESSION: [u8; 30] = [
    16, 24, 25, 27, 26, 24, 28, 30, 31, 29, 28, 30, 26, 24, 25, 27, 26, 24, 28, 20, 16, 24, 8, 0,
    4, 0, 1, 0, 16, 0,
];
const SIDES: [u8; 30] = [
    C, D, C, D, C, D, C, D, C, D, C, D, C, D, C, D, C, D, C, D, C, D, C, D, //
    C, C, C, C, C, C,
];

#[test]
fn the_session_has_every_listed_move() {
    let from = [0].iter().chain(&SESSION);
    let moves = from.copied().zip(SESSION).collect::<BTreeSet<_>>();
    assert_eq!(moves, BTreeSet::from(MOVES));
    assert_eq!(agreed(0, &SESSION), (0, SIDES.to_vec()));
}

/// A setting, its answer, and how often both come one after another.
type Part = (u8, u8, usize);

fn assert_told(octet: u8, parts: &[Part], after: u8) {
    let (mut trace, mut answers) = (Vec::new(), Vec::new());
    for &(setting, answer, times) in parts {
        trace.extend(repeat_n(setting, times));
        answers.extend(repeat_n(answer, times));
    }
    assert_eq!(agreed(octet, &trace), (after, answers), "{parts:?}");
}

#[test]
fn a_session_may_begin_anywhere() {
    for before in 0..=FARTHEST {
        for (filler, answer) in [(0, SAME), (32, MALFORMED)] {
            let mut trace = vec![filler; before];
            let mut answers = vec![answer; before];
            for _ in 0..3 {
                trace.extend(SESSION);
                answers.extend(SIDES);
            }
            assert_eq!(agreed(0, &trace), (0, answers), "behind {before}");
        }
    }
}

#[test]
fn history_lasts_over_any_number_of_settings() {
    for many in 0..=FARTHEST {
        for still in [(26, SAME, many), (200, MALFORMED, many)] {
            let to_mastend = [(16, C, 1), (24, D, 1), (25, C, 1), (27, D, 1), (26, C, 1)];
            let on = [still, (24, D, 1), (28, C, 1)];
            assert_told(0, &[&to_mastend[..], &on].concat(), 28);
        }
        for still in [(24, SAME, many), (32, MALFORMED, many)] {
            assert_told(0x20 | 26, &[(24, D, 1), still, (28, C, 1)], 28);
            assert_told(26, &[(24, D, 1), still, (28, UNDEFINED, 1)], LOST);
        }
        for still in [(16, SAME, many), (255, MALFORMED, many)] {
            assert_told(0, &[(16, C, 1), still, (0, C, 1)], 0);
            assert_told(20, &[(16, C, 1), still, (0, UNDEFINED, 1)], 0);
        }
    }
}

#[test]
fn a_follower_is_lost_over_any_number_of_settings() {
    for many in 0..=FARTHEST {
        for setting in [1, 2, 31, 64] {
            let answer = if setting > 31 { MALFORMED } else { STILL_LOST };
            let lost = [(2, UNDEFINED, 1), (setting, answer, many)];
            assert_told(0, &lost, LOST);
            let back = [(0, IDLE_AGAIN, 1), (0, SAME, 1), (16, C, 1), (0, C, 1)];
            assert_told(0, &[&lost[..], &back].concat(), 0);
        }
    }
}
