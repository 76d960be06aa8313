//! The line follower: every state and setting against the plain list of moves, which states traces
//! reach, and worked traces by the wrapper's calls. `tests/traces` has the readers of whole traces.

use pantoglide::{raw, Follower, Move, Refusal};
use shared::plain;
use std::collections::BTreeSet;

#[allow(dead_code, unused_imports)] // the speed program uses the rest
#[path = "../shared/mod.rs"]
mod shared;

#[test]
fn agrees_with_the_list_of_moves_everywhere() {
    for octet in 0..=255 {
        for setting in 0..=255 {
            for length in 0..3 {
                let mut proved = [octet, 0xA5, 0x5A];
                let mut plain = proved;
                let returned = raw::line(&mut proved[..length], setting);
                assert_eq!(returned, plain::line(&mut plain[..length], setting));
                assert_eq!(proved, plain, "follower {octet:#x}, setting {setting}");
                assert_eq!(proved[1..], [0xA5, 0x5A], "an octet beyond the follower's");
            }
        }
    }
}

#[test]
fn accepts_exactly_the_states_that_traces_reach() {
    let mut reached = BTreeSet::from([0]);
    let mut waiting = vec![0];
    while let Some(octet) = waiting.pop() {
        for setting in 0..=31 {
            let mut follower = Follower::from_octet(octet);
            follower.line(setting).expect("a reached state is accepted");
            if reached.insert(follower.octet()) {
                waiting.push(follower.octet());
            }
        }
    }
    assert_eq!(reached.len(), 18);
    for octet in 0..=255 {
        let refused = Follower::from_octet(octet).line(0) == Err(Refusal::Unsound);
        assert_eq!(refused, !reached.contains(&octet), "follower {octet:#x}");
    }
}

/// The answers to a trace from the start, the same by single settings and by both readers.
fn trace(settings: &[u8]) -> Vec<Move> {
    let mut follower = Follower::default();
    let moves = settings.iter().map(|&setting| follower.line(setting));
    let moves = moves.collect::<Result<Vec<_>, _>>();
    for follow in [Follower::follow, Follower::follow_plainly] {
        let (mut reader, mut answers) = (Follower::default(), vec![0; settings.len()]);
        assert_eq!(follow(&mut reader, settings, &mut answers), Ok(()));
        let told = answers.into_iter().map(Move::from_answer);
        assert_eq!(told.collect::<Result<Vec<_>, _>>(), moves);
        assert_eq!(reader, follower);
    }
    moves.expect("settings up to 31")
}

#[test]
fn follows_a_word_from_selection_to_rest() {
    use Move::{Controllers, Drives, Same};
    let settings = [
        16, 24, 25, 27, 26, 24, 24, 28, 30, 31, 29, 28, 20, 16, 24, 8, 0,
    ];
    let sides = [
        Controllers,
        Drives,
        Controllers,
        Drives,
        Controllers,
        Drives,
        Same,
        Controllers,
        Drives,
        Controllers,
        Drives,
        Controllers,
        Drives,
        Controllers,
        Drives,
        Controllers,
        Drives,
    ];
    assert_eq!(trace(&settings), sides);
}

#[test]
fn refuses_the_moves_of_the_bench_cases() {
    let last = |settings: &[u8]| trace(settings).pop();
    assert_eq!(last(&[16, 24, 25, 24]), Some(Move::Undefined));
    assert_eq!(
        last(&[16, 24, 25, 27, 26, 24, 28, 24]),
        Some(Move::Undefined)
    );
    assert_eq!(
        last(&[16, 24, 28]),
        Some(Move::Undefined),
        "straight after selection"
    );
    assert_eq!(last(&[16, 0]), Some(Move::Controllers));
    let back_at_select = [16, 24, 25, 27, 26, 24, 28, 20, 16, 0];
    assert_eq!(last(&back_at_select), Some(Move::Undefined));
}

#[test]
fn finds_back_from_lost_by_idle_alone() {
    use Move::{Idle, Lost, Same, Undefined};
    assert_eq!(
        trace(&[2, 2, 16, 0, 0]),
        [Undefined, Lost, Lost, Idle, Same]
    );
    let mut follower = Follower::default();
    assert_eq!(follower.line(32), Err(Refusal::Malformed));
    assert_eq!(follower, Follower::default());
}

#[test]
fn a_trace_needs_room_for_its_answers() {
    for follow in [Follower::follow, Follower::follow_plainly] {
        let (mut follower, mut answers) = (Follower::default(), [0xEE; 3]);
        let returned = follow(&mut follower, &[16, 24, 25, 27], &mut answers);
        assert_eq!(returned, Err(Refusal::TooShort));
        assert_eq!((follower, answers), (Follower::default(), [0xEE; 3]));
        assert_eq!(follow(&mut follower, &[16, 40], &mut answers), Ok(()));
        assert_eq!((follower.octet(), answers), (0x30, [17, 8, 0xEE]));
    }
}

#[test]
fn a_refused_setting_is_an_answer() {
    for follow in [Follower::follow, Follower::follow_plainly] {
        let (mut unreached, mut answers) = (Follower::from_octet(2), [0; 2]);
        assert_eq!(follow(&mut unreached, &[0, 40], &mut answers), Ok(()));
        assert_eq!(answers.map(Move::from_answer), [Err(Refusal::Unsound); 2]);
        assert_eq!(unreached, Follower::from_octet(2));
    }
    assert_eq!(Move::from_answer(8), Err(Refusal::Malformed));
    for octet in 0..=255 {
        let number = Move::from_answer(octet).map(|told| told as u8);
        let is_move = (16..=21).contains(&octet);
        assert_eq!(number.ok(), is_move.then_some(octet));
    }
}
