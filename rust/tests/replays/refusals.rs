//! Replays that are refused, which changes nothing, and the order of the refusals.

use crate::{Drive, Told};
use pantoglide::raw::{ANSWER_WORDS, STATE_WORDS};
use pantoglide::Event;

const MALFORMED: u8 = 8;
const TOO_SHORT: u8 = 10;
const EVENTS: usize = 4;

fn whole() -> Vec<u8> {
    [3, 5, 8, 12]
        .map(|tick| Event::Reset.record(tick, 1))
        .concat()
}

fn torn() -> Vec<u8> {
    [&whole()[..], &[0; 7]].concat()
}

fn assert_refused(
    records: &[u8],
    [from, limit]: [usize; 2],
    refusal: u8,
    cut: impl Fn(&mut Drive, &mut Told),
) {
    let (mut drive, mut told) = (Drive::bench(), Told::room_for(EVENTS));
    cut(&mut drive, &mut told);
    let before = (drive.clone(), told.clone());
    let returned = drive.replay(records, from, limit, &mut told);
    assert_eq!(returned, refusal, "from {from}, at most {limit}");
    assert_eq!((drive, told), before, "from {from}, at most {limit}");
}

/// Parts of which one, two and no event would run.
const PARTS: [[usize; 2]; 5] = [[3, 9], [1, 2], [0, 0], [4, 1], [9, 9]];

#[test]
fn a_state_that_is_not_whole_is_10_also_where_nothing_would_run() {
    for records in [whole(), torn(), vec![]] {
        for part in PARTS {
            for length in [0, STATE_WORDS - 1] {
                assert_refused(&records, part, TOO_SHORT, |drive, _| {
                    drive.state.truncate(length);
                });
            }
        }
    }
}

#[test]
fn no_room_for_the_count_is_10_also_where_nothing_would_run() {
    for records in [whole(), torn(), vec![]] {
        for part in PARTS {
            assert_refused(&records, part, TOO_SHORT, |_, told| told.ran.clear());
        }
    }
}

#[test]
fn room_is_needed_for_the_events_that_run_and_no_more() {
    for (part, runs) in [([0, 9], 4), ([1, 2], 2), ([3, 9], 1)] {
        for records in [whole(), torn()] {
            assert_refused(&records, part, TOO_SHORT, |_, told| {
                told.answers.truncate(ANSWER_WORDS * runs - 1);
            });
            assert_refused(&records, part, TOO_SHORT, |_, told| {
                told.gaps.truncate(runs - 1);
            });
        }
        let [from, limit] = part;
        let mut told = Told::room_for(runs);
        told.ran.truncate(1);
        assert_eq!(Drive::bench().replay(&whole(), from, limit, &mut told), 0);
        assert_eq!(told.ran, [runs as u64]);
    }
}

#[test]
fn where_nothing_runs_no_room_is_needed() {
    for [from, limit] in [[0, 0], [4, 1], [9, usize::MAX]] {
        let mut told = Told::room_for(0);
        assert_eq!(Drive::bench().replay(&whole(), from, limit, &mut told), 0);
        assert_eq!(told.ran[0], 0);
    }
}

#[test]
fn records_that_are_not_whole_are_8_behind_every_10() {
    for octets in 0..torn().len() {
        if octets % 8 != 0 {
            for part in PARTS {
                let records = &torn()[..octets];
                assert_refused(records, part, MALFORMED, |_, _| {});
                assert_refused(records, part, TOO_SHORT, |drive, told| {
                    drive.state.pop();
                    told.gaps.clear();
                });
            }
        }
    }
}

/// The whole records alone count where room is asked for.
#[test]
fn a_part_of_a_record_asks_for_no_room() {
    assert_refused(&torn(), [0, 9], MALFORMED, |_, told| {
        assert_eq!(told.gaps.len(), EVENTS);
    });
    assert_refused(&torn()[32..], [0, 9], MALFORMED, |_, told| {
        told.answers.clear();
        told.gaps.clear();
    });
}
