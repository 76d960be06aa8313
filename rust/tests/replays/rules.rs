//! What the request says, case by case.

use crate::Drive;
use pantoglide::raw::ANSWER_WORDS;
use pantoglide::{selection, Event};

const BUSY: u16 = 6;
const TOO_SHORT: u16 = 10;
const UNSOUND: u16 = 11;
const HOLD: usize = 9;

/// Resets of port 0, which are always accepted, at these ticks.
fn resets(ticks: &[u16]) -> Vec<u8> {
    let records = ticks.iter().map(|&tick| Event::Reset.record(tick, 0));
    records.collect::<Vec<_>>().concat()
}

fn refusals(answers: &[u16]) -> Vec<u16> {
    let answers = answers.chunks(ANSWER_WORDS);
    answers.map(|answer| answer[0]).collect()
}

#[test]
fn a_limit_of_0_runs_nothing() {
    let records = resets(&[7, 8, 9]);
    for from in [0, 1, 3, 4, usize::MAX] {
        let mut drive = Drive::bench();
        let told = drive.part(&records, from, 0);
        assert_eq!(told, (vec![], vec![]));
        assert_eq!(drive, Drive::bench());
    }
}

#[test]
fn past_the_last_record_nothing_runs() {
    let records = resets(&[7, 8, 9]);
    // Of these, the last but one is at octet 8 if 64 bits count the octets.
    for from in [3, 4, 1000, (1 << 61) + 1, usize::MAX] {
        for limit in [0, 1, 3, usize::MAX - 2, usize::MAX] {
            let mut drive = Drive::bench();
            assert_eq!(drive.part(&records, from, limit), (vec![], vec![]));
            assert_eq!(drive, Drive::bench());
            assert_eq!(drive.part(&[], from, limit), (vec![], vec![]));
        }
    }
}

#[test]
fn refused_events_are_counted() {
    let select = Event::Select(selection::address(3));
    let ports = [0, 1, 1, 1, 0].map(|port| select.record(0, port));
    let (answers, gaps) = Drive::bench().part(ports.as_flattened(), 0, 4);
    assert_eq!(refusals(&answers), [0, BUSY, BUSY, BUSY]);
    assert_eq!(gaps, [0; 4]);
}

#[test]
fn record_0_has_the_gap_0_whatever_its_tick() {
    for tick in [0, 1, 5, 0x8000, 0xFFFF] {
        let records = resets(&[tick, tick]);
        let (_, gaps) = Drive::bench().part(&records, 0, 1);
        assert_eq!(gaps, [0]);
    }
}

#[test]
fn a_gap_goes_round_past_zero() {
    let ticks = [5, 3, 0xFFFF, 1, 1, 0x8001, 0, 0xFFFF];
    let gaps = [0, 65534, 0xFFFC, 2, 0, 0x8000, 0x7FFF, 0xFFFF];
    assert_eq!(Drive::bench().part(&resets(&ticks), 0, 8).1, gaps);
}

/// Each call runs one event, so that the neighbour is always one of an earlier call.
#[test]
fn a_gap_reaches_back_before_the_call() {
    for (earlier, later, gap) in [(5, 3, 65534), (0xFFFF, 1, 2), (3, 5, 2), (9, 9, 0)] {
        let records = resets(&[0x1234, earlier, later]);
        let mut drive = Drive::bench();
        drive.part(&records, 0, 1);
        drive.part(&records, 1, 1);
        assert_eq!(drive.part(&records, 2, 1).1, [gap], "{earlier} to {later}");
    }
}

/// The neighbour counts also where no call has run it.
#[test]
fn a_gap_is_that_of_the_records_wherever_a_replay_begins() {
    let records = resets(&[10, 30, 60, 100]);
    assert_eq!(Drive::bench().part(&records, 2, 2).1, [30, 40]);
    assert_eq!(Drive::bench().part(&records, 1, 2).1, [20, 30]);
}

/// Two of three events, each answered with a number that the drive alone decides.
fn assert_every_answer(mut drive: Drive, number: u16) {
    let before = drive.clone();
    let (answers, gaps) = drive.part(&resets(&[1, 2, 4]), 1, 2);
    assert_eq!(refusals(&answers), [number; 2]);
    assert_eq!(gaps, [1, 2]);
    assert_eq!(drive, before);
}

#[test]
fn a_state_that_is_not_sound_is_told_event_by_event() {
    let mut drive = Drive::bench();
    drive.state[HOLD] = 3;
    assert_every_answer(drive, UNSOUND);
}

#[test]
fn too_few_words_of_the_drive_are_told_event_by_event() {
    for (sectors, staging) in [(47, 4), (48, 3), (0, 0)] {
        let mut drive = Drive::bench();
        drive.sectors.truncate(sectors);
        drive.staging.truncate(staging);
        assert_every_answer(drive, TOO_SHORT);
    }
}
