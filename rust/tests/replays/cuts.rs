//! Cut replays put end to end, against one uncut run.

use crate::shared::random::Random;
use crate::shared::streams::{likely_event, record};
use crate::{Drive, BEFORE};
use pantoglide::raw::{ANSWER_WORDS, RECORD_OCTETS};
use pantoglide::{Board, Capture};

fn sample() -> &'static [u8] {
    let octets = include_bytes!("../../../docs/samples/two-hosts.capture");
    Capture::find(octets).expect("the sample").records()
}

/// By another way than going round: what must be added to the earlier tick, in 17 bits.
fn expected_gaps(records: &[u8]) -> Vec<u16> {
    let ticks = records.chunks(RECORD_OCTETS);
    let ticks = ticks.map(|record| 256 * u32::from(record[0]) + u32::from(record[1]));
    let ticks = ticks.collect::<Vec<_>>();
    let gaps = ticks.windows(2).map(|pair| match (pair[0], pair[1]) {
        (earlier, later) if earlier <= later => later - earlier,
        (earlier, later) => later + 0x1_0000 - earlier,
    });
    let first = ticks.first().map(|_| 0);
    let gaps = first.into_iter().chain(gaps);
    gaps.map(|gap| gap as u16).collect()
}

/// Replays parts of these lengths, then the rest, and compares all with one run.
fn assert_uncut(start: &Drive, records: &[u8], parts: &[usize]) {
    let mut drive = start.clone();
    let (mut answers, mut gaps) = (Vec::new(), Vec::new());
    for &limit in parts.iter().chain([&usize::MAX]) {
        let part = drive.part(records, gaps.len(), limit);
        answers.extend(part.0);
        gaps.extend(part.1);
    }
    let mut uncut = start.clone();
    assert_eq!(answers, uncut.run(records), "cut into {parts:?}");
    assert_eq!(drive, uncut, "cut into {parts:?}");
    assert_eq!(gaps, expected_gaps(records), "cut into {parts:?}");
}

#[test]
fn the_sample_cut_anywhere_is_the_sample_uncut() {
    let start = Drive::bench();
    let events = sample().len() / RECORD_OCTETS;
    assert_eq!(events, 25);
    assert_uncut(&start, sample(), &[]);
    for first in 0..=events + 1 {
        assert_uncut(&start, sample(), &[first]);
        for second in 0..=events - first.min(events) {
            assert_uncut(&start, sample(), &[first, second]);
        }
    }
}

#[test]
fn the_sample_in_equal_stretches_is_the_sample_uncut() {
    for stretch in 1..=26 {
        assert_uncut(&Drive::bench(), sample(), &[stretch; 26]);
    }
}

/// Records that get far from power-up on, with ticks at random, and the drive that they begin at.
fn random_records(random: &mut Random, events: usize) -> (Drive, Vec<u8>) {
    let mut start = Drive::bench();
    for word in start.sectors.iter_mut().chain(&mut start.staging) {
        *word = random.word() & 3;
    }
    let mut ahead = start.clone();
    let state = *start.state.first_chunk().expect("a whole state");
    let mut board = Board::from_state(state, &mut ahead.sectors, &mut ahead.staging);
    let mut records = Vec::new();
    for _ in 0..events {
        let event = likely_event(random, board.state(), board.sectors());
        let [port, kind, arguments @ ..] = event;
        // A refused event is a record too.
        let _ = board.event_octets(port, kind, arguments);
        records.extend(record(random.word(), event));
    }
    (start, records)
}

#[test]
fn random_cuts_of_random_events_are_the_events_uncut() {
    let mut random = Random::new(0xC07);
    let mut refused = 0;
    for _ in 0..2_000 {
        let events = random.below(60);
        let (start, records) = random_records(&mut random, events);
        let longest = random.pick(&[2, 5, 30]);
        let parts = (0..random.below(20)).map(|_| random.below(longest));
        assert_uncut(&start, &records, &parts.collect::<Vec<_>>());
        refused += refusals(&start, &records);
    }
    assert!(refused > 1_000, "{refused} refused events are few");
}

fn refusals(start: &Drive, records: &[u8]) -> usize {
    let answers = start.clone().run(records);
    assert!(!answers.contains(&BEFORE), "an answer for every record");
    let numbers = answers.chunks(ANSWER_WORDS).map(|answer| answer[0]);
    numbers.filter(|&number| number != 0).count()
}
