//! The wrapper's replays: a part at a time into lent words, and a capture stretch by stretch.

use bench::BENCH;
use pantoglide::raw::{ANSWER_WORDS, RECORD_OCTETS};
use pantoglide::{selection, Answer, Board, Capture, Event, Refusal, Replayed, Stretch};
use std::num::NonZeroUsize;

mod bench;

const SELECT: Event = Event::Select(selection::address(3));

fn sample() -> &'static [u8] {
    let octets = include_bytes!("../../docs/samples/two-hosts.capture");
    Capture::find(octets).expect("the sample").records()
}

fn of(events: usize) -> NonZeroUsize {
    NonZeroUsize::new(events).expect("a stretch has events")
}

fn on_bench<T>(test: impl FnOnce(&mut Board) -> T) -> T {
    let (mut sectors, mut staging) = ([0; 48], [0; 4]);
    let mut board = Board::power_up(BENCH, &mut sectors, &mut staging).expect("the bench drive");
    test(&mut board)
}

/// The state and the sector and staging words.
fn words(board: &Board) -> [Vec<u16>; 3] {
    [board.state(), board.sectors(), board.staging()].map(<[u16]>::to_vec)
}

#[test]
fn a_replay_needs_no_allocation() {
    let records = [
        SELECT.record(9, 0),
        SELECT.record(5, 1),
        SELECT.record(8, 1),
    ];
    let records = records.as_flattened();
    on_bench(|board| {
        let (mut answers, mut gaps) = ([[0xEEEE; ANSWER_WORDS]; 3], [0xEEEE; 3]);
        let few_answers = board.replay_into(records, 0, 2, &mut answers[..1], &mut gaps);
        assert_eq!(few_answers, Err(Refusal::TooShort));
        let few_gaps = board.replay_into(records, 0, 2, &mut answers, &mut gaps[..1]);
        assert_eq!(few_gaps, Err(Refusal::TooShort));
        let torn = board.replay_into(&records[..20], 0, 2, &mut answers, &mut gaps);
        assert_eq!(torn, Err(Refusal::Malformed));
        assert_eq!((answers, gaps), ([[0xEEEE; ANSWER_WORDS]; 3], [0xEEEE; 3]));

        let first = board.replay_into(records, 0, 2, &mut answers, &mut gaps);
        assert_eq!((first, gaps), (Ok(2), [0, 65532, 0xEEEE]));
        let outcomes = answers.each_ref().map(Answer::from_words);
        let granted = Some(Ok(Answer::default()));
        assert_eq!(outcomes, [granted, Some(Err(Refusal::Busy)), None]);
        let rest = board.replay_into(records, 2, 2, &mut answers[2..], &mut gaps[2..]);
        assert_eq!((rest, gaps[2]), (Ok(1), 3));
        let behind = board.replay_into(records, 3, usize::MAX, &mut [], &mut []);
        assert_eq!(behind, Ok(0));
    });
}

#[test]
fn stretches_end_to_end_are_one_run() {
    let (outcomes, after) = on_bench(|board| {
        let outcomes = board.run(sample()).expect("whole records");
        (outcomes, words(board))
    });
    for events in [1, 2, 5, 12, 24, 25, 26, usize::MAX] {
        on_bench(|board| {
            let mut replayed = Vec::new();
            for stretch in board.replay(sample(), 0, of(events)) {
                let stretch = stretch.expect("whole records");
                assert_eq!(stretch.first, replayed.len());
                let left = 25 - replayed.len();
                assert_eq!(stretch.events.len(), left.min(events), "{events} at most");
                replayed.extend(stretch.events);
            }
            assert!(outcomes
                .iter()
                .eq(replayed.iter().map(|event| &event.outcome)));
            assert_eq!(words(board), after);
            assert!(gaps_of_sample().eq(replayed.iter().map(|event| event.gap)));
        });
    }
}

fn gaps_of_sample() -> impl Iterator<Item = u16> {
    let (records, _) = sample().as_chunks::<RECORD_OCTETS>();
    let tick = |record: &[u8; RECORD_OCTETS]| u16::from_be_bytes([record[0], record[1]]);
    let gap = move |pair: &[[u8; RECORD_OCTETS]]| tick(&pair[1]).wrapping_sub(tick(&pair[0]));
    [0].into_iter().chain(records.windows(2).map(gap))
}

#[test]
fn a_replay_that_was_dropped_goes_on_where_it_stopped() {
    let after = on_bench(|board| {
        board.run(sample()).expect("whole records");
        words(board)
    });
    on_bench(|board| {
        let mut replay = board.replay(sample(), 0, of(5));
        assert_eq!(replay.next_event(), 0);
        assert_eq!(replay.by_ref().take(2).count(), 2);
        let (next, owner) = (replay.next_event(), replay.board().owner());
        assert_eq!((next, owner), (10, Some(1)));
        let rest = board.replay(sample(), next, of(100)).collect::<Vec<_>>();
        let [Ok(stretch)] = &rest[..] else {
            panic!("{rest:?}");
        };
        assert_eq!((stretch.first, stretch.events.len()), (10, 15));
        assert_eq!(words(board), after);
    });
}

#[test]
fn a_stretch_tells_its_events() {
    let records = [SELECT.record(0xFFFF, 0), SELECT.record(1, 1)];
    let stretches = on_bench(|board| {
        let stretches = board.replay(records.as_flattened(), 1, of(3));
        stretches.collect::<Result<Vec<_>, _>>()
    });
    let event = Replayed {
        outcome: Ok(Answer::default()),
        gap: 2,
    };
    let events = vec![event];
    assert_eq!(stretches, Ok(vec![Stretch { first: 1, events }]));
}

#[test]
fn behind_the_last_record_there_is_no_stretch() {
    for from in [25, 26, usize::MAX] {
        on_bench(|board| assert_eq!(board.replay(sample(), from, of(4)).next(), None));
    }
    on_bench(|board| {
        assert_eq!(board.replay(&[], 0, of(1)).next(), None);
        let mut replay = board.replay(sample(), 0, of(25));
        assert!(replay.next().is_some_and(|stretch| stretch.is_ok()));
        for _ in 0..3 {
            assert_eq!(replay.next(), None);
        }
        assert_eq!(replay.next_event(), 25);
    });
}

#[test]
fn records_that_are_not_whole_are_refused_once() {
    for from in [0, 5, 25, usize::MAX] {
        on_bench(|board| {
            let before = words(board);
            let torn = &sample()[..sample().len() - 1];
            let mut replay = board.replay(torn, from, of(3));
            assert_eq!(replay.next(), Some(Err(Refusal::Malformed)));
            for _ in 0..3 {
                assert_eq!(replay.next(), None);
            }
            assert!(format!("{replay:?}").contains("Replay"));
            assert_eq!(words(board), before);
        });
    }
}
