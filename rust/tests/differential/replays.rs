//! Parts of captures replayed (request M-103): captures cut at random, and now and then a place
//! that nobody would ask for, slices that are too short, records that are not whole, and states
//! that no drive came to.

use crate::events_to_compare;
use crate::parts::{Part, MOST_GAPS};
use crate::parts_tally::PartsTally;
use crate::setups::{odd_state, powered_up};
use crate::shared::random::Random;
use crate::stream::Stream;
use crate::words::{Cut, Pair};
use pantoglide::raw::{ANSWER_WORDS, RECORD_OCTETS};

const LONGEST_CAPTURE: usize = MOST_GAPS;
const CALLS_A_CAPTURE: usize = 12;
/// Records at this index would lie where 64 bits count octet 0 again.
const FIRST_AGAIN: usize = 1 << 61;

#[test]
fn replays_agree() {
    let mut random = Random::new(0x103);
    let mut tally = PartsTally::default();
    let wanted = events_to_compare();
    while tally.events() < wanted {
        let (mut pair, _) = powered_up(&mut random);
        replay_in_parts(&mut random, &mut pair, &mut tally);
    }
    println!("{tally}");
    tally.assert_all_occurred();
}

/// One capture in some calls, each of which goes on where the last one stopped, but for those that
/// ask for something odd.
fn replay_in_parts(random: &mut Random, pair: &mut Pair, tally: &mut PartsTally) {
    let events = random.below(LONGEST_CAPTURE);
    let mut stream = Stream::likely(random, pair, events);
    if random.one_in(8) {
        stream.tear(random);
    }
    let mut next = 0;
    for _ in 0..CALLS_A_CAPTURE {
        if random.one_in(4) {
            at_odd_state(random, pair, &stream.records, next, tally);
        }
        let from = if random.one_in(4) {
            odd_index(random, events)
        } else {
            next
        };
        let part = likely_part(random, pair, &stream.records, from);
        let ran = part.replay(pair, tally);
        if from == next {
            next += ran;
        }
    }
}

fn at_odd_state(
    random: &mut Random,
    pair: &mut Pair,
    records: &[u8],
    from: usize,
    tally: &mut PartsTally,
) {
    let saved = *pair.state();
    pair.set_state(odd_state(random, &saved));
    likely_part(random, pair, records, from).replay(pair, tally);
    pair.set_state(saved);
}

/// Any index of a record, or one that is none.
fn odd_index(random: &mut Random, events: usize) -> usize {
    let any = random.below(events + 1);
    let numbers = [
        0,
        any,
        events,
        events + 1,
        events + any,
        FIRST_AGAIN,
        FIRST_AGAIN + any,
        usize::MAX - any,
        usize::MAX,
    ];
    random.pick(&numbers)
}

/// Before the last record, at it or past it.
fn likely_limit(random: &mut Random, from: usize, to_come: usize) -> usize {
    let any = random.below(to_come + 1);
    let numbers = [
        0,
        1,
        any,
        any / 4,
        any / 8,
        to_come,
        to_come + 1,
        FIRST_AGAIN + any,
        usize::MAX,
        // So much that the end of the part, counted in 64 bits, is at 0 or at `any`.
        from.wrapping_neg(),
        any.wrapping_sub(from),
    ];
    random.pick(&numbers)
}

fn likely_part<'a>(random: &mut Random, pair: &Pair, records: &'a [u8], from: usize) -> Part<'a> {
    let to_come = (records.len() / RECORD_OCTETS).saturating_sub(from);
    let limit = likely_limit(random, from, to_come);
    let runs = limit.min(to_come);
    let room = pair.plain.answers.len();
    Part {
        records,
        from,
        limit,
        cut: match random.below(8) {
            0 => pair.slices_cut(random, runs),
            1 => Cut {
                answers: room.saturating_sub(ANSWER_WORDS * runs),
                ..Cut::default()
            },
            _ => Cut::default(),
        },
        gaps: match random.below(8) {
            0 => random.below(runs + 1),
            1 => runs,
            2 => runs.saturating_sub(1),
            _ => LONGEST_CAPTURE,
        },
        ran: random.pick(&[0, 1, 1, 1, 1, 1, 1, 2, 2, 3]),
    }
}
