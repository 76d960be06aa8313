//! Which refusal an event gives where several hold: 10 for a state that is not whole, then 11 for
//! one that is not sound, then 10 for any other slice that is too short, and only then the event's
//! own. The archive and the plain drive are both asked.

use pantoglide::raw::{self, ANSWER_WORDS, STATE_WORDS};
use shared::plain;

#[allow(dead_code, unused_imports)] // the speed program uses the rest
#[path = "../shared/mod.rs"]
mod shared;

const NO_SUCH_PORT: u8 = 1;
const TOO_SHORT: u8 = 10;
const UNSOUND: u8 = 11;

/// The bench drive just powered up.
const SOUND_STATE: [u16; STATE_WORDS] = [
    2, 2, 3, 1, 2, 1, 3, 2, 2, 0, 0, 0, 0, 0xFFFF, 0, 0, 0, 0, 0, 0, 0,
];
/// The same with a hold that is none of the three.
const UNSOUND_STATE: [u16; STATE_WORDS] = [
    2, 2, 3, 1, 2, 1, 3, 2, 2, 3, 0, 0, 0, 0xFFFF, 0, 0, 0, 0, 0, 0, 0,
];

/// How many words of each slice are lent.
#[derive(Clone, Copy, Debug)]
struct Lengths {
    state: usize,
    sectors: usize,
    staging: usize,
    answer: usize,
}

/// What the bench drive needs.
const WHOLE: Lengths = Lengths {
    state: STATE_WORDS,
    sectors: 48,
    staging: 4,
    answer: ANSWER_WORDS,
};

type EventCall = fn(&mut [u16], u8, u8, u8, u8, u8, u8, &mut [u16], &mut [u16], &mut [u16]) -> u8;

const SIDES: [(&str, EventCall); 2] = [("archive", raw::event), ("plain drive", plain::event)];

/// An event that 1 and 8 hold for too is refused with `refusal`, and no word changes.
fn assert_refused(state: &[u16; STATE_WORDS], lent: Lengths, refusal: u8) {
    let (port, kind) = (2, 11);
    for (side, event) in SIDES {
        let before = [
            state.to_vec(),
            vec![5; WHOLE.sectors],
            vec![6; WHOLE.staging],
            vec![7; WHOLE.answer],
        ];
        let mut after = before.clone();
        let [state, sectors, staging, answer] = &mut after;
        let returned = event(
            &mut state[..lent.state],
            port,
            kind,
            0,
            0,
            0,
            0,
            &mut sectors[..lent.sectors],
            &mut staging[..lent.staging],
            &mut answer[..lent.answer],
        );
        assert_eq!(returned, refusal, "{side}, {lent:?}");
        assert_eq!(after, before, "{side}, {lent:?}");
    }
}

/// A whole state, and each choice of the other slices a word too short, but for none.
fn short_slices() -> impl Iterator<Item = Lengths> {
    (1..8).map(|chosen| Lengths {
        state: WHOLE.state,
        sectors: WHOLE.sectors - (chosen & 1),
        staging: WHOLE.staging - (chosen >> 1 & 1),
        answer: WHOLE.answer - (chosen >> 2),
    })
}

#[test]
fn a_state_that_is_not_whole_is_too_short_whatever_else_is_wrong() {
    for state in 0..STATE_WORDS {
        let alone = Lengths { state, ..WHOLE };
        let beside_nothing = Lengths {
            state,
            sectors: 0,
            staging: 0,
            answer: 0,
        };
        for lent in [alone, beside_nothing] {
            assert_refused(&SOUND_STATE, lent, TOO_SHORT);
            assert_refused(&UNSOUND_STATE, lent, TOO_SHORT);
        }
    }
}

#[test]
fn an_unsound_state_with_a_short_answer_is_unsound() {
    for answer in 0..ANSWER_WORDS {
        assert_refused(&UNSOUND_STATE, Lengths { answer, ..WHOLE }, UNSOUND);
    }
    for lent in short_slices().filter(|lent| lent.answer < ANSWER_WORDS) {
        assert_refused(&UNSOUND_STATE, lent, UNSOUND);
    }
}

#[test]
fn an_unsound_state_with_other_short_slices_is_unsound() {
    assert_refused(&UNSOUND_STATE, WHOLE, UNSOUND);
    for lent in short_slices().filter(|lent| lent.answer == ANSWER_WORDS) {
        assert_refused(&UNSOUND_STATE, lent, UNSOUND);
    }
}

#[test]
fn a_sound_state_with_a_short_slice_is_too_short_before_the_event_is_judged() {
    assert_refused(&SOUND_STATE, WHOLE, NO_SUCH_PORT);
    for answer in 0..ANSWER_WORDS {
        assert_refused(&SOUND_STATE, Lengths { answer, ..WHOLE }, TOO_SHORT);
    }
    for lent in short_slices() {
        assert_refused(&SOUND_STATE, lent, TOO_SHORT);
    }
}
