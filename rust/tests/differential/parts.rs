//! One replay of a part of a capture at both sides.

use crate::parts_tally::PartsTally;
use crate::shared::plain::{self, ReplayCall};
use crate::words::{assert_answers, Cut, Pair, Words, LONGEST_RUN};
use pantoglide::raw::{self, ANSWER_WORDS, RECORD_OCTETS, STATE_WORDS};

const MALFORMED: u8 = 8;
const TOO_SHORT: u8 = 10;
/// What stands in the gaps and in `ran` before a call.
const NO_GAP: u16 = 0xEEEE;
const NO_COUNT: u64 = 0xEEEE_EEEE_EEEE_EEEE;
pub const MOST_GAPS: usize = 2 * LONGEST_RUN;
const MOST_COUNTS: usize = 3;

/// What is asked for: of which records, where from, how many, and what is lent beside the words of
/// the drive.
#[derive(Debug)]
pub struct Part<'a> {
    pub records: &'a [u8],
    pub from: usize,
    pub limit: usize,
    pub cut: Cut,
    /// Words lent for gaps.
    pub gaps: usize,
    /// Numbers lent for the count of events.
    pub ran: usize,
}

/// What a replay tells beside the answers, words that were not lent included.
#[derive(Clone, Debug, PartialEq)]
struct Told {
    gaps: [u16; MOST_GAPS],
    ran: [u64; MOST_COUNTS],
}

const NOTHING_TOLD: Told = Told {
    gaps: [NO_GAP; MOST_GAPS],
    ran: [NO_COUNT; MOST_COUNTS],
};

impl Part<'_> {
    /// Replays it at both sides, and hands back how many events ran.
    pub fn replay(&self, pair: &mut Pair, tally: &mut PartsTally) -> usize {
        let before = pair.plain.clone();
        let (mut proved, mut plain) = (NOTHING_TOLD, NOTHING_TOLD);
        let returned = self.replay_by(raw::replay, &mut pair.proved, &mut proved);
        let expected = self.replay_by(plain::replay, &mut pair.plain, &mut plain);
        assert_eq!(returned, expected, "{self:?} at {:?}", before.state);
        assert_eq!(proved, plain, "{self:?} at {:?}", before.state);
        pair.assert_equal(|| format!("{self:?} at {:?}", before.state));
        assert_eq!(returned, self.refusal(&before), "{self:?}");
        if returned != 0 {
            assert!(pair.proved == before, "refused {self:?}");
            assert_eq!(proved, NOTHING_TOLD, "refused {self:?}");
        } else {
            self.assert_written(&before, &pair.proved, &proved);
        }
        tally.note(self, returned, &before, &pair.proved);
        if returned == 0 {
            self.runs()
        } else {
            0
        }
    }

    fn replay_by(&self, call: ReplayCall, words: &mut Words, told: &mut Told) -> u8 {
        let lent = words.lend(self.cut);
        call(
            lent.state,
            self.records,
            self.from,
            self.limit,
            lent.sectors,
            lent.staging,
            lent.answers,
            &mut told.gaps[..self.gaps],
            &mut told.ran[..self.ran],
        )
    }

    /// The count and no other, and not a word behind those of the events that ran.
    fn assert_written(&self, before: &Words, after: &Words, told: &Told) {
        let runs = self.runs();
        let mut ran = [NO_COUNT; MOST_COUNTS];
        ran[0] = runs as u64;
        assert_eq!(told.ran, ran, "{self:?}");
        let behind = ANSWER_WORDS * runs;
        assert_eq!(after.answers[behind..], before.answers[behind..]);
        assert_eq!(told.gaps[runs..], NOTHING_TOLD.gaps[runs..]);
        assert_answers(&after.answers[..behind]);
    }

    /// How many records there are from `from` on.
    pub fn to_come(&self) -> usize {
        self.records
            .chunks_exact(RECORD_OCTETS)
            .skip(self.from)
            .count()
    }

    /// How many events run unless it is refused.
    pub fn runs(&self) -> usize {
        let records = self.records.chunks_exact(RECORD_OCTETS);
        records.skip(self.from).take(self.limit).count()
    }

    pub fn is_torn(&self) -> bool {
        !self.records.len().is_multiple_of(RECORD_OCTETS)
    }

    pub fn has_short_state(&self, before: &Words) -> bool {
        before.state.len() - self.cut.state < STATE_WORDS
    }

    /// By how many words the answers are longer than they have to be, if they are long enough.
    pub fn spare_answers(&self, before: &Words) -> Option<usize> {
        let lent = before.answers.len() - self.cut.answers;
        lent.checked_sub(ANSWER_WORDS * self.runs())
    }

    pub fn spare_gaps(&self) -> Option<usize> {
        self.gaps.checked_sub(self.runs())
    }

    fn refusal(&self, before: &Words) -> u8 {
        if self.has_short_state(before)
            || self.spare_answers(before).is_none()
            || self.spare_gaps().is_none()
            || self.ran == 0
        {
            TOO_SHORT
        } else if self.is_torn() {
            MALFORMED
        } else {
            0
        }
    }
}
