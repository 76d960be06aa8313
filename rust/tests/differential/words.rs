//! The words of the two sides, and calls that compare them.

use crate::shared::plain;
use crate::shared::random::Random;
use crate::shared::streams::EventOctets;
use crate::tally::Tally;
use pantoglide::{raw, Answer};

/// Answers of so many records have room.
pub const LONGEST_RUN: usize = 40;

/// Everything lent to one side, words beyond those that are needed included.
#[derive(Clone, Debug, PartialEq)]
pub struct Words {
    pub state: Vec<u16>,
    pub sectors: Vec<u16>,
    pub staging: Vec<u16>,
    pub answers: Vec<u16>,
}

/// How many words of each slice are held back from a call.
#[derive(Clone, Copy, Debug, Default)]
pub struct Cut {
    pub state: usize,
    pub sectors: usize,
    pub staging: usize,
    pub answers: usize,
}

pub struct Pair {
    pub proved: Words,
    pub plain: Words,
}

/// The slices that a call is handed.
pub struct Lent<'a> {
    pub state: &'a mut [u16],
    pub sectors: &'a mut [u16],
    pub staging: &'a mut [u16],
    pub answers: &'a mut [u16],
}

fn all_but(words: &mut [u16], held_back: usize) -> &mut [u16] {
    let length = words.len() - held_back;
    &mut words[..length]
}

/// An event or a run at the boundary that both sides have.
type EventCall = fn(&mut [u16], u8, u8, u8, u8, u8, u8, &mut [u16], &mut [u16], &mut [u16]) -> u8;
type RunCall = fn(&mut [u16], &[u8], &mut [u16], &mut [u16], &mut [u16]) -> u8;

impl Words {
    pub fn state(&self) -> &[u16; raw::STATE_WORDS] {
        self.state.first_chunk().expect("a whole state")
    }

    pub fn lend(&mut self, cut: Cut) -> Lent<'_> {
        Lent {
            state: all_but(&mut self.state, cut.state),
            sectors: all_but(&mut self.sectors, cut.sectors),
            staging: all_but(&mut self.staging, cut.staging),
            answers: all_but(&mut self.answers, cut.answers),
        }
    }

    fn event_by(
        &mut self,
        call: EventCall,
        [port, kind, a0, a1, a2, a3]: EventOctets,
        cut: Cut,
    ) -> u8 {
        let lent = self.lend(cut);
        call(
            lent.state,
            port,
            kind,
            a0,
            a1,
            a2,
            a3,
            lent.sectors,
            lent.staging,
            lent.answers,
        )
    }

    fn run_by(&mut self, call: RunCall, records: &[u8], cut: Cut) -> u8 {
        let lent = self.lend(cut);
        call(
            lent.state,
            records,
            lent.sectors,
            lent.staging,
            lent.answers,
        )
    }

    pub fn plain_event(&mut self, event: EventOctets) -> u8 {
        self.event_by(plain::event, event, Cut::default())
    }
}

impl Pair {
    /// Both sides with these words, the answers filled with words of no meaning.
    pub fn new(random: &mut Random, state: Vec<u16>, sectors: Vec<u16>, staging: Vec<u16>) -> Pair {
        let answers = random_words(random, raw::ANSWER_WORDS * LONGEST_RUN + 3);
        let plain = Words {
            state,
            sectors,
            staging,
            answers,
        };
        let proved = plain.clone();
        Pair { proved, plain }
    }

    pub fn state(&self) -> &[u16; raw::STATE_WORDS] {
        self.plain.state()
    }

    pub fn sectors(&self) -> &[u16] {
        &self.plain.sectors
    }

    /// The status of the last answer.
    pub fn status(&self) -> u16 {
        self.plain.answers[1]
    }

    pub fn copy_of_plain(&self) -> Words {
        self.plain.clone()
    }

    pub fn set_state(&mut self, state: [u16; raw::STATE_WORDS]) {
        for side in [&mut self.proved, &mut self.plain] {
            side.state[..raw::STATE_WORDS].copy_from_slice(&state);
        }
    }

    /// Holds back so much of one slice, and now and then of others, that a call with `records`
    /// records finds it too short.
    pub fn slices_cut(&self, random: &mut Random, records: usize) -> Cut {
        let [_, heads, sectors, header, field1, field2, ..] = self.state().map(usize::from);
        let per_sector = header + field1 + field2;
        let all = usize::from(self.state()[0]) * heads * sectors * per_sector;
        let mut shorter = |needed: usize, length: usize| {
            let kept = match random.below(4) {
                0 => random.below(needed.max(1)),
                _ => needed.saturating_sub(1),
            };
            length - kept.min(length)
        };
        let cuts = [
            shorter(raw::STATE_WORDS, self.plain.state.len()),
            shorter(all, self.plain.sectors.len()),
            shorter(per_sector, self.plain.staging.len()),
            shorter(raw::ANSWER_WORDS * records, self.plain.answers.len()),
        ];
        let mut cut = Cut::default();
        let parts = [
            &mut cut.state,
            &mut cut.sectors,
            &mut cut.staging,
            &mut cut.answers,
        ];
        let chosen = random.below(parts.len());
        for (number, (part, shorter)) in parts.into_iter().zip(cuts).enumerate() {
            if number == chosen || random.one_in(8) {
                *part = shorter;
            }
        }
        cut
    }

    /// One event at both sides.
    pub fn event(&mut self, event: EventOctets, cut: Cut, tally: &mut Tally) -> u8 {
        let before = *self.state();
        let answer_before = self.plain.answers[..raw::ANSWER_WORDS].to_vec();
        let returned = self.proved.event_by(raw::event, event, cut);
        let expected = self.plain.event_by(plain::event, event, cut);
        assert_eq!(returned, expected, "{event:?} with {cut:?} at {before:?}");
        self.assert_equal(|| format!("{event:?} with {cut:?} at {before:?}"));
        if returned == 0 {
            assert_answers(&self.plain.answers[..raw::ANSWER_WORDS]);
        } else {
            assert_eq!(*self.state(), before, "refused {event:?}");
            assert_eq!(self.plain.answers[..raw::ANSWER_WORDS], answer_before);
        }
        if self.plain.answers.len() - cut.answers < raw::ANSWER_WORDS {
            tally.short_answer(returned);
        }
        tally.single(&before, event, returned, &self.plain.answers);
        returned
    }

    /// A run at both sides.
    pub fn run(&mut self, records: &[u8], cut: Cut, tally: &mut Tally) {
        let before = self.state().to_vec();
        let returned = self.proved.run_by(raw::run, records, cut);
        let expected = self.plain.run_by(plain::run, records, cut);
        assert_eq!(returned, expected, "{records:?} with {cut:?} at {before:?}");
        self.assert_equal(|| format!("{records:?} with {cut:?} at {before:?}"));
        let answered = if returned == 0 {
            records.len() / raw::RECORD_OCTETS
        } else {
            0
        };
        let answers = &self.plain.answers[..raw::ANSWER_WORDS * answered];
        assert_answers(answers);
        tally.run(returned, answers);
    }

    /// A run must do what so many single events do.
    pub fn assert_drive_equals(&self, alone: &Words) {
        assert_eq!(self.proved.state, alone.state);
        assert_eq!(self.proved.sectors, alone.sectors);
        assert_eq!(self.proved.staging, alone.staging);
    }

    pub fn assert_equal(&self, request: impl Fn() -> String) {
        let (proved, plain) = (&self.proved, &self.plain);
        assert_eq!(proved.state, plain.state, "state after {}", request());
        assert_eq!(proved.answers, plain.answers, "answers to {}", request());
        assert!(
            proved.sectors == plain.sectors,
            "sectors after {}",
            request()
        );
        assert!(
            proved.staging == plain.staging,
            "staging after {}",
            request()
        );
    }
}

/// The wrapper reads what the archive writes.
pub fn assert_answers(words: &[u16]) {
    for words in words.as_chunks().0 {
        assert!(Answer::from_words(words).is_some(), "{words:?}");
    }
}

pub fn random_words(random: &mut Random, count: usize) -> Vec<u16> {
    (0..count).map(|_| random.word()).collect()
}

/// A power-up at both sides with slices of these lengths: sectors, staging, state.
pub fn power_up_pair(random: &mut Random, numbers: &[u16; 7], lengths: [usize; 3]) -> u8 {
    let &[cylinders, heads, sectors, header, field1, field2, address] = numbers;
    let (medium, staging) = (vec![0; lengths[0]], vec![0; lengths[1]]);
    let mut proved = random_words(random, lengths[2]);
    let mut plain = proved.clone();
    let before = proved.clone();
    let returned = raw::power_up(
        cylinders,
        heads,
        sectors,
        header,
        field1,
        field2,
        address,
        &medium,
        &staging,
        &mut proved,
    );
    let expected = plain::power_up(
        cylinders, heads, sectors, header, field1, field2, address, &medium, &staging, &mut plain,
    );
    assert_eq!(returned, expected, "{numbers:?} with {lengths:?}");
    assert_eq!(proved, plain, "{numbers:?} with {lengths:?}");
    if returned != 0 {
        assert_eq!(proved, before, "refused {numbers:?}");
    }
    returned
}
