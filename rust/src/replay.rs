//! A capture replayed stretch by stretch.

use crate::raw::{ANSWER_WORDS, RECORD_OCTETS};
use crate::{Answer, Board, Outcome, Refusal};
use alloc::vec::Vec;
use core::iter::FusedIterator;
use core::num::NonZeroUsize;

/// One event of a replay.
#[derive(Clone, Copy, Debug, PartialEq, Eq)]
pub struct Replayed {
    /// What the event came to.
    pub outcome: Outcome,
    /// Its tick less that of the record before it, going round past zero; 0 for the capture's first
    /// record, which has none before it.
    pub gap: u16,
}

/// Events of a replay that ran one after another, at least one.
#[derive(Clone, Debug, PartialEq, Eq)]
pub struct Stretch {
    /// The index of the first of them in the capture, counted from 0.
    pub first: usize,
    /// Each of them, refused ones too.
    pub events: Vec<Replayed>,
}

/// Replays a capture stretch by stretch, as [`Board::replay`] says. A stretch runs when it is asked
/// for, so who drops this stops the replay, and may go on later at
/// [`next_event`](Replay::next_event).
#[derive(Debug)]
#[must_use = "a stretch runs when it is asked for, and not before"]
pub struct Replay<'b, 'a> {
    board: &'b mut Board<'a>,
    records: &'b [u8],
    next_event: usize,
    stretch: NonZeroUsize,
}

impl<'a> Board<'a> {
    /// The records of a capture from the one with index `from` on, in stretches of `stretch` events
    /// of which only the last may be shorter. `stretch` cannot be 0, since stretches without events
    /// would never get to the end.
    ///
    /// ```
    /// use pantoglide::{selection, Board, Event, Refusal, Setup};
    /// use std::num::NonZeroUsize;
    ///
    /// # let setup = Setup { cylinders: 2, heads: 2, sectors: 3, header: 1, field1: 2, field2: 1, address: 3 };
    /// # let (mut sectors, mut staging) = ([0; 48], [0; 4]);
    /// # let mut board = Board::power_up(setup, &mut sectors, &mut staging)?;
    /// let select = Event::Select(selection::address(3));
    /// let deselect = Event::Deselect;
    /// let records = [select.record(0xFFFE, 0), select.record(3, 1), deselect.record(3, 0)];
    /// let two = NonZeroUsize::new(2).expect("two is not zero");
    /// let mut gaps = Vec::new();
    /// for stretch in board.replay(records.as_flattened(), 0, two) {
    ///     gaps.extend(stretch?.events.iter().map(|event| event.gap));
    /// }
    /// assert_eq!(gaps, [0, 5, 0]);
    /// assert_eq!(board.owner(), None);
    /// # Ok::<(), Refusal>(())
    /// ```
    ///
    /// All stretches end to end are one uncut run. There are none where `from` is past the last
    /// record. Records that are not whole give one [`Refusal::Malformed`], before anything runs,
    /// and nothing after it; there is no other refusal, since that of an event is its outcome.
    pub fn replay<'b>(
        &'b mut self,
        records: &'b [u8],
        from: usize,
        stretch: NonZeroUsize,
    ) -> Replay<'b, 'a> {
        Replay {
            board: self,
            records,
            next_event: from,
            stretch,
        }
    }
}

impl<'a> Replay<'_, 'a> {
    /// The index of the first event that has not run: where another replay goes on.
    pub fn next_event(&self) -> usize {
        self.next_event
    }

    /// The drive as the stretches so far have left it.
    pub fn board(&self) -> &Board<'a> {
        self.board
    }

    /// Runs the next stretch, which is empty behind the last record.
    fn run_stretch(&mut self) -> Result<Stretch, Refusal> {
        let first = self.next_event;
        let to_come = (self.records.len() / RECORD_OCTETS).saturating_sub(first);
        let limit = to_come.min(self.stretch.get());
        let mut answers = alloc::vec![[0; ANSWER_WORDS]; limit];
        let mut gaps = alloc::vec![0; limit];
        let ran = self
            .board
            .replay_into(self.records, first, limit, &mut answers, &mut gaps)?;
        self.next_event += ran;
        let outcomes = answers.iter().map(Answer::told_by);
        let events = outcomes.zip(gaps).take(ran);
        let events = events.map(|(outcome, gap)| Replayed { outcome, gap });
        Ok(Stretch {
            first,
            events: events.collect(),
        })
    }
}

impl Iterator for Replay<'_, '_> {
    type Item = Result<Stretch, Refusal>;

    fn next(&mut self) -> Option<Self::Item> {
        let stretch = self.run_stretch();
        if stretch.is_err() {
            // So that the refusal is given once.
            self.records = &[];
        }
        let is_over = stretch
            .as_ref()
            .is_ok_and(|stretch| stretch.events.is_empty());
        (!is_over).then_some(stretch)
    }
}

impl FusedIterator for Replay<'_, '_> {}
