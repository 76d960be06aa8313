//! How often each case of a replayed part was met, so that a comparison that saw little is noticed.

use crate::parts::Part;
use crate::words::Words;
use pantoglide::raw::{ANSWER_WORDS, RECORD_OCTETS};
use std::collections::BTreeMap;
use std::fmt;

const LEAST: usize = 20;
const TOO_SHORT: u16 = 10;
const UNSOUND: u16 = 11;
/// Where 64 bits count octets of records round.
const ROUND: usize = usize::MAX / RECORD_OCTETS;

/// Of parts of which at least one event ran.
const RAN: [&str; 14] = [
    "it began at record 0",
    "it went on behind other records",
    "it stopped before the last record",
    "its limit was at the last record",
    "its limit was past the last record",
    "its limit was the greatest number",
    "its end was past the greatest number",
    "a gap went round past zero",
    "a gap of two events was 0",
    "an event was refused and counted",
    "the state was not sound",
    "the sector or staging words were too short",
    "the answers had room for no event more",
    "the gaps had room for no event more",
];

/// Of parts of which none ran.
const EMPTY: [&str; 5] = [
    "the limit was 0",
    "it began just behind the last record",
    "it began further behind",
    "it began where octets are counted round",
    "it began at the greatest number",
];

/// Of refused parts.
const REFUSED: [&str; 8] = [
    "10: the state alone",
    "10: the state alone, with no event to run",
    "10: the answers alone",
    "10: the gaps alone",
    "10: no room for the count alone",
    "10: while the records are not whole",
    "8: with events to run",
    "8: with no event to run",
];

#[derive(Default)]
pub struct PartsTally {
    events: usize,
    cases: BTreeMap<&'static str, usize>,
}

impl PartsTally {
    pub fn events(&self) -> usize {
        self.events
    }

    /// A part that was replayed, what it returned, and the words before it and after it.
    pub fn note(&mut self, part: &Part, returned: u8, before: &Words, after: &Words) {
        if returned != 0 {
            self.count(&REFUSED, &refused(part, before));
        } else if part.runs() == 0 {
            self.count(&EMPTY, &empty(part));
        } else {
            self.events += part.runs();
            self.count(&RAN, &ran(part, before, after));
        }
    }

    fn count(&mut self, names: &[&'static str], are_met: &[bool]) {
        for (name, is_met) in names.iter().zip(are_met) {
            *self.cases.entry(name).or_default() += usize::from(*is_met);
        }
    }

    pub fn assert_all_occurred(&self) {
        for name in RAN.iter().chain(&EMPTY).chain(&REFUSED) {
            let times = self.cases.get(name).copied().unwrap_or(0);
            assert!(times >= LEAST, "{times} times only: {name}");
        }
    }
}

/// Which of `RAN` it showed.
fn ran(part: &Part, before: &Words, after: &Words) -> [bool; RAN.len()] {
    let (runs, to_come) = (part.runs(), part.to_come());
    let steps = steps(part);
    let answers = after.answers.chunks(ANSWER_WORDS).take(runs);
    let refusals = answers.map(|answer| answer[0]).collect::<Vec<_>>();
    [
        part.from == 0,
        part.from > 0,
        runs < to_come,
        part.limit == to_come,
        part.limit > to_come,
        part.limit == usize::MAX,
        part.from.checked_add(part.limit).is_none(),
        steps.iter().any(|(earlier, later)| later < earlier),
        steps.iter().any(|(earlier, later)| later == earlier),
        refusals.iter().any(|refusal| (1..=8).contains(refusal)),
        refusals[0] == UNSOUND,
        refusals[0] == TOO_SHORT,
        part.spare_answers(before) == Some(0),
        part.spare_gaps() == Some(0),
    ]
}

/// The ticks of every event that ran, record 0 left out, behind that of its neighbour.
fn steps(part: &Part) -> Vec<(u16, u16)> {
    let records = part.records.chunks_exact(RECORD_OCTETS);
    let ticks = records.map(|record| u16::from_be_bytes([record[0], record[1]]));
    let ticks = ticks.collect::<Vec<_>>();
    let run = part.from.max(1)..part.from + part.runs();
    run.map(|at| (ticks[at - 1], ticks[at])).collect()
}

/// Which of `EMPTY` it showed.
fn empty(part: &Part) -> [bool; EMPTY.len()] {
    let records = part.records.len() / RECORD_OCTETS;
    [
        part.limit == 0 && part.to_come() > 0,
        part.from == records && part.limit > 0,
        part.from > records && part.from < ROUND,
        part.from > ROUND && part.from < usize::MAX,
        part.from == usize::MAX,
    ]
}

/// Which of `REFUSED` it showed.
fn refused(part: &Part, before: &Words) -> [bool; REFUSED.len()] {
    let short = [
        part.has_short_state(before),
        part.spare_answers(before).is_none(),
        part.spare_gaps().is_none(),
        part.ran == 0,
    ];
    let is_idle = part.runs() == 0;
    [
        short == [true, false, false, false],
        short == [true, false, false, false] && is_idle,
        short == [false, true, false, false],
        short == [false, false, true, false],
        short == [false, false, false, true],
        short != [false; 4] && part.is_torn(),
        short == [false; 4] && !is_idle,
        short == [false; 4] && is_idle,
    ]
}

impl fmt::Display for PartsTally {
    fn fmt(&self, out: &mut fmt::Formatter<'_>) -> fmt::Result {
        writeln!(out, "{} events of replays", self.events)?;
        for (case, count) in &self.cases {
            writeln!(out, "{case}: {count}")?;
        }
        Ok(())
    }
}
