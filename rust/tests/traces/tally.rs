//! How often each case of a trace was met, so that a comparison that saw little is noticed.

use crate::answers::{
    self, CONTROLLERS, IDLE_AGAIN, MALFORMED, SAME, STILL_LOST, UNDEFINED, UNSOUND,
};
use crate::shared::settings::LOST;
use std::collections::BTreeMap;
use std::fmt;

const LEAST: usize = 10;

/// No settings, one and two, and a stretch of so many settings, with one less and one more.
pub const LENGTHS: [usize; 18] = [
    0, 1, 2, 15, 16, 17, 31, 32, 33, 63, 64, 65, 127, 128, 129, 255, 256, 257,
];
pub const THOUSANDS: [usize; 3] = [1_000, 2_000, 4_000];
const LONG: usize = 64;

const CASES: [&str; 13] = [
    "it had thousands of settings",
    "it began lost",
    "it ended lost",
    "no trace reaches its follower",
    "a lost stretch ended at 0",
    "a lost stretch of over 64 settings ended at 0",
    "a refused setting was met while lost",
    "24 to 28 had its history",
    "24 to 28 had not",
    "16 to 0 had its history",
    "16 to 0 had not",
    "history was kept over a repeated setting",
    "history was kept over a refused setting",
];

#[derive(Default)]
pub struct Tally {
    settings: usize,
    answers: BTreeMap<u8, usize>,
    lengths: BTreeMap<usize, usize>,
    cases: BTreeMap<&'static str, usize>,
}

impl Tally {
    pub fn settings(&self) -> usize {
        self.settings
    }

    /// A trace with its answers, and the follower's octet before it and after it.
    pub fn note(&mut self, octet: u8, trace: &[u8], answers: &[u8], after: u8) {
        self.settings += trace.len();
        *self.lengths.entry(trace.len()).or_default() += 1;
        for &answer in answers {
            *self.answers.entry(answer).or_default() += 1;
        }
        let are_met = are_met(octet, trace, answers, after);
        for (name, is_met) in CASES.into_iter().zip(are_met) {
            *self.cases.entry(name).or_default() += usize::from(is_met);
        }
    }

    pub fn assert_all_occurred(&self) {
        for length in LENGTHS {
            assert_often(self.lengths.get(&length), &format!("{length} settings"));
        }
        for answer in answers::ALL {
            assert_often(self.answers.get(&answer), &format!("answer {answer}"));
        }
        assert_eq!(self.answers.len(), answers::ALL.len(), "no others");
        for name in CASES {
            assert_often(self.cases.get(name), name);
        }
    }
}

fn assert_often(times: Option<&usize>, what: &str) {
    let times = times.copied().unwrap_or(0);
    assert!(times >= LEAST, "{times} times only: {what}");
}

/// Which of `CASES` a trace showed.
fn are_met(octet: u8, trace: &[u8], answers: &[u8], after: u8) -> [bool; CASES.len()] {
    let (steps, lost) = (steps(octet, trace, answers), lost_stretches(answers));
    let moved = |old, new, answer| {
        let mut steps = steps.iter();
        steps.any(|step| (step.old, step.new, step.answer) == (old, new, answer))
    };
    let kept_over = |answer| {
        let mut steps = steps.iter();
        steps.any(|step| step.used_history() && step.last_answer == answer)
    };
    [
        trace.len() >= THOUSANDS[0],
        octet == LOST && !trace.is_empty(),
        after == LOST && !trace.is_empty(),
        answers.first() == Some(&UNSOUND),
        !lost.is_empty(),
        lost.iter().any(|&settings| settings > LONG),
        answers
            .windows(2)
            .any(|pair| pair == [STILL_LOST, MALFORMED]),
        moved(24, 28, CONTROLLERS),
        moved(24, 28, UNDEFINED),
        moved(16, 0, CONTROLLERS),
        moved(16, 0, UNDEFINED),
        kept_over(SAME),
        kept_over(MALFORMED),
    ]
}

/// A setting that was not refused, the one before it that was not, and the answers to it and to
/// whatever came right before it.
struct Step {
    old: u8,
    new: u8,
    answer: u8,
    last_answer: u8,
}

impl Step {
    /// Whether it is a listed move that needs history, and had it.
    fn used_history(&self) -> bool {
        matches!((self.old, self.new), (24, 28) | (16, 0)) && self.answer == CONTROLLERS
    }
}

fn steps(octet: u8, trace: &[u8], answers: &[u8]) -> Vec<Step> {
    let (mut old, mut last_answer) = (octet & 31, 0);
    let mut steps = Vec::new();
    for (&new, &answer) in trace.iter().zip(answers) {
        if !matches!(answer, MALFORMED | UNSOUND) {
            steps.push(Step {
                old,
                new,
                answer,
                last_answer,
            });
            old = new;
        }
        last_answer = answer;
    }
    steps
}

/// Of each lost stretch that ended, how many settings were answered with lost.
fn lost_stretches(answers: &[u8]) -> Vec<usize> {
    let mut settings = 0;
    let mut ended = Vec::new();
    for &answer in answers {
        match answer {
            STILL_LOST => settings += 1,
            IDLE_AGAIN => ended.push(std::mem::take(&mut settings)),
            _ => {}
        }
    }
    ended
}

impl fmt::Display for Tally {
    fn fmt(&self, out: &mut fmt::Formatter<'_>) -> fmt::Result {
        writeln!(out, "{} settings", self.settings)?;
        for (answer, count) in &self.answers {
            writeln!(out, "answer {answer}: {count}")?;
        }
        for (case, count) in &self.cases {
            writeln!(out, "{case}: {count}")?;
        }
        Ok(())
    }
}
