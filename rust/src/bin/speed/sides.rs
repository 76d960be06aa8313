//! The two implementations behind one loop, and a third that does nothing.

use crate::maps::{FullMap, MapCall};
use crate::shared::plain::{self, ReplayCall, ANSWER_WORDS};
use crate::workloads::{Words, Workload};
use pantoglide::raw;
use std::hint::black_box;

/// Records in one call of a run or a replay.
const RUN_RECORDS: usize = 1024;

#[derive(Clone, Copy)]
pub enum Side {
    Rattle,
    Plain,
    /// Calls a function that returns at once: what the loop itself costs.
    Nothing,
}

#[derive(Clone, Copy)]
pub enum Call {
    Single,
    Run,
    Replay,
    Line,
    Lines,
    LinesPlain,
    Map,
}

/// One side's own words and its answers.
pub struct Bench<'a> {
    workload: &'a Workload,
    words: Words,
    follower: [u8; 1],
    answers: Vec<u16>,
    /// What replays tell beside the answers.
    gaps: Vec<u16>,
    ran: [u64; 1],
    /// What calls for traces and maps write octets to.
    room: Vec<u8>,
    /// What the last call for a map told.
    told: Result<usize, u8>,
}

type EventCall = fn(&mut [u16], u8, u8, u8, u8, u8, u8, &mut [u16], &mut [u16], &mut [u16]) -> u8;
type RunCall = fn(&mut [u16], &[u8], &mut [u16], &mut [u16], &mut [u16]) -> u8;
type LineCall = fn(&mut [u8], u8) -> u8;
type LinesCall = fn(&mut [u8], &[u8], &mut [u8]) -> u8;

#[allow(clippy::too_many_arguments)] // it stands in for a call with as many
#[inline(never)]
fn no_event(
    _: &mut [u16],
    _: u8,
    _: u8,
    _: u8,
    _: u8,
    _: u8,
    _: u8,
    _: &mut [u16],
    _: &mut [u16],
    _: &mut [u16],
) -> u8 {
    0
}

#[inline(never)]
fn no_run(_: &mut [u16], _: &[u8], _: &mut [u16], _: &mut [u16], _: &mut [u16]) -> u8 {
    0
}

#[allow(clippy::too_many_arguments)] // it stands in for a call with as many
#[inline(never)]
fn no_replay(
    _: &mut [u16],
    _: &[u8],
    _: usize,
    _: usize,
    _: &mut [u16],
    _: &mut [u16],
    _: &mut [u16],
    _: &mut [u16],
    _: &mut [u64],
) -> u8 {
    0
}

#[inline(never)]
fn no_line(_: &mut [u8], _: u8) -> u8 {
    0
}

#[inline(never)]
fn no_lines(_: &mut [u8], _: &[u8], _: &mut [u8]) -> u8 {
    0
}

#[inline(never)]
fn no_map(_: &FullMap, _: &mut [u16], _: &mut [u8]) -> Result<usize, u8> {
    Ok(0)
}

impl<'a> Bench<'a> {
    pub fn new(workload: &'a Workload) -> Bench<'a> {
        Bench {
            workload,
            words: workload.words.clone(),
            follower: [0],
            answers: vec![0; ANSWER_WORDS * RUN_RECORDS],
            gaps: vec![0; RUN_RECORDS],
            ran: [0],
            room: vec![0; workload.requests(Call::Lines) + workload.requests(Call::Map)],
            told: Ok(0),
        }
    }

    /// Sends the workload's records, its settings, or its request about a map, so many times.
    pub fn cycles(&mut self, side: Side, call: Call, cycles: usize) {
        // Hidden from the optimiser, so that the arguments of a call that ignores them are passed.
        let (no_event, no_run): (EventCall, RunCall) = black_box((no_event, no_run));
        let (no_replay, no_line): (ReplayCall, LineCall) = black_box((no_replay, no_line));
        for _ in 0..cycles {
            match (call, side) {
                (Call::Single, Side::Rattle) => self.single_events(raw::event),
                (Call::Single, Side::Plain) => self.single_events(plain::event),
                (Call::Single, Side::Nothing) => self.single_events(no_event),
                (Call::Run, Side::Rattle) => self.runs(raw::run),
                (Call::Run, Side::Plain) => self.runs(plain::run),
                (Call::Run, Side::Nothing) => self.runs(no_run),
                (Call::Replay, Side::Rattle) => self.replays(raw::replay),
                (Call::Replay, Side::Plain) => self.replays(plain::replay),
                (Call::Replay, Side::Nothing) => self.replays(no_replay),
                (Call::Line, Side::Rattle) => self.lines(raw::line),
                (Call::Line, Side::Plain) => self.lines(plain::line),
                (Call::Line, Side::Nothing) => self.lines(no_line),
                (Call::Lines, Side::Rattle) => self.trace(raw::lines),
                (Call::LinesPlain, Side::Rattle) => self.trace(raw::lines_plain),
                (Call::Lines | Call::LinesPlain, Side::Plain) => self.trace(plain::lines),
                (Call::Lines | Call::LinesPlain, Side::Nothing) => self.trace(no_lines),
                (Call::Map, Side::Rattle) => self.map(|map| map.rattle),
                (Call::Map, Side::Plain) => self.map(|map| map.plain),
                (Call::Map, Side::Nothing) => self.map(|_| no_map),
            }
        }
    }

    #[inline(never)]
    fn single_events<F>(&mut self, event: F)
    where
        F: Fn(&mut [u16], u8, u8, u8, u8, u8, u8, &mut [u16], &mut [u16], &mut [u16]) -> u8,
    {
        let Words {
            state,
            sectors,
            staging,
        } = &mut self.words;
        for &[_, _, port, kind, a0, a1, a2, a3] in &self.workload.records {
            let answer = &mut self.answers;
            black_box(event(
                state, port, kind, a0, a1, a2, a3, sectors, staging, answer,
            ));
        }
    }

    #[inline(never)]
    fn runs<F>(&mut self, run: F)
    where
        F: Fn(&mut [u16], &[u8], &mut [u16], &mut [u16], &mut [u16]) -> u8,
    {
        let Words {
            state,
            sectors,
            staging,
        } = &mut self.words;
        for records in self.workload.records.chunks(RUN_RECORDS) {
            let answers = &mut self.answers;
            black_box(run(
                state,
                records.as_flattened(),
                sectors,
                staging,
                answers,
            ));
        }
    }

    #[inline(never)]
    fn replays(&mut self, replay: ReplayCall) {
        let Words {
            state,
            sectors,
            staging,
        } = &mut self.words;
        let records = self.workload.records.as_flattened();
        for from in (0..self.workload.records.len()).step_by(RUN_RECORDS) {
            black_box(replay(
                state,
                records,
                from,
                RUN_RECORDS,
                sectors,
                staging,
                &mut self.answers,
                &mut self.gaps,
                &mut self.ran,
            ));
        }
    }

    #[inline(never)]
    fn lines<F>(&mut self, line: F)
    where
        F: Fn(&mut [u8], u8) -> u8,
    {
        assert!(self.workload.settings.len() <= self.answers.len());
        for (&setting, answer) in self.workload.settings.iter().zip(&mut self.answers) {
            *answer = black_box(line(&mut self.follower, setting)).into();
        }
    }

    #[inline(never)]
    fn trace(&mut self, lines: LinesCall) {
        let lines = black_box(lines);
        let returned = lines(&mut self.follower, &self.workload.settings, &mut self.room);
        assert_eq!(returned, 0, "{}", self.workload.name);
    }

    #[inline(never)]
    fn map(&mut self, call: impl Fn(&FullMap) -> MapCall) {
        let map = self.workload.map.as_ref().expect("a workload for maps");
        let call = black_box(call(map));
        self.told = call(map, &mut self.words.sectors, &mut self.room);
        assert!(self.told.is_ok(), "{}: {:?}", self.workload.name, self.told);
    }

    /// Whether two sides that did the same work came to the same words.
    pub fn agrees_with(&self, other: &Bench) -> bool {
        self.words.state == other.words.state
            && self.words.sectors == other.words.sectors
            && self.words.staging == other.words.staging
            && self.follower == other.follower
            && self.answers == other.answers
            && self.gaps == other.gaps
            && self.ran == other.ran
            && self.room == other.room
            && self.told == other.told
    }
}
