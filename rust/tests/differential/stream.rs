//! Records of events that get far from a drive's state on, with ticks that often go round.

use crate::shared::random::Random;
use crate::shared::streams::{likely_event, record, EventOctets};
use crate::words::{Pair, Words};
use pantoglide::raw::STATE_WORDS;

pub struct Stream {
    pub records: Vec<u8>,
    /// The accepted ones: the state before each, and the status of its answer.
    pub accepted: Vec<([u16; STATE_WORDS], EventOctets, u16)>,
    /// What single events make of the words that the stream began with.
    pub alone: Words,
}

impl Stream {
    pub fn likely(random: &mut Random, pair: &Pair, events: usize) -> Stream {
        let mut stream = Stream {
            records: Vec::new(),
            accepted: Vec::new(),
            alone: pair.copy_of_plain(),
        };
        let mut tick = random.word();
        for _ in 0..events {
            tick = likely_tick(random, tick);
            stream.push(random, tick);
        }
        stream
    }

    fn push(&mut self, random: &mut Random, tick: u16) {
        let before = *self.alone.state();
        let event = likely_event(random, &before, &self.alone.sectors);
        if self.alone.plain_event(event) == 0 {
            self.accepted.push((before, event, self.alone.answers[1]));
        }
        self.records.extend(record(tick, event));
    }

    /// Leaves a part of a record behind the last one.
    pub fn tear(&mut self, random: &mut Random) {
        self.records.extend(&[0; 7][..=random.below(7)]);
    }
}

/// A tick some time after another, at the same time, or any.
fn likely_tick(random: &mut Random, earlier: u16) -> u16 {
    match random.below(8) {
        0 => earlier,
        1..4 => earlier.wrapping_add(random.below(0x4000) as u16),
        4 => random.pick(&[0, 1, 0x00FF, 0x0100, 0x7FFF, 0x8000, 0xFFFE, 0xFFFF]),
        _ => random.word(),
    }
}
