//! The records of a workload, put together event by event.

use crate::shared::plain::RECORD_OCTETS;
use crate::shared::random::Random;
use crate::shared::streams::{record, EventOctets};
use crate::workloads::{Words, Workload, ADDRESS};

pub struct Stream {
    pub random: Random,
    /// Apart from the other numbers, so that ticks never decide about events.
    ticks: Random,
    pub words: Words,
    pub records: Vec<[u8; RECORD_OCTETS]>,
}

impl Stream {
    pub fn new(words: Words) -> Stream {
        Stream {
            random: Random::new(0x5EED),
            ticks: Random::new(0x71C5),
            words,
            records: Vec::new(),
        }
    }

    /// A stream of port 0's that begins with its selection.
    pub fn selected(words: Words) -> Stream {
        let mut stream = Stream::new(words);
        stream.push(1, [(ADDRESS << 4) as u8, 0, 0, 0]);
        stream
    }

    pub fn deselected(mut self, name: &'static str) -> Workload {
        self.push(2, [0; 4]);
        self.named(name)
    }

    pub fn named(self, name: &'static str) -> Workload {
        let Stream { words, records, .. } = self;
        Workload {
            name,
            words,
            records,
            settings: Vec::new(),
            map: None,
        }
    }

    pub fn push(&mut self, kind: u8, [a0, a1, a2, a3]: [u8; 4]) {
        self.push_event([0, kind, a0, a1, a2, a3]);
    }

    /// With a tick at random.
    pub fn push_event(&mut self, event: EventOctets) {
        self.records.push(record(self.ticks.word(), event));
    }

    /// Cylinder, head and sector of a random place in the drive.
    pub fn random_place(&mut self) -> [u16; 3] {
        [0, 1, 2].map(|at| self.random.below(self.words.state[at].into()) as u16)
    }

    pub fn position(&mut self) {
        let [cylinder, head, sector] = self.random_place();
        let [high, low] = cylinder.to_be_bytes();
        self.push(7, [high, low, head as u8, sector as u8]);
    }

    pub fn command(&mut self, code: u8, words: &[u16]) {
        self.push(3, [code, 0, 0, 0]);
        for word in words {
            let [high, low] = word.to_be_bytes();
            self.push(4, [high, low, 0, 0]);
        }
    }

    pub fn response(&mut self, code: u8, words: usize) {
        self.push(3, [code, 0, 0, 0]);
        for _ in 0..words {
            self.push(5, [0; 4]);
        }
    }

    pub fn words_from_host(&mut self, count: usize) {
        for _ in 0..count {
            let [high, low] = self.random.word().to_be_bytes();
            self.push(4, [high, low, 0, 0]);
        }
    }
}
