//! A replay that stops on request (request M-103), at the archive alone: cut replays put end to end
//! are one uncut run, and what the request says of limits, gaps and refusals.

mod cuts;
mod refusals;
mod rules;

use bench::BENCH;
use pantoglide::raw::{self, ANSWER_WORDS};
use pantoglide::Board;

#[allow(dead_code, unused_imports)] // the other tests and the speed program use the rest
#[path = "../../shared/mod.rs"]
mod shared;

#[path = "../bench/mod.rs"]
mod bench;

/// What stands in lent words before a call.
const BEFORE: u16 = 0xEEEE;
const COUNT_BEFORE: u64 = 0xEEEE_EEEE;

/// The words of a drive.
#[derive(Clone, Debug, PartialEq)]
struct Drive {
    state: Vec<u16>,
    sectors: Vec<u16>,
    staging: Vec<u16>,
}

/// What calls tell, with words behind those that are written.
#[derive(Clone, Debug, PartialEq)]
struct Told {
    answers: Vec<u16>,
    gaps: Vec<u16>,
    ran: Vec<u64>,
}

impl Drive {
    /// The bench drive just powered up.
    fn bench() -> Drive {
        let (mut sectors, mut staging) = (vec![0; 48], vec![0; 4]);
        let board = Board::power_up(BENCH, &mut sectors, &mut staging);
        let state = board.expect("the bench drive").state().to_vec();
        Drive {
            state,
            sectors,
            staging,
        }
    }

    fn replay(&mut self, records: &[u8], from: usize, limit: usize, told: &mut Told) -> u8 {
        raw::replay(
            &mut self.state,
            records,
            from,
            limit,
            &mut self.sectors,
            &mut self.staging,
            &mut told.answers,
            &mut told.gaps,
            &mut told.ran,
        )
    }

    /// The answers to all records at once.
    fn run(&mut self, records: &[u8]) -> Vec<u16> {
        let mut answers = Told::room_for(records.len() / raw::RECORD_OCTETS).answers;
        let Drive {
            state,
            sectors,
            staging,
        } = self;
        let returned = raw::run(state, records, sectors, staging, &mut answers);
        assert_eq!(returned, 0, "whole records");
        answers
    }

    /// The answers and the gaps of a part that is not refused, and nothing else written.
    fn part(&mut self, records: &[u8], from: usize, limit: usize) -> (Vec<u16>, Vec<u16>) {
        let events = records.len() / raw::RECORD_OCTETS;
        let mut told = Told::room_for(events + 1);
        assert_eq!(self.replay(records, from, limit, &mut told), 0);
        let ran = usize::try_from(told.ran[0]).expect("a count of events");
        assert_eq!(ran, (from..events).take(limit).count(), "{from}, {limit}");
        let (answers, behind) = told.answers.split_at(ANSWER_WORDS * ran);
        assert!(behind.iter().all(|&word| word == BEFORE));
        let (gaps, behind) = told.gaps.split_at(ran);
        assert!(behind.iter().all(|&word| word == BEFORE));
        assert_eq!(told.ran[1..], [COUNT_BEFORE]);
        (answers.to_vec(), gaps.to_vec())
    }
}

impl Told {
    fn room_for(events: usize) -> Told {
        Told {
            answers: vec![BEFORE; ANSWER_WORDS * events],
            gaps: vec![BEFORE; events],
            ran: vec![COUNT_BEFORE; 2],
        }
    }
}
