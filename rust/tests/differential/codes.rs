//! Which codes of commands and responses, functions and holds the events met.

use crate::shared::streams::EventOctets;
use pantoglide::raw::STATE_WORDS;
use std::fmt;

const CODES: usize = 128;
const FUNCTIONS: usize = 256;
const HOLDS: usize = 3;
const LOAD_DRIVE_FUNCTION: u16 = 0x01;
const UNSOLICITED_EXCEPTION: u16 = 0x0C;
/// Priority Reserve, Reserve, Release, No Operation and Recalibrate.
const ACTING: [usize; 5] = [0x13, 0x14, 0x15, 0x20, 0x28];

/// So many events meet every function at every hold.
const ENOUGH_FOR_EVERY_FUNCTION: usize = 1_000_000;

pub struct Codes {
    /// Data controls 00 to 7F that were accepted, and judged.
    opened: [usize; CODES],
    /// Functions in both octets, by the hold before them.
    functions: [[usize; FUNCTIONS]; HOLDS],
    /// Words of Load Drive Function whose octets differ, by the first of them.
    unequal: [usize; FUNCTIONS],
}

impl Default for Codes {
    fn default() -> Codes {
        Codes {
            opened: [0; CODES],
            functions: [[0; FUNCTIONS]; HOLDS],
            unequal: [0; FUNCTIONS],
        }
    }
}

impl Codes {
    /// An accepted event at a sound state, and the status of its answer.
    pub fn note(&mut self, before: &[u16; STATE_WORDS], event: EventOctets, status: u16) {
        let [_, kind, first, second, ..] = event;
        let (hold, control) = (usize::from(before[9]), before[14]);
        let first = usize::from(first);
        if kind == 3 && first < CODES && status != UNSOLICITED_EXCEPTION {
            self.opened[first] += 1;
        }
        if kind == 4 && control == LOAD_DRIVE_FUNCTION {
            if first == usize::from(second) {
                self.functions[hold][first] += 1;
            } else {
                self.unequal[first] += 1;
            }
        }
    }

    /// Every code and every hold with the functions that act on it; with more events also every
    /// function, in one octet, in both, and at every hold.
    pub fn assert_all_occurred(&self, events: usize) {
        let never = self.opened.iter().position(|&count| count == 0);
        assert_eq!(never, None, "a code that never came");
        for hold in self.functions {
            let acted = ACTING.iter().all(|&function| hold[function] > 0);
            assert!(acted, "a function that never acted at some hold");
        }
        if events >= ENOUGH_FOR_EVERY_FUNCTION {
            for functions in self.functions.iter().chain([&self.unequal]) {
                let never = functions.iter().position(|&count| count == 0);
                assert_eq!(never, None, "a function that never came");
            }
        }
    }
}

/// How many of them were met, and how often the rarest was.
fn met(counts: &[usize]) -> String {
    let met = counts.iter().filter(|&&count| count > 0).count();
    let rarest = counts.iter().min().unwrap_or(&0);
    format!("{met} of {}, the rarest {rarest} times", counts.len())
}

impl fmt::Display for Codes {
    fn fmt(&self, out: &mut fmt::Formatter<'_>) -> fmt::Result {
        writeln!(out, "codes: {}", met(&self.opened))?;
        for (hold, functions) in ["none", "plain", "strong"].iter().zip(&self.functions) {
            writeln!(out, "functions with hold {hold}: {}", met(functions))?;
            for function in ACTING {
                writeln!(out, "  {function:02X}: {}", functions[function])?;
            }
        }
        writeln!(out, "function octets that differ: {}", met(&self.unequal))
    }
}
