//! Random codes of commands and responses, and the words that hosts would send with them.

use super::plain::STATE_WORDS;
use super::random::Random;
use super::streams::{likely_target, near};

const LOAD_DRIVE_FUNCTION: u8 = 0x01;
/// The other codes that open a transfer.
const OPENING: [u8; 7] = [0x04, 0x05, 0x06, 0x07, 0x44, 0x46, 0x47];
/// Priority Reserve, Reserve, Release, No Operation and Recalibrate.
const ACTING: [u8; 5] = [0x13, 0x14, 0x15, 0x20, 0x28];

pub fn code_octet(random: &mut Random) -> u8 {
    match random.below(10) {
        0..3 => random.below(0x80) as u8,
        3..7 => LOAD_DRIVE_FUNCTION,
        _ => random.pick(&OPENING),
    }
}

/// The next word of the command that is open in a state, now and then with a bit wrong.
pub fn command_word(random: &mut Random, state: &[u16; STATE_WORDS]) -> u16 {
    let [cylinders, heads, sectors, ..] = *state;
    let word = match (state[14], state[15]) {
        (0x01, _) => return function_word(random),
        (0x04, 1) | (0x07, 1) => near(random, cylinders),
        (0x05, _) | (0x07, 2) => near(random, heads),
        (0x06, _) | (0x07, 3) => likely_target(random, sectors),
        _ => 0, // the upper half of a cylinder
    };
    if random.one_in(12) {
        word ^ 1 << random.below(16)
    } else {
        word
    }
}

/// A function in both octets more often than not.
fn function_word(random: &mut Random) -> u16 {
    let any = random.octet();
    match random.below(8) {
        0 | 1 => random.word(),
        2..7 => u16::from_be_bytes([any, any]),
        _ => u16::from(random.pick(&ACTING)) * 0x0101,
    }
}
