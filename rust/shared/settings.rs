//! Random settings of the lines: mostly listed moves, with repeated settings, undefined moves, lost
//! stretches and settings over 31 among them.

use super::random::Random;

/// A lost follower's octet.
pub const LOST: u8 = 0x40;

/// The listed moves of document 01.
pub const MOVES: [(u8, u8); 21] = [
    (0, 4),
    (4, 0),
    (0, 1),
    (1, 0),
    (0, 16),
    (16, 0),
    (24, 25),
    (27, 26),
    (24, 28),
    (30, 31),
    (29, 28),
    (30, 26),
    (20, 16),
    (24, 8),
    (16, 24),
    (25, 27),
    (26, 24),
    (28, 20),
    (28, 30),
    (31, 29),
    (8, 0),
];

/// A setting that suits a follower that some trace reaches, more often than not.
pub fn likely_setting(random: &mut Random, follower: u8) -> u8 {
    let setting = follower & 31;
    match random.below(32) {
        0 | 1 => random.below(32) as u8,
        2..6 => setting,
        6 => 32 + random.below(224) as u8,
        _ if follower == LOST => random.pick(&[0, 0, 16, 24, 28]),
        _ => {
            let from_here = MOVES.iter().filter(|&&(old, _)| old == setting);
            let new = from_here.map(|&(_, new)| new).collect::<Vec<_>>();
            random.pick(&new)
        }
    }
}
