//! Settings of the lines, one after another.

use crate::shared::plain;
use crate::shared::random::Random;
use crate::shared::settings::likely_setting;

/// A selection, a bus control, 64 words and the way back to IDLE, 40 times.
pub fn words_handed_over() -> Vec<u8> {
    let mut settings = Vec::new();
    for _ in 0..40 {
        settings.extend([16, 24, 25, 27, 26, 24, 28]);
        for _ in 0..64 {
            settings.extend([30, 31, 29, 28]);
        }
        settings.extend([20, 16, 24, 8, 0]);
    }
    settings
}

/// Mostly listed moves, with repeated settings, undefined moves, lost stretches and refusals.
pub fn mixed() -> Vec<u8> {
    let mut random = Random::new(0x11E5);
    let mut follower = [0];
    let mut settings = Vec::new();
    while settings.len() < 10_000 {
        let setting = likely_setting(&mut random, follower[0]);
        plain::line(&mut follower, setting);
        settings.push(setting);
    }
    // So that the trace can be sent again from where it ends.
    settings.push(0);
    settings
}
