//! Random traces, in spells, so that listed moves, lost stretches and refusals each go on for long.

use crate::shared::plain;
use crate::shared::random::Random;
use crate::shared::settings::likely_setting;

const LONGEST_SPELL: usize = 120;

#[derive(Clone, Copy)]
enum Spell {
    Likely,
    /// Never 0, so that the follower is soon lost and stays so.
    Astray,
    /// Mostly over 31.
    AnyOctet,
    /// The setting of the lines again and again.
    Still,
}

const SPELLS: [Spell; 6] = [
    Spell::Likely,
    Spell::Likely,
    Spell::Likely,
    Spell::Astray,
    Spell::AnyOctet,
    Spell::Still,
];

impl Spell {
    fn setting(self, random: &mut Random, follower: u8) -> u8 {
        match self {
            Spell::Likely => likely_setting(random, follower),
            Spell::Astray => 1 + random.below(31) as u8,
            Spell::AnyOctet => random.octet(),
            Spell::Still => follower & 31,
        }
    }
}

/// A follower on its way, and the settings that it was led by.
#[derive(Default)]
struct Walk {
    follower: [u8; 1],
    trace: Vec<u8>,
}

impl Walk {
    fn go_on(&mut self, random: &mut Random, spell: Spell, settings: usize) {
        for _ in 0..settings {
            let setting = spell.setting(random, self.follower[0]);
            plain::line(&mut self.follower, setting);
            self.trace.push(setting);
        }
    }
}

/// A follower's octet that some trace reaches, now and then any, and a trace from there.
pub fn likely_trace(random: &mut Random, length: usize) -> (u8, Vec<u8>) {
    let mut walk = Walk::default();
    let lead = random.below(40);
    walk.go_on(random, Spell::Likely, lead);
    let octet = match random.one_in(8) {
        true => random.octet(),
        false => walk.follower[0],
    };
    walk.trace.clear();
    while walk.trace.len() < length {
        let spell = random.pick(&SPELLS);
        let settings = random.below(LONGEST_SPELL).min(length - walk.trace.len());
        walk.go_on(random, spell, settings);
    }
    (octet, walk.trace)
}
