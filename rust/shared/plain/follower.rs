//! The follower of a port's five lines, from document 01's list of moves.

use super::answer::Refusal;

const SAME: u8 = 16;
const CONTROLLERS: u8 = 17;
const DRIVES: u8 = 18;
const UNDEFINED: u8 = 19;
const STILL_LOST: u8 = 20;
const IDLE_AGAIN: u8 = 21;

const HISTORY_MARK: u8 = 0x20;
const LOST_MARK: u8 = 0x40;

#[derive(Clone, Copy)]
enum Follower {
    Lost,
    /// The setting of the lines, and for 16, 24 and 26 whether the history is there that a later
    /// move needs.
    At {
        setting: u8,
        history: bool,
    },
}

impl Follower {
    const IDLE: Follower = Follower::At {
        setting: 0,
        history: false,
    };

    /// Nothing where no trace from the start leads to the octet.
    #[inline(always)]
    fn from_octet(octet: u8) -> Option<Follower> {
        if octet == LOST_MARK {
            return Some(Follower::Lost);
        }
        let history = octet & HISTORY_MARK != 0;
        match octet & !HISTORY_MARK {
            setting @ (16 | 24 | 26) => Some(Follower::At { setting, history }),
            setting @ (0 | 1 | 4 | 8 | 20 | 25 | 27..=31) if !history => {
                Some(Follower::At { setting, history })
            }
            _ => None,
        }
    }

    #[inline(always)]
    fn octet(self) -> u8 {
        match self {
            Follower::Lost => LOST_MARK,
            Follower::At { setting, history } => setting | if history { HISTORY_MARK } else { 0 },
        }
    }

    #[inline(always)]
    fn follow(self, new: u8) -> (Follower, u8) {
        let Follower::At { setting, history } = self else {
            return match new {
                0 => (Follower::IDLE, IDLE_AGAIN),
                _ => (Follower::Lost, STILL_LOST),
            };
        };
        if setting == new {
            return (self, SAME);
        }
        let side = match (setting, new) {
            (16, 0) | (24, 28) if !history => UNDEFINED,
            _ => side_of_move(setting, new),
        };
        let next = match (side, new) {
            (UNDEFINED, 0) => Follower::IDLE,
            (UNDEFINED, _) => Follower::Lost,
            _ => Follower::At {
                setting: new,
                history: matches!((setting, new), (0, 16) | (27, 26))
                    || (setting, new) == (26, 24) && history,
            },
        };
        (next, side)
    }
}

#[inline(always)]
fn side_of_move(old: u8, new: u8) -> u8 {
    match (old, new) {
        (0, 4) | (4, 0) | (0, 1) | (1, 0) | (0, 16) | (16, 0) | (24, 25) => CONTROLLERS,
        (27, 26) | (24, 28) | (30, 31) | (29, 28) | (30, 26) | (20, 16) | (24, 8) => CONTROLLERS,
        (16, 24) | (25, 27) | (26, 24) | (28, 20) | (28, 30) | (31, 29) | (8, 0) => DRIVES,
        _ => UNDEFINED,
    }
}

#[inline(never)]
pub fn line(follower: &mut [u8], setting: u8) -> u8 {
    let Some(octet) = follower.first_mut() else {
        return Refusal::TooShort as u8;
    };
    let Some(old) = Follower::from_octet(*octet) else {
        return Refusal::Unsound as u8;
    };
    if setting > 31 {
        return Refusal::Malformed as u8;
    }
    let (new, answer) = old.follow(setting);
    *octet = new.octet();
    answer
}

/// The settings of a trace one after another, with an answer for each (request M-104).
#[inline(never)]
pub fn lines(follower: &mut [u8], trace: &[u8], answers: &mut [u8]) -> u8 {
    let room = answers.get_mut(..trace.len());
    let (Some(octet), Some(answers)) = (follower.first_mut(), room) else {
        return Refusal::TooShort as u8;
    };
    let Some(mut follower) = Follower::from_octet(*octet) else {
        answers.fill(Refusal::Unsound as u8);
        return 0;
    };
    for (&setting, answer) in trace.iter().zip(answers) {
        *answer = Refusal::Malformed as u8;
        if setting <= 31 {
            (follower, *answer) = follower.follow(setting);
        }
    }
    *octet = follower.octet();
    0
}
