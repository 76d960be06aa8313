//! The follower of a port's control lines.

use crate::{raw, Refusal};
use core::slice;

/// What a new setting of the lines is to the follower.
#[derive(Clone, Copy, Debug, PartialEq, Eq)]
#[repr(u8)]
pub enum Move {
    /// The setting has not changed.
    Same = 16,
    /// A listed move of the controller's.
    Controllers = 17,
    /// A listed move of the drive's.
    Drives = 18,
    /// A move that is not listed, or without the history it needs.
    Undefined = 19,
    /// The follower was lost and still is.
    Lost = 20,
    /// The follower was lost and is idle again.
    Idle = 21,
}

impl Move {
    /// Reads the octet that answers a setting. [`Refusal::Malformed`] is a setting over 31,
    /// [`Refusal::Unsound`] a follower that no trace reaches, or an octet that is no answer.
    pub fn from_answer(octet: u8) -> Result<Move, Refusal> {
        match octet {
            8 => Err(Refusal::Malformed),
            16 => Ok(Move::Same),
            17 => Ok(Move::Controllers),
            18 => Ok(Move::Drives),
            19 => Ok(Move::Undefined),
            20 => Ok(Move::Lost),
            21 => Ok(Move::Idle),
            _ => Err(Refusal::Unsound),
        }
    }
}

/// Watches the five control lines of one port, from IDLE on.
#[derive(Clone, Copy, Debug, Default, PartialEq, Eq)]
pub struct Follower {
    octet: u8,
}

impl Follower {
    /// A follower in any state. Settings handed to one that no trace reaches are refused.
    pub fn from_octet(octet: u8) -> Follower {
        Follower { octet }
    }

    /// The state as the archive keeps it.
    pub fn octet(self) -> u8 {
        self.octet
    }

    /// The lines now have this setting.
    pub fn line(&mut self, setting: u8) -> Result<Move, Refusal> {
        Move::from_answer(raw::line(slice::from_mut(&mut self.octet), setting))
    }

    /// The lines had these settings, one after another. The answer to each, which
    /// [`Move::from_answer`] reads, is in `answers`; octets beyond the trace stay as they were.
    ///
    /// ```
    /// use pantoglide::{Follower, Move, Refusal};
    ///
    /// let mut follower = Follower::default();
    /// let mut answers = [0; 4];
    /// follower.follow(&[16, 32, 24, 7], &mut answers)?;
    /// let [selected, over_31, acknowledged, astray] = answers.map(Move::from_answer);
    /// assert_eq!([selected, acknowledged], [Ok(Move::Controllers), Ok(Move::Drives)]);
    /// assert_eq!([over_31, astray], [Err(Refusal::Malformed), Ok(Move::Undefined)]);
    /// # Ok::<(), Refusal>(())
    /// ```
    ///
    /// A refused setting is answered with its refusal, and the trace goes on behind it. The call
    /// itself is refused with [`Refusal::TooShort`] if `answers` is shorter than the trace, and
    /// then nothing changes; there is no other refusal.
    pub fn follow(&mut self, trace: &[u8], answers: &mut [u8]) -> Result<(), Refusal> {
        let follower = slice::from_mut(&mut self.octet);
        Refusal::check(raw::lines(follower, trace, answers))
    }

    /// The same as [`follow`](Follower::follow), read without the table of moves: the controller's
    /// turn and the drive's turn hand over to one another.
    pub fn follow_plainly(&mut self, trace: &[u8], answers: &mut [u8]) -> Result<(), Refusal> {
        let follower = slice::from_mut(&mut self.octet);
        Refusal::check(raw::lines_plain(follower, trace, answers))
    }
}
