//! Commands and responses (request M-100): what their words do. They pass words like a write and a
//! read, but nothing is staged, no sector word is touched, and the sector stays as it is.

use super::answer::{response_words, Answer, Status};
use super::control::Control;
use super::drive::{Drive, Hold, Port, INVALID_PARAMETER, NO_TARGET, UNSUPPORTED_CONTROL};

const PRIORITY_RESERVE: u8 = 0x13;
const RESERVE: u8 = 0x14;
const RELEASE: u8 = 0x15;
const NO_OPERATION: u8 = 0x20;
const RECALIBRATE: u8 = 0x28;

/// The words of the open command before its last one, by what they are in Load Position. Load
/// Cylinder Address keeps the first of them, other commands none.
pub struct Parameters<'a> {
    pub cylinder_high: &'a mut u16,
    pub cylinder_low: &'a mut u16,
    pub head: &'a mut u16,
}

/// A bit of response octet 2: why a command cannot be obeyed.
type Exception = u16;

impl Drive<'_> {
    #[inline(always)]
    pub(super) fn command_word(&mut self, port: Port, code: Control, word: u16) -> Answer {
        let index = *self.moved;
        if index + 1 < code.code_words() {
            *self.moved = index + 1;
            self.keep(index, word);
            return Answer::Accepted;
        }
        let obeyed = self.obey(code, word);
        self.close();
        match obeyed {
            Ok(()) => Answer::Status(Status::Normal),
            Err(exception) => self.exception(port, exception),
        }
    }

    #[inline(always)]
    fn keep(&mut self, index: u16, word: u16) {
        match index {
            0 => *self.parameters.cylinder_high = word,
            1 => *self.parameters.cylinder_low = word,
            _ => *self.parameters.head = word,
        }
    }

    /// What a command does at its last word: all of it, or nothing if any number is bad.
    #[inline(always)]
    fn obey(&mut self, code: Control, word: u16) -> Result<(), Exception> {
        let cylinder_high = *self.parameters.cylinder_high;
        match code {
            Control::LOAD_DRIVE_FUNCTION => self.obey_function(word)?,
            Control::LOAD_CYLINDER => {
                *self.cylinder = self.cylinder_in_drive(cylinder_high, word)?
            }
            Control::LOAD_HEAD => *self.head = self.head_in_drive(word)?,
            Control::LOAD_TARGET => *self.target = self.target_in_drive(word)?,
            _ => {
                let cylinder_low = *self.parameters.cylinder_low;
                let cylinder = self.cylinder_in_drive(cylinder_high, cylinder_low)?;
                let head = self.head_in_drive(*self.parameters.head)?;
                let target = self.target_in_drive(word)?;
                (*self.cylinder, *self.head, *self.target) = (cylinder, head, target);
            }
        }
        Ok(())
    }

    #[inline(always)]
    fn cylinder_in_drive(&self, high: u16, low: u16) -> Result<u16, Exception> {
        in_drive(low, high == 0 && low < *self.setup.cylinders)
    }

    #[inline(always)]
    fn head_in_drive(&self, head: u16) -> Result<u16, Exception> {
        in_drive(head, head < *self.setup.heads)
    }

    #[inline(always)]
    fn target_in_drive(&self, target: u16) -> Result<u16, Exception> {
        in_drive(target, target == NO_TARGET || target < *self.setup.sectors)
    }

    /// The word has the function in both of its octets.
    #[inline(always)]
    fn obey_function(&mut self, word: u16) -> Result<(), Exception> {
        let [function, again] = word.to_be_bytes();
        if function != again {
            return Err(INVALID_PARAMETER);
        }
        match function {
            PRIORITY_RESERVE => *self.hold = Hold::Strong as u16,
            RESERVE => *self.hold = (*self.hold).max(Hold::Plain as u16),
            RELEASE => *self.hold = Hold::None as u16,
            NO_OPERATION => {}
            RECALIBRATE => *self.cylinder = 0,
            // Port switches, interrupts, motor, diagnostics, sector marks, ECC.
            0x10..=0x12 | 0x16 | 0x18..=0x1F | 0x22 | 0x23 | 0x29 | 0x2B..=0x2D | 0x81
            // Head offsets and strobes.
            | 0x41..=0x4A => return Err(UNSUPPORTED_CONTROL),
            _ => return Err(INVALID_PARAMETER),
        }
        Ok(())
    }

    #[inline(always)]
    pub(super) fn response_word(&mut self, port: Port, code: Control) -> Answer {
        let index = *self.moved;
        let word = self.told(port, code, index);
        if index + 1 < code.code_words() {
            *self.moved = index + 1;
            return Answer::Word(word);
        }
        self.close();
        if code == Control::READ_STATUS {
            self.pending[port as usize] = 0;
        }
        Answer::LastWord(word)
    }

    /// Word number `index` of a response, read off the drive when it is taken.
    #[inline(always)]
    fn told(&self, port: Port, code: Control, index: u16) -> u16 {
        let [status, more_status] = response_words(self.pending[port as usize]);
        match (code, index) {
            (Control::READ_STATUS, 0) => status,
            (Control::READ_STATUS, 1) => more_status,
            (Control::READ_STATUS, _) => 0,
            (Control::READ_SECTOR, _) => *self.sector,
            // Read Current Position, whose cylinder has two words, the upper one always 0.
            (_, 0) => 0,
            (_, 1) => *self.cylinder,
            (_, 2) => *self.head,
            (_, 3) => *self.target,
            (_, _) => *self.sector,
        }
    }
}

#[inline(always)]
fn in_drive(number: u16, is_in_drive: bool) -> Result<u16, Exception> {
    if is_in_drive {
        Ok(number)
    } else {
        Err(INVALID_PARAMETER)
    }
}
