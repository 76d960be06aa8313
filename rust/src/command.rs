//! The codes of commands and responses, for [`Event::DataControl`](crate::Event::DataControl), and
//! the functions of [`LOAD_DRIVE_FUNCTION`].
//!
//! A command's words are sent with [`Event::WordFromHost`](crate::Event::WordFromHost), a
//! response's are taken with [`Event::TakeWord`](crate::Event::TakeWord). [`Board`](crate::Board)
//! has a call for each that does both, such as [`Board::reserve`](crate::Board::reserve).
//! `include/pantoglide.h` has all codes and functions in tables.

/// A command of 1 word: [`Function::word`].
pub const LOAD_DRIVE_FUNCTION: u8 = 0x01;
/// A command of 2 words: the cylinder's upper and lower half.
pub const LOAD_CYLINDER: u8 = 0x04;
/// A command of 1 word: the head.
pub const LOAD_HEAD: u8 = 0x05;
/// A command of 1 word: the target, or [`NO_TARGET`](crate::raw::NO_TARGET).
pub const LOAD_TARGET: u8 = 0x06;
/// A command of 4 words: the cylinder's upper and lower half, the head, the target. The position's
/// sector stays.
pub const LOAD_POSITION: u8 = 0x07;
/// A response of 4 words: the 8 octets of the status response, which the last word clears. No
/// pending exception keeps it from opening.
pub const READ_STATUS: u8 = 0x44;
/// A response of 1 word: the position's sector.
pub const READ_CURRENT_SECTOR: u8 = 0x46;
/// A response of 5 words: the cylinder's upper and lower half, the head, the target or
/// [`NO_TARGET`](crate::raw::NO_TARGET), the sector.
pub const READ_CURRENT_POSITION: u8 = 0x47;

/// What [`LOAD_DRIVE_FUNCTION`] may ask for.
#[derive(Clone, Copy, Debug, PartialEq, Eq, Hash)]
#[repr(u8)]
pub enum Function {
    /// The hold becomes [`Hold::Strong`](crate::Hold::Strong).
    PriorityReserve = 0x13,
    /// The hold becomes [`Hold::Plain`](crate::Hold::Plain), unless it is strong already.
    Reserve = 0x14,
    /// The hold becomes [`Hold::None`](crate::Hold::None). The drive is free at the deselection.
    Release = 0x15,
    /// Nothing.
    NoOperation = 0x20,
    /// The position's cylinder becomes 0.
    Recalibrate = 0x28,
}

impl Function {
    /// The word that asks for the function: its code in both octets.
    pub const fn word(self) -> u16 {
        u16::from_be_bytes([self as u8, self as u8])
    }
}
