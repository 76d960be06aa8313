//! The data control octet of [`Event::DataControl`](crate::Event::DataControl).
//!
//! A control is the sum of [`WRITE`] or [`READ`], of one of the `HEADER_` constants or [`AT_TARGET`]
//! (a read may do without), and of the fields that pass. `include/pantoglide.h` has all octets in a
//! table. Those below 80 are the codes of [`command`](crate::command).

/// A write. It needs one of [`HEADER_VERIFY`], [`HEADER_MOVE`] and [`AT_TARGET`].
pub const WRITE: u8 = 0x80;
/// A read.
pub const READ: u8 = 0xC0;
/// On a write: the host sends the header, which is compared with the stored one and not written.
/// Its words count among those to come.
pub const HEADER_VERIFY: u8 = 0x04;
/// On a read: the header does not pass.
pub const HEADER_SKIP: u8 = 0x04;
/// The header is written or read.
pub const HEADER_MOVE: u8 = 0x08;
/// The header is written or read, in the target's sector.
pub const AT_TARGET: u8 = 0x0C;
/// Field 1 passes.
pub const FIELD_1: u8 = 0x01;
/// Field 2 passes.
pub const FIELD_2: u8 = 0x02;
/// The head becomes the next, 0 after the last.
pub const STEP_HEAD: u8 = 0x90;
/// Reserved: answered with an operation exception, "invalid bus control".
pub const RESERVED: u8 = 0xD0;
