//! The selection octet of [`Event::Select`](crate::Event::Select).
//!
//! It is the sum of the drive's [`address`] and of either, both or none of the two priorities.

/// Takes over a drive that the other port has without a hold; together with [`PRIORITY_HOLD`] also
/// one with a plain hold.
pub const PRIORITY_SELECT: u8 = 0x01;
/// Keeps the drive after the deselection: a plain hold, or with [`PRIORITY_SELECT`] a strong one,
/// which no selection takes over.
pub const PRIORITY_HOLD: u8 = 0x02;

/// The octet's part for the drive at an address from 0 to 7. For others it is one that every drive
/// refuses.
pub const fn address(address: u8) -> u8 {
    const NO_DRIVES: u8 = 0x80;
    if address < 8 {
        address << 4
    } else {
        NO_DRIVES
    }
}
