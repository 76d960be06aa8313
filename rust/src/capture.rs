//! Captures: what hosts did, kept as octets.

use crate::raw::{self, RECORD_OCTETS};
use crate::Refusal;

/// A capture whose records were found: notes, records and a trailer in one slice of octets.
#[derive(Clone, Copy, Debug, PartialEq, Eq)]
pub struct Capture<'a> {
    notes: &'a [u8],
    records: &'a [u8],
}

impl<'a> Capture<'a> {
    /// Finds the records, whatever they say.
    ///
    /// Refused with [`Refusal::CaptureTooShort`], [`Refusal::TrailerMark`] or
    /// [`Refusal::TrailerDistance`], tested in that order.
    pub fn find(octets: &'a [u8]) -> Result<Self, Refusal> {
        let (mut first_record, mut record_count) = (0, 0);
        Refusal::check(raw::capture(octets, &mut first_record, &mut record_count))?;
        let (notes, rest) = octets.split_at(first_record);
        let records = &rest[..RECORD_OCTETS * record_count];
        Ok(Capture { notes, records })
    }

    /// The octets before the first record.
    pub fn notes(&self) -> &'a [u8] {
        self.notes
    }

    /// The records, [`RECORD_OCTETS`] octets each, as [`Board::run_into`](crate::Board::run_into)
    /// takes them.
    pub fn records(&self) -> &'a [u8] {
        self.records
    }
}

/// Makes a capture of notes and records at the front of `out`, the rest of which stays as it was,
/// and hands back its length, which is that of both and [`raw::TRAILER_OCTETS`].
///
/// Refused with [`Refusal::TooShort`] if `out` is shorter, then with [`Refusal::Malformed`] if the
/// records are not whole or have more octets than four octets can count; and then nothing changes.
pub fn make_capture(notes: &[u8], records: &[u8], out: &mut [u8]) -> Result<usize, Refusal> {
    let mut size = 0;
    Refusal::check(raw::make_capture(notes, records, out, &mut size))?;
    Ok(size)
}
