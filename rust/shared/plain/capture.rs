//! Captures, from document 01's section of that name.

use super::answer::Refusal;
use super::words::{ACCEPTED, RECORD_OCTETS};

const TRAILER_OCTETS: usize = 8;
const MARK: [u8; 4] = [0x49, 0x50, 0x49, 0x32];

/// Where the first record starts, and how many there are.
fn found(octets: &[u8]) -> Result<(usize, usize), Refusal> {
    let Some((before, trailer)) = octets.split_last_chunk::<TRAILER_OCTETS>() else {
        return Err(Refusal::CaptureTooShort);
    };
    let &[d0, d1, d2, d3, ref mark @ ..] = trailer;
    if *mark != MARK {
        return Err(Refusal::TrailerMark);
    }
    let distance = u32::from_be_bytes([d0, d1, d2, d3]) as usize;
    if !distance.is_multiple_of(RECORD_OCTETS) || distance > before.len() {
        return Err(Refusal::TrailerDistance);
    }
    Ok((before.len() - distance, distance / RECORD_OCTETS))
}

pub fn capture(octets: &[u8], first_record: &mut usize, record_count: &mut usize) -> u8 {
    match found(octets) {
        Ok(place_and_count) => {
            (*first_record, *record_count) = place_and_count;
            ACCEPTED
        }
        Err(refusal) => refusal as u8,
    }
}

/// The front of `out` that the capture takes, and the distance its trailer tells.
fn room<'a>(
    notes: &[u8],
    records: &[u8],
    out: &'a mut [u8],
) -> Result<(&'a mut [u8], u32), Refusal> {
    let needed = [records.len(), TRAILER_OCTETS]
        .into_iter()
        .try_fold(notes.len(), usize::checked_add);
    let room = needed.and_then(|needed| out.get_mut(..needed));
    let room = room.ok_or(Refusal::TooShort)?;
    let distance = u32::try_from(records.len()).map_err(|_| Refusal::Malformed)?;
    if !records.len().is_multiple_of(RECORD_OCTETS) {
        return Err(Refusal::Malformed);
    }
    Ok((room, distance))
}

pub fn make_capture(notes: &[u8], records: &[u8], out: &mut [u8], size: &mut usize) -> u8 {
    match room(notes, records, out) {
        Ok((room, distance)) => {
            *size = room.len();
            let (into_notes, rest) = room.split_at_mut(notes.len());
            let (into_records, trailer) = rest.split_at_mut(records.len());
            into_notes.copy_from_slice(notes);
            into_records.copy_from_slice(records);
            trailer[..4].copy_from_slice(&distance.to_be_bytes());
            trailer[4..].copy_from_slice(&MARK);
            ACCEPTED
        }
        Err(refusal) => refusal as u8,
    }
}
