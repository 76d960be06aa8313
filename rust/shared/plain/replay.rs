//! A replay that stops on request (request M-103): a part of a capture's records, and the ticks
//! between neighbours.

use super::answer::Refusal;
use super::words::{run, ANSWER_WORDS, RECORD_OCTETS, STATE_WORDS};

type Record = [u8; RECORD_OCTETS];

/// A replay at the boundary that both sides have.
pub type ReplayCall = fn(
    &mut [u16],
    &[u8],
    usize,
    usize,
    &mut [u16],
    &mut [u16],
    &mut [u16],
    &mut [u16],
    &mut [u64],
) -> u8;

/// At most `limit` records, from the one with index `from` on.
#[allow(clippy::too_many_arguments)] // the archive's interface has as many
#[inline(never)]
pub fn replay(
    state: &mut [u16],
    records: &[u8],
    from: usize,
    limit: usize,
    sectors: &mut [u16],
    staging: &mut [u16],
    answers: &mut [u16],
    gaps: &mut [u16],
    ran: &mut [u64],
) -> u8 {
    let (records, rest) = records.as_chunks::<RECORD_OCTETS>();
    let (before, to_come) = records.split_at(from.min(records.len()));
    let part = &to_come[..limit.min(to_come.len())];
    let lacks_room = state.len() < STATE_WORDS
        || answers.len() < ANSWER_WORDS * part.len()
        || gaps.len() < part.len();
    let Some(ran) = ran.first_mut() else {
        return Refusal::TooShort as u8;
    };
    if lacks_room {
        return Refusal::TooShort as u8;
    }
    if !rest.is_empty() {
        return Refusal::Malformed as u8;
    }
    // Record 0 has no neighbour before it: taken for its own, it has the gap 0.
    if let Some(neighbour) = before.last().or(part.first()) {
        write_gaps(neighbour, part, gaps);
    }
    *ran = part.len() as u64;
    run(state, part.as_flattened(), sectors, staging, answers)
}

/// Of each record its tick less that of the one before it. Ticks run round past zero, and so do
/// gaps.
#[inline(always)]
fn write_gaps(neighbour: &Record, part: &[Record], gaps: &mut [u16]) {
    let mut earlier = tick(neighbour);
    for (record, gap) in part.iter().zip(gaps) {
        let later = tick(record);
        *gap = later.wrapping_sub(earlier);
        earlier = later;
    }
}

#[inline(always)]
fn tick(&[high, low, ..]: &Record) -> u16 {
    u16::from_be_bytes([high, low])
}
