//! The archive's calls on slices. `include/pantoglide.h` says what each returns and changes.

mod defects;
mod lines;

pub use defects::{decode_defect, encode_defect, map_place, Numbers, DEFECT_OCTETS};
pub use defects::{decode_map, encode_map, read_map, write_map};
pub use lines::{line, lines, lines_plain};

/// Words of a state.
pub const STATE_WORDS: usize = 23;
/// Words of an answer.
pub const ANSWER_WORDS: usize = 13;
/// Octets of a capture's record.
pub const RECORD_OCTETS: usize = 8;
/// Octets of a capture's trailer.
pub const TRAILER_OCTETS: usize = 8;
/// In an answer, a part that is not there.
pub const ABSENT: u16 = 0xFFFF;
/// In a state, no target.
pub const NO_TARGET: u16 = 0xFFFF;

mod archive {
    extern "C" {
        pub fn pg_power_up(
            cylinders: u16,
            heads: u16,
            sectors: u16,
            header: u16,
            field1: u16,
            field2: u16,
            address: u16,
            sector_words: *const u16,
            sector_length: usize,
            staging_words: *const u16,
            staging_length: usize,
            state: *mut u16,
            state_length: usize,
        ) -> u8;
        pub fn pg_event(
            state: *mut u16,
            state_length: usize,
            port: u8,
            kind: u8,
            a0: u8,
            a1: u8,
            a2: u8,
            a3: u8,
            sector_words: *mut u16,
            sector_length: usize,
            staging_words: *mut u16,
            staging_length: usize,
            answer: *mut u16,
            answer_length: usize,
        ) -> u8;
        pub fn pg_run(
            state: *mut u16,
            state_length: usize,
            records: *const u8,
            records_length: usize,
            sector_words: *mut u16,
            sector_length: usize,
            staging_words: *mut u16,
            staging_length: usize,
            answers: *mut u16,
            answers_length: usize,
        ) -> u8;
        pub fn pg_replay(
            state: *mut u16,
            state_length: usize,
            records: *const u8,
            records_length: usize,
            from: usize,
            limit: usize,
            sector_words: *mut u16,
            sector_length: usize,
            staging_words: *mut u16,
            staging_length: usize,
            answers: *mut u16,
            answers_length: usize,
            gaps: *mut u16,
            gaps_length: usize,
            ran: *mut u64,
            ran_length: usize,
        ) -> u8;
        pub fn pg_capture(
            octets: *const u8,
            octets_length: usize,
            first_record: *mut usize,
            record_count: *mut usize,
        ) -> u8;
        pub fn pg_make_capture(
            notes: *const u8,
            notes_length: usize,
            records: *const u8,
            records_length: usize,
            out: *mut u8,
            out_length: usize,
            size: *mut usize,
        ) -> u8;
    }
}

// Why the calls below are safe: the archive reads and writes inside the slices it is handed and
// nowhere else, whatever they hold, and slices that Rust hands out are never null, misaligned or,
// where one may be written, shared.

/// Powers a drive up: 0 and the state written, or 9 or 10 and nothing changed.
#[allow(clippy::too_many_arguments)] // the archive's interface has as many
#[inline(always)]
pub fn power_up(
    cylinders: u16,
    heads: u16,
    sectors: u16,
    header: u16,
    field1: u16,
    field2: u16,
    address: u16,
    sector_words: &[u16],
    staging_words: &[u16],
    state: &mut [u16],
) -> u8 {
    unsafe {
        archive::pg_power_up(
            cylinders,
            heads,
            sectors,
            header,
            field1,
            field2,
            address,
            sector_words.as_ptr(),
            sector_words.len(),
            staging_words.as_ptr(),
            staging_words.len(),
            state.as_mut_ptr(),
            state.len(),
        )
    }
}

/// One event: 0 and the answer written, or the refusal's number and nothing changed.
#[allow(clippy::too_many_arguments)] // the archive's interface has as many
#[inline(always)]
pub fn event(
    state: &mut [u16],
    port: u8,
    kind: u8,
    a0: u8,
    a1: u8,
    a2: u8,
    a3: u8,
    sector_words: &mut [u16],
    staging_words: &mut [u16],
    answer: &mut [u16],
) -> u8 {
    unsafe {
        archive::pg_event(
            state.as_mut_ptr(),
            state.len(),
            port,
            kind,
            a0,
            a1,
            a2,
            a3,
            sector_words.as_mut_ptr(),
            sector_words.len(),
            staging_words.as_mut_ptr(),
            staging_words.len(),
            answer.as_mut_ptr(),
            answer.len(),
        )
    }
}

/// The records of a capture one after another: 0 and an answer for each written, or 10 or 8 and
/// nothing changed.
#[inline(always)]
pub fn run(
    state: &mut [u16],
    records: &[u8],
    sector_words: &mut [u16],
    staging_words: &mut [u16],
    answers: &mut [u16],
) -> u8 {
    unsafe {
        archive::pg_run(
            state.as_mut_ptr(),
            state.len(),
            records.as_ptr(),
            records.len(),
            sector_words.as_mut_ptr(),
            sector_words.len(),
            staging_words.as_mut_ptr(),
            staging_words.len(),
            answers.as_mut_ptr(),
            answers.len(),
        )
    }
}

/// At most `limit` records of a capture, from the one with index `from` on: 0, an answer and a gap
/// for each event that ran and their number written, or 10 or 8 and nothing changed.
#[allow(clippy::too_many_arguments)] // the archive's interface has as many
#[inline(always)]
pub fn replay(
    state: &mut [u16],
    records: &[u8],
    from: usize,
    limit: usize,
    sector_words: &mut [u16],
    staging_words: &mut [u16],
    answers: &mut [u16],
    gaps: &mut [u16],
    ran: &mut [u64],
) -> u8 {
    unsafe {
        archive::pg_replay(
            state.as_mut_ptr(),
            state.len(),
            records.as_ptr(),
            records.len(),
            from,
            limit,
            sector_words.as_mut_ptr(),
            sector_words.len(),
            staging_words.as_mut_ptr(),
            staging_words.len(),
            answers.as_mut_ptr(),
            answers.len(),
            gaps.as_mut_ptr(),
            gaps.len(),
            ran.as_mut_ptr(),
            ran.len(),
        )
    }
}

/// Finds the records of a capture: 0, where the first one starts and how many there are, or 12, 13
/// or 14 and nothing changed.
#[inline(always)]
pub fn capture(octets: &[u8], first_record: &mut usize, record_count: &mut usize) -> u8 {
    unsafe { archive::pg_capture(octets.as_ptr(), octets.len(), first_record, record_count) }
}

/// Makes a capture at the front of `out`: 0 and its length, or 10 or 8 and nothing changed.
#[inline(always)]
pub fn make_capture(notes: &[u8], records: &[u8], out: &mut [u8], size: &mut usize) -> u8 {
    unsafe {
        archive::pg_make_capture(
            notes.as_ptr(),
            notes.len(),
            records.as_ptr(),
            records.len(),
            out.as_mut_ptr(),
            out.len(),
            size,
        )
    }
}
