//! The archive's calls for the lines of a port. Why they are safe stands beside the calls of
//! [`raw`](super).

mod archive {
    extern "C" {
        pub fn pg_line(follower: *mut u8, follower_length: usize, setting: u8) -> u8;
        pub fn pg_lines(
            follower: *mut u8,
            follower_length: usize,
            trace: *const u8,
            trace_length: usize,
            answers: *mut u8,
            answers_length: usize,
        ) -> u8;
        pub fn pg_lines_plain(
            follower: *mut u8,
            follower_length: usize,
            trace: *const u8,
            trace_length: usize,
            answers: *mut u8,
            answers_length: usize,
        ) -> u8;
    }
}

/// One setting of the lines: 16 to 21 and the follower moved on, or 10, 11 or 8 and nothing
/// changed.
#[inline(always)]
pub fn line(follower: &mut [u8], setting: u8) -> u8 {
    unsafe { archive::pg_line(follower.as_mut_ptr(), follower.len(), setting) }
}

/// The settings of a trace one after another, by the table of moves: 0, an answer for each written
/// and the follower moved on, or 10 and nothing changed.
#[inline(always)]
pub fn lines(follower: &mut [u8], trace: &[u8], answers: &mut [u8]) -> u8 {
    unsafe {
        archive::pg_lines(
            follower.as_mut_ptr(),
            follower.len(),
            trace.as_ptr(),
            trace.len(),
            answers.as_mut_ptr(),
            answers.len(),
        )
    }
}

/// The same as [`lines`], without the table.
#[inline(always)]
pub fn lines_plain(follower: &mut [u8], trace: &[u8], answers: &mut [u8]) -> u8 {
    unsafe {
        archive::pg_lines_plain(
            follower.as_mut_ptr(),
            follower.len(),
            trace.as_ptr(),
            trace.len(),
            answers.as_mut_ptr(),
            answers.len(),
        )
    }
}
