//! The reading's tables of all codes and all functions.

/// All codes 00 to 7F: C and R with the number of words of a command and of a response; 5 and 7
/// the bit that goes with status 8.
pub const CODES: [&str; 8] = [
    " 7 C1  5  5 C2 C1 C1 C4  7  7  7  7  7  7  7  7",
    " 7  7  7  7  7  7  7  7  7  7  7  7  7  7  7  7",
    " 7  7  7  7  7  7  7  7  7  7  7  7  7  7  7  7",
    " 7  7  7  7  7  7  7  7  7  7  7  7  7  7  7  7",
    " 7  5  5  5 R4  5 R1 R5  5  7  7  7  7  7  7  7",
    " 7  7  7  7  7  7  7  7  7  7  7  7  7  7  7  7",
    " 7  7  7  7  7  7  7  7  7  7  7  7  7  7  7  7",
    " 7  7  7  7  7  7  7  7  7  7  7  7  7  7  7  7",
];

/// All functions 00 to FF, both octets equal: Priority Reserve, Reserve, reLease, No operation,
/// Z for recalibrate; 5 and 6 the bit that goes with status 8.
pub const FUNCTIONS: [&str; 16] = [
    "6 6 6 6 6 6 6 6 6 6 6 6 6 6 6 6",
    "5 5 5 P R L 5 6 5 5 5 5 5 5 5 5",
    "N 6 5 5 6 6 6 6 Z 5 6 5 5 5 6 6",
    "6 6 6 6 6 6 6 6 6 6 6 6 6 6 6 6",
    "6 5 5 5 5 5 5 5 5 5 5 6 6 6 6 6",
    "6 6 6 6 6 6 6 6 6 6 6 6 6 6 6 6",
    "6 6 6 6 6 6 6 6 6 6 6 6 6 6 6 6",
    "6 6 6 6 6 6 6 6 6 6 6 6 6 6 6 6",
    "6 5 6 6 6 6 6 6 6 6 6 6 6 6 6 6",
    "6 6 6 6 6 6 6 6 6 6 6 6 6 6 6 6",
    "6 6 6 6 6 6 6 6 6 6 6 6 6 6 6 6",
    "6 6 6 6 6 6 6 6 6 6 6 6 6 6 6 6",
    "6 6 6 6 6 6 6 6 6 6 6 6 6 6 6 6",
    "6 6 6 6 6 6 6 6 6 6 6 6 6 6 6 6",
    "6 6 6 6 6 6 6 6 6 6 6 6 6 6 6 6",
    "6 6 6 6 6 6 6 6 6 6 6 6 6 6 6 6",
];

/// The entry of a code or a function.
pub fn entry(table: &[&'static str], octet: u8) -> &'static str {
    let mut row = table[usize::from(octet >> 4)].split_whitespace();
    row.nth(usize::from(octet & 15)).expect("sixteen entries")
}
