//! What the tests and the speed program have in common. It is no part of the library.

mod commands;
pub mod plain;
pub mod random;
pub mod settings;
pub mod streams;

/// How many random events, or settings of the lines, a test compares.
pub fn events_to_compare() -> usize {
    match std::env::var("PANTOGLIDE_EVENTS") {
        Ok(number) => number.parse().expect("PANTOGLIDE_EVENTS is a number"),
        Err(_) => 100_000,
    }
}
