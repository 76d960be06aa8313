//! The octets that settings are answered with.

pub const MALFORMED: u8 = 8;
pub const UNSOUND: u8 = 11;
pub const SAME: u8 = 16;
pub const CONTROLLERS: u8 = 17;
pub const DRIVES: u8 = 18;
pub const UNDEFINED: u8 = 19;
pub const STILL_LOST: u8 = 20;
pub const IDLE_AGAIN: u8 = 21;

pub const ALL: [u8; 8] = [
    MALFORMED,
    UNSOUND,
    SAME,
    CONTROLLERS,
    DRIVES,
    UNDEFINED,
    STILL_LOST,
    IDLE_AGAIN,
];
