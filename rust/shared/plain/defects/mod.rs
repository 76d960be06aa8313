//! The maker's defect map, from docs/DEFECTS.md and section 13 of document 004.
//!
//! A data field has an even number of octets, and all its numbers stand at even places. So a map is
//! read and written by words: pairs of octets in a string, words of field 1 on a drive.

mod crc;
mod decode;
mod defect;
mod encode;
mod judge;
mod layout;
mod place;
mod source;

pub use decode::{decode_map, read_map, Map};
pub use defect::Defect;
pub use encode::{encode_map, write_map};
pub use place::map_place;

use super::answer::Refusal;
use super::setup::{Place, Setup};

/// A refusal's number, and the offset at which it lies.
type Offence = (u8, usize);

const OUTSIDE_LIMITS: u8 = Refusal::OutsideLimits as u8;
const TOO_SHORT: u8 = Refusal::TooShort as u8;
const NOT_ENCODABLE: u8 = Refusal::Malformed as u8;

const NO_DATA_FIELD: u8 = 16;
const CUT_SHORT: u8 = 17;
const WRONG_COUNT: u8 = 18;
const WRONG_FLAGS: u8 = 19;
const WRONG_COPY: u8 = 20;
const UNLIKE_SET_0: u8 = 21;
const WRONG_SET: u8 = 22;
const OUTSIDE_DRIVE: u8 = 23;
const OUT_OF_SEQUENCE: u8 = 24;
const NOT_PADDED: u8 = 25;
const WRONG_CRC: u8 = 26;
const UNLIKE_COPY_0: u8 = 27;
const BEHIND_THE_END: u8 = 28;
