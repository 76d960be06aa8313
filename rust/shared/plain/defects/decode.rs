//! Maps read, from a string or off the drive.

use super::judge::judged;
use super::layout::COPIES;
use super::source::Source;
use super::{Offence, Setup, BEHIND_THE_END, OUTSIDE_LIMITS, TOO_SHORT};

#[derive(Clone, Copy, Debug, PartialEq, Eq)]
pub struct Map {
    pub count: usize,
    pub storage_cylinder: u16,
    pub storage_head: u16,
}

/// The map that a string is, its entries written to the front of `defects`; or the first offence
/// and nothing changed.
pub fn decode_map(setup: Setup, octets: &[u8], defects: &mut [u8]) -> Result<Map, Offence> {
    if !setup.is_within_limits() {
        return Err((OUTSIDE_LIMITS, 0));
    }
    if defects.len() < octets.len() / COPIES {
        return Err((TOO_SHORT, 0));
    }
    let (words, _) = octets.as_chunks::<2>();
    let source = Source {
        setup,
        words,
        start: |k| k * setup.field_words(),
    };
    let judged = judged(&source)?;
    let end = judged.data_fields * setup.field_octets();
    if octets.len() > end {
        return Err((BEHIND_THE_END, end));
    }
    source.copy_entries(judged.data_fields, defects);
    Ok(judged.map)
}

/// The map that stands on the last cylinder, whatever stands behind it, its entries written to the
/// front of `defects`; or the first offence and nothing changed.
pub fn read_map(setup: Setup, sectors: &[u16], defects: &mut [u8]) -> Result<Map, Offence> {
    if !setup.is_within_limits() {
        return Err((OUTSIDE_LIMITS, 0));
    }
    let octets = setup.data_fields() * setup.field_octets();
    if !setup.has_every_sector(sectors) || defects.len() < octets / COPIES {
        return Err((TOO_SHORT, 0));
    }
    let source = Source {
        setup,
        words: sectors,
        start: |k| setup.data_field_start(k),
    };
    let judged = judged(&source)?;
    source.copy_entries(judged.data_fields, defects);
    Ok(judged.map)
}
