//! Maps spelled out, once more and without the plain Rust: any division into sets, any flags.

use crate::setups::{field_octets, measures, Numbers};

pub const OUT_OF_SEQUENCE: u8 = 0x08;
const LAST: u8 = 0x80;
const IGNORED: u8 = 0xFF;

pub type Entry = [u8; 12];

#[derive(Clone, Debug, PartialEq)]
pub struct Value {
    pub storage: (u16, u16),
    pub defects: Vec<Entry>,
}

/// What stands in the three copies of a set.
pub struct Set {
    pub entries: Vec<Entry>,
    /// Bit 3.
    pub is_flagged: bool,
}

/// The remainder, bit by bit.
pub fn crc(octets: &[u8]) -> u16 {
    let mut remainder = 0_u16;
    for octet in octets {
        remainder ^= u16::from(*octet) << 8;
        for _ in 0..8 {
            let carry = remainder & 0x8000 != 0;
            remainder = remainder << 1 ^ if carry { 0x8005 } else { 0 };
        }
    }
    remainder
}

/// Puts the CRC right.
pub fn mend(field: &mut [u8]) {
    if let Some((before, end)) = field.split_last_chunk_mut::<2>() {
        *end = crc(before).to_be_bytes();
    }
}

/// The data fields of a map. Where its numbers do not fit them they are cut off.
pub fn spelled(numbers: &Numbers, storage: (u16, u16), sets: &[Set]) -> Vec<Vec<u8>> {
    let size = field_octets(numbers);
    let mut fields = Vec::new();
    for (place, set) in sets.iter().enumerate() {
        let last = if place + 1 == sets.len() { LAST } else { 0 };
        let flag = if set.is_flagged { OUT_OF_SEQUENCE } else { 0 };
        for copy in 0..3 {
            let mut field = (size as u16).wrapping_sub(2).to_be_bytes().to_vec();
            field.extend([last | flag, copy]);
            field.extend((sets.len() as u16).to_be_bytes());
            field.extend((place as u16).to_be_bytes());
            field.extend(u32::from(storage.0).to_be_bytes());
            field.extend(storage.1.to_be_bytes());
            field.extend(set.entries.as_flattened());
            field.resize(size, 0);
            mend(&mut field);
            fields.push(field);
        }
    }
    fields
}

/// Whether an entry before this one has its address or a higher one.
pub fn is_out_of_sequence(entries: &[Entry], at: usize) -> bool {
    let address = &entries[at][..10];
    entries[..at].iter().any(|before| &before[..10] >= address)
}

/// Sets of these sizes, all entries together, flagged where they have to be.
pub fn divided(entries: &[Entry], sizes: &[usize]) -> Vec<Set> {
    let mut start = 0;
    let sets = sizes.iter().map(|size| {
        let end = entries.len().min(start + size);
        let is_flagged = (start..end).any(|at| is_out_of_sequence(entries, at));
        let set = Set {
            entries: entries[start..end].to_vec(),
            is_flagged,
        };
        start = end;
        set
    });
    sets.collect()
}

/// The plain spelling.
pub fn plainly_divided(entries: &[Entry], entries_each: usize) -> Vec<Set> {
    let sets = entries.len().div_ceil(entries_each.max(1)).max(1);
    divided(entries, &vec![entries_each; sets])
}

/// Whether a string, which is a map, is the plain spelling of one: no data field ignored; every
/// set but the last full, and the last not empty if there are others; bit 3 where it has to be.
pub fn is_plain(numbers: &Numbers, octets: &[u8]) -> bool {
    let size = field_octets(numbers);
    let (_, entries_each) = measures(numbers);
    if octets.chunks(size).any(|field| field[3] == IGNORED) {
        return false;
    }
    let sets = octets.chunks(3 * size).collect::<Vec<_>>();
    let mut entries = Vec::new();
    for (place, set) in sets.iter().enumerate() {
        let (slots, _) = set[14..size - 2].as_chunks::<12>();
        let start = entries.len();
        entries.extend(slots.iter().take_while(|slot| **slot != [0; 12]));
        let count = entries.len() - start;
        let is_last = place + 1 == sets.len();
        if !is_last && count < entries_each || place > 0 && is_last && count == 0 {
            return false;
        }
        let needs_flag = (start..entries.len()).any(|at| is_out_of_sequence(&entries, at));
        if needs_flag != (set[2] & OUT_OF_SEQUENCE != 0) {
            return false;
        }
    }
    true
}
