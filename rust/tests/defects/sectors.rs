//! The sector words of drives, and which of them a map has.

use crate::setups::{measures, Numbers};
use crate::shared::random::Random;

/// Larger drives are left to the places.
pub const MOST_WORDS: usize = 1 << 14;

/// How many words all sectors have.
pub fn drive_words(numbers: &Numbers) -> usize {
    let [cylinders, heads, sectors, header, field1, field2, _] = numbers.map(usize::from);
    cylinders * heads * sectors * (header + field1 + field2)
}

/// The indices of the words of all data fields, in the map's order.
pub fn map_words(numbers: &Numbers) -> Vec<usize> {
    let [cylinders, heads, sectors, header, field1, field2, _] = numbers.map(usize::from);
    let (data_fields, _) = measures(numbers);
    let mut words = Vec::new();
    let Some(last_cylinder) = cylinders.checked_sub(1) else {
        return words;
    };
    for head in (0..heads).rev() {
        for sector in 0..sectors {
            let sector = (last_cylinder * heads + head) * sectors + sector;
            let start = sector * (header + field1 + field2) + header;
            words.extend(start..start + field1);
        }
    }
    words.truncate(data_fields * field1);
    words
}

/// Writes octets over the data fields, as far as both go.
pub fn write_over(numbers: &Numbers, octets: &[u8], sectors: &mut [u16]) {
    let (pairs, _) = octets.as_chunks();
    for (at, pair) in map_words(numbers).into_iter().zip(pairs) {
        sectors[at] = u16::from_be_bytes(*pair);
    }
}

pub fn random_words(random: &mut Random, count: usize) -> Vec<u16> {
    (0..count).map(|_| random.word()).collect()
}

/// A length about as long as is needed.
pub fn length_near(random: &mut Random, needed: usize) -> usize {
    match random.below(24) {
        0 => random.below(needed + 1),
        1 => needed.saturating_sub(1),
        _ => needed + random.below(4),
    }
}
