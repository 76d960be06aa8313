//! Maps damaged in one or two ways.

use crate::setups::{measures, Numbers};
use crate::shared::random::Random;
use crate::spelling::{mend, OUT_OF_SEQUENCE};

/// The octets of data fields after damage.
pub fn damaged(random: &mut Random, numbers: &Numbers, mut fields: Vec<Vec<u8>>) -> Vec<u8> {
    let (data_fields, _) = measures(numbers);
    if data_fields == 0 {
        // Too small to have numbers that could be changed.
        return cut_or_longer(random, fields.concat());
    }
    for _ in 0..=usize::from(random.one_in(3)) {
        match random.below(10) {
            0 | 1 => change_octet(random, &mut fields),
            2 => change_copy_number(random, &mut fields),
            3 => move_fields(random, &mut fields),
            4..8 => change_numbers(random, numbers, &mut fields),
            _ => return cut_or_longer(random, fields.concat()),
        }
    }
    fields.concat()
}

fn changed(random: &mut Random, octet: u8) -> u8 {
    match random.below(4) {
        0 => 0xFF,
        1 => random.octet(),
        _ => octet ^ 1 << random.below(8),
    }
}

/// One octet of one copy, its CRC left as it is or mended; or its CRC itself.
fn change_octet(random: &mut Random, fields: &mut [Vec<u8>]) {
    let field = random.below(fields.len());
    let field = &mut fields[field];
    let at = match random.below(3) {
        0 => field.len() - 1 - random.below(2),
        _ => random.below(field.len()),
    };
    field[at] = changed(random, field[at]);
    if random.one_in(3) {
        mend(field);
    }
}

fn change_copy_number(random: &mut Random, fields: &mut [Vec<u8>]) {
    let field = random.below(fields.len());
    let field = &mut fields[field];
    field[3] = random.pick(&[0, 1, 2, 3, 0xFE, 0xFF]);
    mend(field);
}

/// Data fields swapped, dropped or doubled.
fn move_fields(random: &mut Random, fields: &mut Vec<Vec<u8>>) {
    let (one, other) = (random.below(fields.len()), random.below(fields.len()));
    match random.below(3) {
        0 => fields.swap(one, other),
        1 if fields.len() > 1 => {
            fields.remove(one);
        }
        _ => {
            let double = fields[one].clone();
            fields.insert(random.pick(&[one, other, fields.len()]), double);
        }
    }
}

fn cut_or_longer(random: &mut Random, mut octets: Vec<u8>) -> Vec<u8> {
    if random.one_in(2) {
        octets.truncate(random.below(octets.len()));
    } else {
        let more = random.pick(&[1, 2, 16, 60]);
        octets.extend((0..random.below(more) + 1).map(|_| random.octet()));
    }
    octets
}

/// Numbers changed alike in all copies of a set, or of all sets, and every CRC mended.
fn change_numbers(random: &mut Random, numbers: &Numbers, fields: &mut [Vec<u8>]) {
    let chosen = &fields[random.below(fields.len())];
    let set = [chosen[6], chosen[7]];
    let (at, octets) = if random.one_in(2) {
        front_change(random, numbers, chosen)
    } else {
        entries_change(random, numbers, chosen)
    };
    let is_everywhere = random.one_in(3);
    for field in fields {
        if field[3] != 0xFF && (is_everywhere || field[6..8] == set) {
            field[at..at + octets.len()].copy_from_slice(&octets);
            mend(field);
        }
    }
}

/// Octets for the front matter, and where they go.
fn front_change(random: &mut Random, numbers: &Numbers, field: &[u8]) -> (usize, Vec<u8>) {
    let [beyond, beside, ..] = *numbers;
    match random.below(8) {
        0 => (0, near(random, field, 0)),
        1 => (2, vec![field[2] ^ 1 << random.below(8)]),
        2 => (2, vec![field[2] & !OUT_OF_SEQUENCE]),
        3 | 4 => (4, near(random, field, 4)),
        5 => (6, near(random, field, 6)),
        6 => {
            let high = u16::from(random.one_in(4));
            (8, [high, beyond].map(u16::to_be_bytes).concat())
        }
        _ => (12, beside.to_be_bytes().to_vec()),
    }
}

/// Octets for the entries or the padding, and where they go.
fn entries_change(random: &mut Random, numbers: &Numbers, field: &[u8]) -> (usize, Vec<u8>) {
    let [beyond, beside, ..] = *numbers;
    let (_, slots) = measures(numbers);
    let slot = 14 + 12 * random.below(slots.max(1));
    match random.below(8) {
        0 if slots > 0 => (slot, u32::from(beyond).to_be_bytes().to_vec()),
        1 if slots > 0 => (slot + 4, beside.to_be_bytes().to_vec()),
        2 if slots > 0 => (slot, vec![0; 10]),
        3 if slots > 0 => (slot, vec![0; 12]),
        4 => (field.len() - 3, vec![changed(random, 0)]),
        5 if slots > 0 => (slot + 11, vec![1]),
        _ => {
            let at = random.below(field.len() - 2);
            (at, vec![changed(random, field[at])])
        }
    }
}

/// A number near the one that stands at a place.
fn near(random: &mut Random, field: &[u8], at: usize) -> Vec<u8> {
    let number = u16::from_be_bytes([field[at], field[at + 1]]);
    let (above, below) = (number.wrapping_add(1), number.wrapping_sub(1));
    let any = random.word();
    random.pick(&[above, below, 0, any]).to_be_bytes().to_vec()
}
