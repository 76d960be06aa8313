//! Random maps: plain ones, ones in the other spellings, damaged ones, and octets at random.

use crate::damage::damaged;
use crate::setups::{field_octets, likely_setup, measures, outside_limits, Numbers};
use crate::shared::random::Random;
use crate::spelling::{divided, mend, plainly_divided, spelled, Entry, Set, Value};

/// A string to decode.
#[derive(Debug)]
pub struct Decoding {
    pub numbers: Numbers,
    pub octets: Vec<u8>,
    /// Octets lent for the defects.
    pub room: usize,
    /// What the string says, where it has to be decoded.
    pub value: Option<Value>,
}

/// A value to encode.
#[derive(Debug)]
pub struct Encoding {
    pub numbers: Numbers,
    pub storage: (u16, u16),
    /// Not always whole.
    pub defects: Vec<u8>,
    /// Octets lent for the map.
    pub room: usize,
}

impl Encoding {
    /// Of the defects that are whole.
    pub fn value(&self) -> Value {
        let (entries, _) = self.defects.as_chunks();
        Value {
            storage: self.storage,
            defects: entries.to_vec(),
        }
    }
}

pub fn likely_decoding(random: &mut Random) -> Decoding {
    let numbers = likely_setup(random);
    let value = likely_value(random, &numbers);
    let fields = if random.one_in(2) {
        plain_fields(&numbers, &value)
    } else {
        free_fields(random, &numbers, &value)
    };
    let (octets, is_whole) = match random.below(16) {
        0..7 => (fields.concat(), true),
        7 => (octets_at_random(random, &numbers), false),
        _ => (damaged(random, &numbers, fields), false),
    };
    let is_map = is_whole && fits(&numbers, value.defects.len());
    let decoding = Decoding {
        numbers,
        room: octets.len() / 3 + random.below(14),
        octets,
        value: is_map.then_some(value),
    };
    misused(random, decoding)
}

/// Now and then with a set-up outside its limits, or with too little room.
fn misused(random: &mut Random, mut decoding: Decoding) -> Decoding {
    if random.one_in(64) {
        decoding.numbers = outside_limits(random, decoding.numbers);
        decoding.value = None;
    }
    let needed = decoding.octets.len() / 3;
    if random.one_in(64) && needed > 0 {
        decoding.room = needed - 1 - random.below(needed.min(2));
        decoding.value = None;
    }
    decoding
}

pub fn likely_encoding(random: &mut Random) -> Encoding {
    let mut numbers = likely_setup(random);
    let mut value = likely_value(random, &numbers);
    if random.one_in(6) {
        spoil(random, &numbers, &mut value);
    }
    let needed = plain_fields(&numbers, &value).len() * field_octets(&numbers);
    let room = match random.below(16) {
        0 => random.below(needed),
        1 => needed - 1,
        2 => needed,
        _ => needed + random.below(40),
    };
    let mut defects = value.defects.concat();
    if random.one_in(32) {
        defects.truncate(random.below(defects.len() + 1));
    }
    if random.one_in(32) {
        numbers = outside_limits(random, numbers);
    }
    Encoding {
        numbers,
        storage: value.storage,
        defects,
        room,
    }
}

/// Makes a value one that no map has.
fn spoil(random: &mut Random, numbers: &Numbers, value: &mut Value) {
    let [cylinders, heads, ..] = *numbers;
    match random.below(4) {
        0 => value.storage.0 = random.pick(&[cylinders, 0xFFFF]),
        1 => value.storage.1 = random.pick(&[heads, 0xFFFF]),
        _ => {
            let beyond = entry(u32::from(cylinders), 0, 0, 1);
            let beside = entry(0, heads, 0, 1);
            let at = random.below(value.defects.len() + 1);
            let added = random.pick(&[[0; 12], beyond, beside]);
            value.defects.insert(at, added);
        }
    }
}

fn entry(cylinder: u32, head: u16, offset: u32, length: u16) -> Entry {
    let mut entry = [0; 12];
    entry[..4].copy_from_slice(&cylinder.to_be_bytes());
    entry[4..6].copy_from_slice(&head.to_be_bytes());
    entry[6..10].copy_from_slice(&offset.to_be_bytes());
    entry[10..].copy_from_slice(&length.to_be_bytes());
    entry
}

/// A defect in the drive, not twelve zeros.
fn likely_entry(random: &mut Random, numbers: &Numbers) -> Entry {
    let cylinder = random.below(usize::from(numbers[0])) as u32;
    let head = random.below(usize::from(numbers[1])) as u16;
    let any = random.next() as u32;
    let offset = random.pick(&[0, 1, any & 3, any & 0xFFF, any, u32::MAX]);
    let length = random.pick(&[0, 1, any as u16, 0xFFFF]);
    match entry(cylinder, head, offset, length) {
        [0, 0, 0, 0, 0, 0, 0, 0, 0, 0, 0, 0] => entry(0, 0, 0, 1),
        entry => entry,
    }
}

/// A value whose numbers are in the drive. Mostly the last cylinder has room for it.
fn likely_value(random: &mut Random, numbers: &Numbers) -> Value {
    let storage_cylinder = random.below(usize::from(numbers[0])) as u16;
    let storage_head = random.below(usize::from(numbers[1])) as u16;
    let (data_fields, entries_each) = measures(numbers);
    let fitting = data_fields / 3 * entries_each;
    let count = match random.below(16) {
        0 => 0,
        1 => fitting.min(400) + random.below(4),
        2 => random.below(fitting.min(400) + 1),
        _ => random.below(fitting.min(12) + 1),
    };
    let mut defects = (0..count)
        .map(|_| likely_entry(random, numbers))
        .collect::<Vec<_>>();
    if !random.one_in(4) {
        defects.sort();
        defects.dedup_by_key(|entry| entry[..10].to_vec());
    }
    if random.one_in(4) && !defects.is_empty() {
        let (one, other) = (random.below(defects.len()), random.below(defects.len()));
        defects.swap(one, other);
    }
    Value {
        storage: (storage_cylinder, storage_head),
        defects,
    }
}

fn fits(numbers: &Numbers, count: usize) -> bool {
    let (data_fields, entries_each) = measures(numbers);
    data_fields >= 3 && count <= data_fields / 3 * entries_each
}

/// The plain spelling, whether or not the last cylinder has room for it.
pub fn plain_fields(numbers: &Numbers, value: &Value) -> Vec<Vec<u8>> {
    let (_, entries_each) = measures(numbers);
    let sets = plainly_divided(&value.defects, entries_each);
    spelled(numbers, value.storage, &sets)
}

/// Any spelling, as free as the last cylinder has room for.
fn free_fields(random: &mut Random, numbers: &Numbers, value: &Value) -> Vec<Vec<u8>> {
    if !fits(numbers, value.defects.len()) {
        return plain_fields(numbers, value);
    }
    let sizes = sizes_of_sets(random, numbers, value.defects.len());
    let mut sets = divided(&value.defects, &sizes);
    for set in &mut sets {
        set.is_flagged |= random.one_in(4);
    }
    let mut fields = spelled(numbers, value.storage, &sets);
    let unused = measures(numbers).0 - fields.len();
    for _ in 0..random.below(unused.min(4) + 1) {
        let at = random.below(fields.len());
        fields.insert(at, ignored_field(random, numbers));
    }
    fields
}

/// Sets that need not be full, so many as fit.
fn sizes_of_sets(random: &mut Random, numbers: &Numbers, count: usize) -> Vec<usize> {
    let (data_fields, entries_each) = measures(numbers);
    let least = count.div_ceil(entries_each.max(1)).max(1);
    let most = match random.below(64) {
        0 => data_fields / 3,
        _ => (data_fields / 3).min(least + 3),
    };
    let sets = least + random.below(most - least + 1);
    let mut left = count;
    let sizes = (1..=sets).map(|set| {
        let fewest = left.saturating_sub((sets - set) * entries_each);
        let most = left.min(entries_each);
        let size = fewest + random.below(most - fewest + 1);
        left -= size;
        size
    });
    sizes.collect()
}

fn ignored_field(random: &mut Random, numbers: &Numbers) -> Vec<u8> {
    let mut field = random_octets(random, field_octets(numbers));
    field[3] = 0xFF;
    field
}

fn random_octets(random: &mut Random, count: usize) -> Vec<u8> {
    (0..count).map(|_| random.octet()).collect()
}

/// No map but by chance, with likely front matter more often than not.
fn octets_at_random(random: &mut Random, numbers: &Numbers) -> Vec<u8> {
    let size = field_octets(numbers);
    if random.one_in(3) {
        let count = random.below(4 * size);
        return random_octets(random, count);
    }
    let sets = (0..=random.below(2)).map(|_| Set {
        entries: Vec::new(),
        is_flagged: random.one_in(2),
    });
    let sets = sets.collect::<Vec<_>>();
    let mut fields = spelled(numbers, (0, 0), &sets);
    for field in &mut fields {
        if let Some(behind_front) = field.get_mut(random.pick(&[8, 14])..) {
            behind_front.fill_with(|| random.octet() & random.octet() & 3);
        }
        mend(field);
    }
    fields.concat()
}
