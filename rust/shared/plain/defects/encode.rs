//! Maps written in their plain spelling, to a string or on the drive.

use super::crc::crc;
use super::defect::{Defect, Sequence, ENTRY_OCTETS};
use super::layout::{Front, Word, COPIES, FLAG_LAST, FLAG_OUT_OF_SEQUENCE, FRONT_WORDS};
use super::{Setup, NOT_ENCODABLE, OUTSIDE_LIMITS, TOO_SHORT};

/// The octets of the map at the front of `out`, and how many there are; or 9, 10 or 8 and nothing
/// changed.
pub fn encode_map(
    setup: Setup,
    storage_cylinder: u16,
    storage_head: u16,
    defects: &[u8],
    out: &mut [u8],
) -> Result<usize, u8> {
    if !setup.is_within_limits() {
        return Err(OUTSIDE_LIMITS);
    }
    let sets = setup.sets_for(defects.len() / ENTRY_OCTETS);
    if out.len() / setup.set_octets() < sets {
        return Err(TOO_SHORT);
    }
    let value = Value::new(setup, storage_cylinder, storage_head, defects)?;
    let size = sets * setup.set_octets();
    let (words, _) = out[..size].as_chunks_mut::<2>();
    value.write(words, |k| k * setup.field_words());
    Ok(size)
}

/// The map on the last cylinder, every word that is no part of it left as it was; or 9, 10 or 8 and
/// nothing changed.
pub fn write_map(
    setup: Setup,
    storage_cylinder: u16,
    storage_head: u16,
    defects: &[u8],
    sectors: &mut [u16],
) -> Result<(), u8> {
    if !setup.is_within_limits() {
        return Err(OUTSIDE_LIMITS);
    }
    if !setup.has_every_sector(sectors) {
        return Err(TOO_SHORT);
    }
    let value = Value::new(setup, storage_cylinder, storage_head, defects)?;
    value.write(sectors, |k| setup.data_field_start(k));
    Ok(())
}

type Entry = [u8; ENTRY_OCTETS];

/// What a map says, and the drive that has room for it.
struct Value<'a> {
    setup: Setup<'a>,
    storage_cylinder: u16,
    storage_head: u16,
    entries: &'a [Entry],
}

impl<'a> Value<'a> {
    fn new(
        setup: Setup<'a>,
        storage_cylinder: u16,
        storage_head: u16,
        defects: &'a [u8],
    ) -> Result<Value<'a>, u8> {
        let (entries, rest) = defects.as_chunks();
        let value = Value {
            setup,
            storage_cylinder,
            storage_head,
            entries,
        };
        let is_encodable = rest.is_empty() && value.fits() && value.is_in_drive();
        is_encodable.then_some(value).ok_or(NOT_ENCODABLE)
    }

    fn sets(&self) -> usize {
        self.setup.sets_for(self.entries.len())
    }

    fn fits(&self) -> bool {
        let holds_entries = self.setup.entries_each() > 0 || self.entries.is_empty();
        holds_entries && self.sets() <= self.setup.data_fields() / COPIES
    }

    fn is_in_drive(&self) -> bool {
        let mut defects = self.entries.iter().map(Defect::from_octets);
        self.storage_cylinder < *self.setup.cylinders
            && self.storage_head < *self.setup.heads
            && defects.all(|defect| !defect.is_zeros() && defect.is_in_drive(self.setup))
    }

    /// Data field `k` starts at the index that `start` tells.
    fn write<W: Word>(&self, words: &mut [W], start: impl Fn(usize) -> usize) {
        let (sets, entries_each) = (self.sets(), self.setup.entries_each());
        let mut sequence = Sequence::default();
        let mut rest = self.entries;
        for set in 0..sets {
            let entries;
            (entries, rest) = rest.split_at(entries_each.min(rest.len()));
            let mut front = self.front(set, sets);
            for entry in entries {
                if sequence.breaks_at(Defect::from_octets(entry)) {
                    front.flags |= FLAG_OUT_OF_SEQUENCE;
                }
            }
            for copy in 0..COPIES {
                front.copy = copy as u8;
                let field = &mut words[start(COPIES * set + copy)..];
                write_field(&mut field[..self.setup.field_words()], front, entries);
            }
        }
    }

    /// Of copy 0, its entries in sequence. The last cylinder's sets are under 65,536.
    fn front(&self, set: usize, sets: usize) -> Front {
        let is_last = set + 1 == sets;
        Front {
            count: self.setup.field_octets() as u16 - 2,
            flags: if is_last { FLAG_LAST } else { 0 },
            copy: 0,
            sets: sets as u16,
            set: set as u16,
            storage_cylinder: u32::from(self.storage_cylinder),
            storage_head: self.storage_head,
        }
    }
}

fn write_field<W: Word>(field: &mut [W], front: Front, entries: &[Entry]) {
    let (crc_word, words) = field.split_last_mut().expect("a CRC");
    let (front_words, rest) = words.split_at_mut(FRONT_WORDS);
    front_words.copy_from_slice(&front.words());
    let (pairs, _) = entries.as_flattened().as_chunks();
    let (entry_words, padding) = rest.split_at_mut(pairs.len());
    for (word, &pair) in entry_words.iter_mut().zip(pairs) {
        *word = W::from_number(u16::from_be_bytes(pair));
    }
    padding.fill(W::from_number(0));
    *crc_word = W::from_number(crc(words));
}
