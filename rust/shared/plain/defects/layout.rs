//! A data field word by word: front matter, entries, padding, CRC.

use super::defect::Defect;

pub const COPIES: usize = 3;
pub const FRONT_WORDS: usize = 7;
pub const ENTRY_WORDS: usize = 6;
/// The least a data field has: front matter and CRC.
pub const LEAST_WORDS: usize = FRONT_WORDS + 1;

pub const FLAG_LAST: u8 = 0x80;
pub const FLAG_OUT_OF_SEQUENCE: u8 = 0x08;
/// Where a copy's number stands in a data field that is ignored.
pub const IGNORED: u8 = 0xFF;

/// Two octets of a map, the high one first.
pub trait Word: Copy + PartialEq {
    fn number(self) -> u16;
    fn from_number(number: u16) -> Self;
}

impl Word for [u8; 2] {
    fn number(self) -> u16 {
        u16::from_be_bytes(self)
    }

    fn from_number(number: u16) -> Self {
        number.to_be_bytes()
    }
}

impl Word for u16 {
    fn number(self) -> u16 {
        self
    }

    fn from_number(number: u16) -> Self {
        number
    }
}

/// The number that two words make.
pub fn number_of(high: u16, low: u16) -> u32 {
    u32::from(high) << 16 | u32::from(low)
}

#[derive(Clone, Copy, Default)]
pub struct Front {
    /// Of the octets that follow it.
    pub count: u16,
    pub flags: u8,
    pub copy: u8,
    pub sets: u16,
    pub set: u16,
    pub storage_cylinder: u32,
    pub storage_head: u16,
}

impl Front {
    pub fn from_words<W: Word>(words: &[W; FRONT_WORDS]) -> Front {
        let [count, flags_and_copy, sets, set, c0, c1, storage_head] = words.map(W::number);
        let [flags, copy] = flags_and_copy.to_be_bytes();
        Front {
            count,
            flags,
            copy,
            sets,
            set,
            storage_cylinder: number_of(c0, c1),
            storage_head,
        }
    }

    pub fn words<W: Word>(self) -> [W; FRONT_WORDS] {
        let numbers = [
            self.count,
            u16::from_be_bytes([self.flags, self.copy]),
            self.sets,
            self.set,
            (self.storage_cylinder >> 16) as u16,
            self.storage_cylinder as u16,
            self.storage_head,
        ];
        numbers.map(W::from_number)
    }
}

/// A data field taken apart.
#[derive(Clone, Copy)]
pub struct DataField<'a, W> {
    pub front: Front,
    /// Everything before the CRC.
    pub words: &'a [W],
    /// Entries and padding, as far as they make up slots for entries.
    slots: &'a [[W; ENTRY_WORDS]],
    pub crc: u16,
}

impl<'a, W: Word> DataField<'a, W> {
    pub fn from_words(field: &'a [W]) -> DataField<'a, W> {
        let (crc, words) = field.split_last().expect("a CRC");
        let (front, rest) = words.split_first_chunk().expect("front matter");
        let (slots, _) = rest.as_chunks();
        DataField {
            front: Front::from_words(front),
            words,
            slots,
            crc: crc.number(),
        }
    }

    pub fn entries(self) -> impl Iterator<Item = Defect> + 'a {
        let defects = self.slots.iter().map(Defect::from_words);
        defects.take_while(|defect| !defect.is_zeros())
    }
}
