//! Where a map's data fields are read from.

use super::defect::ENTRY_OCTETS;
use super::layout::{DataField, Word, IGNORED};
use super::{Offence, Setup, CUT_SHORT, NO_DATA_FIELD};

/// Words, and the index in them at which data field `k` starts.
pub struct Source<'a, W, Start> {
    pub setup: Setup<'a>,
    pub words: &'a [W],
    pub start: Start,
}

impl<'a, W: Word, Start: Fn(usize) -> usize> Source<'a, W, Start> {
    fn data_field(&self, k: usize) -> Result<DataField<'a, W>, u8> {
        if k >= self.setup.data_fields() {
            return Err(NO_DATA_FIELD);
        }
        let start = (self.start)(k);
        let words = self.words.get(start..start + self.setup.field_words());
        words.map(DataField::from_words).ok_or(CUT_SHORT)
    }

    /// The first data field from `k` on that is not ignored, and its offset. `k` is then the one
    /// behind it.
    pub fn next(&self, k: &mut usize) -> Result<(DataField<'a, W>, usize), Offence> {
        loop {
            let offset = *k * self.setup.field_octets();
            let field = self.data_field(*k).map_err(|number| (number, offset))?;
            *k += 1;
            if field.front.copy != IGNORED {
                return Ok((field, offset));
            }
        }
    }

    /// Copies the entries of a map that was judged and has so many data fields. Copy 0 of each set
    /// has them all.
    pub fn copy_entries(&self, data_fields: usize, defects: &mut [u8]) {
        let (room, _) = defects.as_chunks_mut::<ENTRY_OCTETS>();
        let mut room = room.iter_mut();
        let fields = (0..data_fields).flat_map(|k| self.data_field(k));
        for field in fields.filter(|field| field.front.copy == 0) {
            for (entry, into) in field.entries().zip(&mut room) {
                *into = entry.octets();
            }
        }
    }
}
