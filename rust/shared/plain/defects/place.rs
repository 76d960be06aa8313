//! Where a map stands: field 1 of the last cylinder's sectors.

use super::defect::ENTRY_OCTETS;
use super::layout::{COPIES, LEAST_WORDS};
use super::{Place, Setup, NO_DATA_FIELD, OUTSIDE_LIMITS};

/// Cylinder, head and sector of data field `k`, or 9 or 16.
pub fn map_place(setup: Setup, k: usize) -> Result<(u16, u16, u16), u8> {
    if !setup.is_within_limits() {
        return Err(OUTSIDE_LIMITS);
    }
    if k >= setup.data_fields() {
        return Err(NO_DATA_FIELD);
    }
    let place = setup.data_field_place(k);
    Ok((place.cylinder, place.head, place.sector))
}

/// What follows takes measures that are within their limits.
impl Setup<'_> {
    pub(super) fn field_words(&self) -> usize {
        usize::from(*self.field1)
    }

    pub(super) fn field_octets(&self) -> usize {
        2 * self.field_words()
    }

    /// How many data fields the last cylinder has for a map.
    pub(super) fn data_fields(&self) -> usize {
        if self.field_words() < LEAST_WORDS {
            return 0;
        }
        usize::from(*self.heads) * usize::from(*self.sectors)
    }

    pub(super) fn entries_each(&self) -> usize {
        self.field_octets().saturating_sub(2 * LEAST_WORDS) / ENTRY_OCTETS
    }

    /// How many sets so many defects take, full ones first. A map without defects has one set; so
    /// has, where no entry fits a data field, any.
    pub(super) fn sets_for(&self, count: usize) -> usize {
        match self.entries_each() {
            0 => 1,
            entries_each => count.div_ceil(entries_each).max(1),
        }
    }

    pub(super) fn set_octets(&self) -> usize {
        COPIES * self.field_octets()
    }

    /// From the last track down, and up along each. There has to be a data field `k`.
    pub(super) fn data_field_place(&self, k: usize) -> Place {
        let sectors = usize::from(*self.sectors);
        Place {
            cylinder: *self.cylinders - 1,
            head: *self.heads - 1 - (k / sectors) as u16,
            sector: (k % sectors) as u16,
        }
    }

    /// Index of data field `k`'s first word in the sector slice.
    pub(super) fn data_field_start(&self, k: usize) -> usize {
        self.first_word(self.data_field_place(k)) + usize::from(*self.header)
    }

    /// Whether the sector slice holds every sector. A drive has one at least, so there is no less
    /// than the staging words that `has_room` asks for too.
    pub(super) fn has_every_sector(&self, sectors: &[u16]) -> bool {
        self.has_room(sectors, sectors)
    }
}
