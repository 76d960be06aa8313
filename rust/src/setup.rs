//! The drive's measures.

use crate::raw::Numbers;

/// Words of the shortest field 1 that holds a data field of the defect map.
const LEAST_MAP_WORDS: u16 = 8;

/// The drive's measures, each within the limits named beside it.
#[derive(Clone, Copy, Debug, PartialEq, Eq)]
pub struct Setup {
    /// 1 to 4,096.
    pub cylinders: u16,
    /// 1 to 32.
    pub heads: u16,
    /// Sectors per track, 1 to 256.
    pub sectors: u16,
    /// Words of a sector's header, 0 to 8.
    pub header: u16,
    /// Words of a sector's field 1, 1 to 1,024.
    pub field1: u16,
    /// Words of a sector's field 2, 0 to 1,024.
    pub field2: u16,
    /// 0 to 7.
    pub address: u16,
}

impl Setup {
    /// The measures from their numbers, in the order of the fields.
    pub const fn from_numbers(numbers: Numbers) -> Setup {
        let [cylinders, heads, sectors, header, field1, field2, address] = numbers;
        Setup {
            cylinders,
            heads,
            sectors,
            header,
            field1,
            field2,
            address,
        }
    }

    /// The numbers of the measures, in the order of the fields.
    pub const fn numbers(&self) -> Numbers {
        [
            self.cylinders,
            self.heads,
            self.sectors,
            self.header,
            self.field1,
            self.field2,
            self.address,
        ]
    }

    /// How many words one sector has: so many staging words the drive needs.
    pub fn sector_words(&self) -> usize {
        usize::from(self.header) + usize::from(self.field1) + usize::from(self.field2)
    }

    /// How many words all sectors have: so many sector words the drive needs. Measures outside
    /// their limits may have more than a `usize` counts, and then it is the greatest one.
    pub fn drive_words(&self) -> usize {
        product([self.cylinders, self.heads, self.sectors]).saturating_mul(self.sector_words())
    }

    /// How many octets a defect map has at the most: those of field 1 in all sectors of the last
    /// cylinder, or none where field 1 is too short for any map. A third of them holds its defects.
    pub fn map_octets(&self) -> usize {
        if self.field1 < LEAST_MAP_WORDS {
            return 0;
        }
        product([self.heads, self.sectors, self.field1]).saturating_mul(2)
    }
}

/// The product, or the greatest `usize` if that does not count it.
fn product(numbers: [u16; 3]) -> usize {
    let numbers = numbers.into_iter().map(usize::from);
    numbers.fold(1, usize::saturating_mul)
}
