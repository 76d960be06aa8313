//! The drive's measures and the places in it.

#[derive(Clone, Copy)]
pub struct Setup<'a> {
    pub cylinders: &'a u16,
    pub heads: &'a u16,
    pub sectors: &'a u16,
    pub header: &'a u16,
    pub field1: &'a u16,
    pub field2: &'a u16,
    pub address: &'a u16,
}

#[derive(Clone, Copy)]
pub struct Place {
    pub cylinder: u16,
    pub head: u16,
    pub sector: u16,
}

impl<'a> Setup<'a> {
    /// In the order of the fields.
    pub fn from_numbers(numbers: &'a [u16; 7]) -> Setup<'a> {
        let [cylinders, heads, sectors, header, field1, field2, address] = numbers;
        Setup {
            cylinders,
            heads,
            sectors,
            header,
            field1,
            field2,
            address,
        }
    }

    #[inline(always)]
    pub fn is_within_limits(&self) -> bool {
        (1..=4096).contains(self.cylinders)
            && (1..=32).contains(self.heads)
            && (1..=256).contains(self.sectors)
            && *self.header <= 8
            && (1..=1024).contains(self.field1)
            && *self.field2 <= 1024
            && *self.address <= 7
    }

    #[inline(always)]
    pub fn words_per_sector(&self) -> usize {
        usize::from(*self.header) + usize::from(*self.field1) + usize::from(*self.field2)
    }

    /// Whether the lent slices hold every sector, and one sector. The count needs 37 bits.
    #[inline(always)]
    pub fn has_room(&self, sectors: &[u16], staging: &[u16]) -> bool {
        let per_sector = self.words_per_sector();
        let count = u64::from(*self.cylinders) * u64::from(*self.heads) * u64::from(*self.sectors);
        count * per_sector as u64 <= sectors.len() as u64 && per_sector <= staging.len()
    }

    #[inline(always)]
    pub fn contains(&self, place: Place) -> bool {
        place.cylinder < *self.cylinders && place.head < *self.heads && place.sector < *self.sectors
    }

    /// Index of the first word of the sector at a place.
    #[inline(always)]
    pub fn first_word(&self, place: Place) -> usize {
        let track =
            usize::from(place.cylinder) * usize::from(*self.heads) + usize::from(place.head);
        let sector = track * usize::from(*self.sectors) + usize::from(place.sector);
        sector * self.words_per_sector()
    }
}
