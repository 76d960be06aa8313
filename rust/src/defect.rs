//! Defects, as numbers and as octets.

use crate::raw::{self, DEFECT_OCTETS};

/// A defect that the drive's maker found.
#[derive(Clone, Copy, Debug, Default, PartialEq, Eq, Hash)]
pub struct Defect {
    /// Counted from 0.
    pub cylinder: u32,
    /// Counted from 0.
    pub head: u16,
    /// Where it begins on its track, in octets from Index.
    pub offset: u32,
    /// In bits.
    pub length: u16,
}

impl Defect {
    /// The defect that octets are. Any are one, in the drive or not.
    pub fn from_octets(octets: &[u8; DEFECT_OCTETS]) -> Defect {
        let mut defect = Defect::default();
        let Defect {
            cylinder,
            head,
            offset,
            length,
        } = &mut defect;
        // As many octets as it has are never too few.
        raw::decode_defect(octets, cylinder, head, offset, length);
        defect
    }

    /// The defect as octets, the high one of each number first.
    pub fn octets(self) -> [u8; DEFECT_OCTETS] {
        let Defect {
            cylinder,
            head,
            offset,
            length,
        } = self;
        let mut octets = [0; DEFECT_OCTETS];
        raw::encode_defect(cylinder, head, offset, length, &mut octets);
        octets
    }
}
