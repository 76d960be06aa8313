//! Defects and their order.

use super::layout::{number_of, Word, ENTRY_WORDS};
use super::{Setup, TOO_SHORT};

pub const ENTRY_OCTETS: usize = 12;

#[derive(Clone, Copy, Debug, Default, PartialEq, Eq)]
pub struct Defect {
    pub cylinder: u32,
    pub head: u16,
    /// In octets from Index.
    pub offset: u32,
    /// In bits.
    pub length: u16,
}

impl Defect {
    /// The defect in the first 12 octets, or 10. Any 12 octets are one.
    pub fn decode(octets: &[u8]) -> Result<Defect, u8> {
        let octets = octets.first_chunk().ok_or(TOO_SHORT)?;
        Ok(Defect::from_octets(octets))
    }

    /// Written to the first 12 octets, or 10 and nothing changed.
    pub fn encode(self, octets: &mut [u8]) -> Result<(), u8> {
        *octets.first_chunk_mut().ok_or(TOO_SHORT)? = self.octets();
        Ok(())
    }

    pub(super) fn from_octets(octets: &[u8; ENTRY_OCTETS]) -> Defect {
        let &[c0, c1, c2, c3, h0, h1, o0, o1, o2, o3, l0, l1] = octets;
        Defect {
            cylinder: u32::from_be_bytes([c0, c1, c2, c3]),
            head: u16::from_be_bytes([h0, h1]),
            offset: u32::from_be_bytes([o0, o1, o2, o3]),
            length: u16::from_be_bytes([l0, l1]),
        }
    }

    pub(super) fn octets(self) -> [u8; ENTRY_OCTETS] {
        let mut octets = [0; ENTRY_OCTETS];
        octets[..4].copy_from_slice(&self.cylinder.to_be_bytes());
        octets[4..6].copy_from_slice(&self.head.to_be_bytes());
        octets[6..10].copy_from_slice(&self.offset.to_be_bytes());
        octets[10..].copy_from_slice(&self.length.to_be_bytes());
        octets
    }

    pub(super) fn from_words<W: Word>(words: &[W; ENTRY_WORDS]) -> Defect {
        let [c0, c1, head, o0, o1, length] = words.map(W::number);
        Defect {
            cylinder: number_of(c0, c1),
            head,
            offset: number_of(o0, o1),
            length,
        }
    }

    /// Twelve zeros, which are no entry but the end of the entries.
    pub(super) fn is_zeros(self) -> bool {
        self == Defect::default()
    }

    pub(super) fn is_in_drive(self, setup: Setup) -> bool {
        self.cylinder < u32::from(*setup.cylinders) && self.head < *setup.heads
    }
}

/// The highest address of the defects so far: cylinder, head and offset.
#[derive(Default)]
pub struct Sequence(Option<(u32, u16, u32)>);

impl Sequence {
    /// Goes on to a defect, and tells whether it is out of sequence: at the address of one before
    /// it, or at a lower one.
    pub fn breaks_at(&mut self, defect: Defect) -> bool {
        let address = Some((defect.cylinder, defect.head, defect.offset));
        let is_broken = address <= self.0;
        if !is_broken {
            self.0 = address;
        }
        is_broken
    }
}
