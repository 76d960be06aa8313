//! The maker's defect map, by the rules of `docs/DEFECTS.md`.

use crate::raw::{self, DEFECT_OCTETS};
use crate::{Defect, Place, Refusal, Setup};
use core::fmt;

/// A track of the drive.
#[derive(Clone, Copy, Debug, Default, PartialEq, Eq, Hash)]
pub struct Track {
    /// Counted from 0.
    pub cylinder: u16,
    /// Counted from 0.
    pub head: u16,
}

/// What a map says: its storage track, and its defects in the slice that was lent for them.
#[derive(Clone, Copy, Debug, PartialEq, Eq)]
pub struct Map<'a> {
    storage: Track,
    octets: &'a [u8],
}

impl<'a> Map<'a> {
    /// The first track at which a controller may store its format specifications.
    pub fn storage(&self) -> Track {
        self.storage
    }

    /// The defects, in the order of the map.
    pub fn defects(&self) -> impl ExactSizeIterator<Item = Defect> + Clone + 'a {
        let (defects, _) = self.octets.as_chunks();
        defects.iter().map(Defect::from_octets)
    }

    /// The octets of the defects, [`DEFECT_OCTETS`] each, as [`Setup::encode_map`] takes them.
    pub fn octets(&self) -> &'a [u8] {
        self.octets
    }

    /// What a call tells that is handed the lent slice, places for a count, a cylinder and a head,
    /// and one for the offset of an offence.
    fn told_by<F>(defects: &'a mut [u8], call: F) -> Result<Map<'a>, MapRefusal>
    where
        F: FnOnce(&mut [u8], &mut usize, &mut u16, &mut u16, &mut usize) -> u8,
    {
        let (mut count, mut storage, mut offset) = (0, Track::default(), 0);
        let Track { cylinder, head } = &mut storage;
        let returned = call(defects, &mut count, cylinder, head, &mut offset);
        Refusal::check(returned).map_err(|refusal| MapRefusal { refusal, offset })?;
        let octets = &defects[..DEFECT_OCTETS * count];
        Ok(Map { storage, octets })
    }
}

/// Why octets, or the words of a last cylinder, are no map.
#[derive(Clone, Copy, Debug, PartialEq, Eq)]
pub struct MapRefusal {
    /// The rule that is broken first.
    pub refusal: Refusal,
    /// How many octets of the map lie before the offence; 0 if none was looked at.
    pub offset: usize,
}

impl fmt::Display for MapRefusal {
    fn fmt(&self, out: &mut fmt::Formatter<'_>) -> fmt::Result {
        let MapRefusal { refusal, offset } = self;
        match refusal {
            Refusal::OutsideLimits | Refusal::TooShort => refusal.fmt(out),
            _ => {
                let (number, reason) = (refusal.number(), refusal.reason());
                write!(out, "refused {number} at octet {offset}: {reason}")
            }
        }
    }
}

impl core::error::Error for MapRefusal {}

/// The maker's defect map of a drive with these measures. It stands on the last cylinder, in field 1
/// of the sectors, which are its data fields: those of the last head first, then those of the one
/// below it, and so on.
impl Setup {
    /// Where a data field of the map stands, counted from 0.
    ///
    /// Refused with [`Refusal::OutsideLimits`], then with [`Refusal::MapNoDataField`].
    pub fn map_place(&self, data_field: usize) -> Result<Place, Refusal> {
        let mut place = Place::default();
        let Place {
            cylinder,
            head,
            sector,
        } = &mut place;
        Refusal::check(raw::map_place(
            self.numbers(),
            data_field,
            cylinder,
            head,
            sector,
        ))?;
        Ok(place)
    }

    /// Decodes the octets of a map's data fields. The defects go to the front of `defects`, the rest
    /// of which stays as it was.
    ///
    /// ```
    /// use pantoglide::{Defect, Refusal, Setup, Track};
    ///
    /// let setup = Setup { cylinders: 2, heads: 2, sectors: 3, header: 1, field1: 14, field2: 1, address: 3 };
    /// let (storage, mut octets) = (Track { cylinder: 1, head: 0 }, [0; 84]);
    /// let defect = Defect { cylinder: 1, head: 1, offset: 300, length: 5 };
    /// assert_eq!(setup.encode_map(storage, &defect.octets(), &mut octets), Ok(84));
    ///
    /// let mut defects = [0; 28];
    /// let map = setup.decode_map(&octets, &mut defects)?;
    /// assert_eq!(map.storage(), storage);
    /// assert!(map.defects().eq([defect]));
    ///
    /// octets[83] ^= 1;
    /// let refused = setup.decode_map(&octets, &mut defects).unwrap_err();
    /// assert_eq!((refused.refusal, refused.offset), (Refusal::MapCrc, 82));
    /// # Ok::<(), pantoglide::MapRefusal>(())
    /// ```
    ///
    /// Refused with [`Refusal::OutsideLimits`], then with [`Refusal::TooShort`] if `defects` is
    /// shorter than a third of `octets`, then with the first offence against the rules from
    /// [`Refusal::MapNoDataField`] on; and then nothing changes.
    pub fn decode_map<'a>(
        &self,
        octets: &[u8],
        defects: &'a mut [u8],
    ) -> Result<Map<'a>, MapRefusal> {
        Map::told_by(defects, |defects, count, cylinder, head, offset| {
            let setup = self.numbers();
            raw::decode_map(setup, octets, defects, count, cylinder, head, offset)
        })
    }

    /// Encodes a map into the front of `out`, the rest of which stays as it was, and hands back how
    /// many octets it has. The defects are [`DEFECT_OCTETS`] octets each and stay in their order.
    ///
    /// Refused with [`Refusal::OutsideLimits`], then with [`Refusal::TooShort`] if `out` does not
    /// hold the map, then with [`Refusal::Malformed`] if defects are not whole, one or the storage
    /// track is not in the drive, one is twelve zeros, or the last cylinder does not hold the map;
    /// and then nothing changes.
    pub fn encode_map(
        &self,
        storage: Track,
        defects: &[u8],
        out: &mut [u8],
    ) -> Result<usize, Refusal> {
        let mut size = 0;
        Refusal::check(raw::encode_map(
            self.numbers(),
            storage.cylinder,
            storage.head,
            defects,
            out,
            &mut size,
        ))?;
        Ok(size)
    }

    /// Reads the map off the words of a drive, whatever follows it on the last cylinder. An
    /// offence's offset counts the octets of data fields as [`decode_map`](Setup::decode_map) does,
    /// two for each word.
    ///
    /// Refused as by [`decode_map`](Setup::decode_map), with [`Refusal::TooShort`] if the words are
    /// under [`drive_words`](Setup::drive_words) or `defects` is shorter than a third of
    /// [`map_octets`](Setup::map_octets); and then nothing changes.
    pub fn read_map<'a>(
        &self,
        sector_words: &[u16],
        defects: &'a mut [u8],
    ) -> Result<Map<'a>, MapRefusal> {
        Map::told_by(defects, |defects, count, cylinder, head, offset| {
            let setup = self.numbers();
            raw::read_map(setup, sector_words, defects, count, cylinder, head, offset)
        })
    }

    /// Writes a map on the words of a drive. Words that are no part of the map stay as they were,
    /// also those of the last cylinder.
    ///
    /// Refused as by [`encode_map`](Setup::encode_map), with [`Refusal::TooShort`] if the words are
    /// under [`drive_words`](Setup::drive_words); and then nothing changes.
    pub fn write_map(
        &self,
        storage: Track,
        defects: &[u8],
        sector_words: &mut [u16],
    ) -> Result<(), Refusal> {
        Refusal::check(raw::write_map(
            self.numbers(),
            storage.cylinder,
            storage.head,
            defects,
            sector_words,
        ))
    }
}
