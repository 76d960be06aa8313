//! The calls for maps at the plain Rust, at the archive and at the wrapper, told alike.

use crate::setups::Numbers;
use crate::shared::plain::{self, Defect, Map, Setup};
use pantoglide::{raw, MapRefusal, Refusal, Track};

const TOO_SHORT: u8 = 10;
/// What stands where a call could tell a number.
const UNTOLD: usize = usize::MAX - 0x1111;
const UNTOLD_WORD: u16 = 0xEEEE;

/// A refusal's number, and the offset at which it lies.
pub type Offence = (u8, usize);
/// Cylinder and head.
pub type Storage = (u16, u16);
/// Cylinder, head and sector.
pub type Place = (u16, u16, u16);

/// A map decoded from octets or read off words.
type Decode<Element> = fn(&Numbers, &[Element], &mut [u8]) -> Result<Map, Offence>;
/// A map encoded into octets or written on words.
type Encode<Element, Told> = fn(&Numbers, Storage, &[u8], &mut [Element]) -> Result<Told, u8>;

#[derive(Clone, Copy)]
pub struct Side {
    pub name: &'static str,
    pub decode_defect: fn(&[u8]) -> Result<Defect, u8>,
    pub encode_defect: fn(Defect, &mut [u8]) -> Result<(), u8>,
    pub map_place: fn(&Numbers, usize) -> Result<Place, u8>,
    pub decode_map: Decode<u8>,
    pub encode_map: Encode<u8, usize>,
    pub read_map: Decode<u16>,
    pub write_map: Encode<u16, ()>,
}

pub const PLAIN: Side = Side {
    name: "plain Rust",
    decode_defect: Defect::decode,
    encode_defect: Defect::encode,
    map_place: |numbers, k| plain::map_place(Setup::from_numbers(numbers), k),
    decode_map: |numbers, octets, defects| {
        plain::decode_map(Setup::from_numbers(numbers), octets, defects)
    },
    encode_map: |numbers, (cylinder, head), defects, out| {
        plain::encode_map(Setup::from_numbers(numbers), cylinder, head, defects, out)
    },
    read_map: |numbers, sectors, defects| {
        plain::read_map(Setup::from_numbers(numbers), sectors, defects)
    },
    write_map: |numbers, (cylinder, head), defects, sectors| {
        plain::write_map(
            Setup::from_numbers(numbers),
            cylinder,
            head,
            defects,
            sectors,
        )
    },
};

pub const ARCHIVE: Side = Side {
    name: "archive",
    decode_defect: |octets| {
        let [mut cylinder, mut offset] = [UNTOLD as u32; 2];
        let [mut head, mut length] = [UNTOLD_WORD; 2];
        let returned =
            raw::decode_defect(octets, &mut cylinder, &mut head, &mut offset, &mut length);
        let told = Defect {
            cylinder,
            head,
            offset,
            length,
        };
        let untold = Defect {
            cylinder: UNTOLD as u32,
            head: UNTOLD_WORD,
            offset: UNTOLD as u32,
            length: UNTOLD_WORD,
        };
        unless_refused(returned, told, untold)
    },
    encode_defect: |defect, octets| {
        let Defect {
            cylinder,
            head,
            offset,
            length,
        } = defect;
        let returned = raw::encode_defect(cylinder, head, offset, length, octets);
        unless_refused(returned, (), ())
    },
    map_place: |numbers, k| {
        let [mut cylinder, mut head, mut sector] = [UNTOLD_WORD; 3];
        let returned = raw::map_place(*numbers, k, &mut cylinder, &mut head, &mut sector);
        let untold = (UNTOLD_WORD, UNTOLD_WORD, UNTOLD_WORD);
        unless_refused(returned, (cylinder, head, sector), untold)
    },
    decode_map: |numbers, octets, defects| {
        map_told_by(|count, cylinder, head, offset| {
            raw::decode_map(*numbers, octets, defects, count, cylinder, head, offset)
        })
    },
    encode_map: |numbers, (cylinder, head), defects, out| {
        let mut size = UNTOLD;
        let returned = raw::encode_map(*numbers, cylinder, head, defects, out, &mut size);
        unless_refused(returned, size, UNTOLD)
    },
    read_map: |numbers, sectors, defects| {
        map_told_by(|count, cylinder, head, offset| {
            raw::read_map(*numbers, sectors, defects, count, cylinder, head, offset)
        })
    },
    write_map: |numbers, (cylinder, head), defects, sectors| {
        let returned = raw::write_map(*numbers, cylinder, head, defects, sectors);
        unless_refused(returned, (), ())
    },
};

/// A call's results, which a refusal leaves as they were.
fn unless_refused<T: PartialEq + std::fmt::Debug>(
    returned: u8,
    told: T,
    untold: T,
) -> Result<T, u8> {
    if returned == 0 {
        return Ok(told);
    }
    assert_eq!(told, untold, "refused with {returned}");
    Err(returned)
}

/// The results of a call that tells a map: an acceptance leaves the offset as it was, and a refusal
/// all but that.
fn map_told_by(
    call: impl FnOnce(&mut usize, &mut u16, &mut u16, &mut usize) -> u8,
) -> Result<Map, Offence> {
    let [mut count, mut offset] = [UNTOLD; 2];
    let [mut cylinder, mut head] = [UNTOLD_WORD; 2];
    let returned = call(&mut count, &mut cylinder, &mut head, &mut offset);
    if returned == 0 {
        assert_eq!(offset, UNTOLD, "the offset of a map");
    }
    let untold = map(UNTOLD, UNTOLD_WORD, UNTOLD_WORD);
    let told = unless_refused(returned, map(count, cylinder, head), untold);
    told.map_err(|number| (number, offset))
}

fn map(count: usize, storage_cylinder: u16, storage_head: u16) -> Map {
    Map {
        count,
        storage_cylinder,
        storage_head,
    }
}

pub const WRAPPER: Side = Side {
    name: "wrapper",
    // It takes twelve octets and no fewer.
    decode_defect: |octets| {
        let octets = octets.first_chunk().ok_or(TOO_SHORT)?;
        let told = pantoglide::Defect::from_octets(octets);
        Ok(Defect {
            cylinder: told.cylinder,
            head: told.head,
            offset: told.offset,
            length: told.length,
        })
    },
    encode_defect: |defect, octets| {
        let defect = pantoglide::Defect {
            cylinder: defect.cylinder,
            head: defect.head,
            offset: defect.offset,
            length: defect.length,
        };
        *octets.first_chunk_mut().ok_or(TOO_SHORT)? = defect.octets();
        Ok(())
    },
    map_place: |numbers, k| {
        let place = wrapped(numbers).map_place(k).map_err(Refusal::number)?;
        Ok((place.cylinder, place.head, place.sector))
    },
    decode_map: |numbers, octets, defects| map_told(wrapped(numbers).decode_map(octets, defects)),
    encode_map: |numbers, storage, defects, out| {
        let size = wrapped(numbers).encode_map(track(storage), defects, out);
        size.map_err(Refusal::number)
    },
    read_map: |numbers, sectors, defects| map_told(wrapped(numbers).read_map(sectors, defects)),
    write_map: |numbers, storage, defects, sectors| {
        let written = wrapped(numbers).write_map(track(storage), defects, sectors);
        written.map_err(Refusal::number)
    },
};

fn wrapped(numbers: &Numbers) -> pantoglide::Setup {
    pantoglide::Setup::from_numbers(*numbers)
}

fn track((cylinder, head): Storage) -> Track {
    Track { cylinder, head }
}

fn map_told(told: Result<pantoglide::Map, MapRefusal>) -> Result<Map, Offence> {
    let told = told.map_err(|refused| (refused.refusal.number(), refused.offset))?;
    let octets = told.defects().flat_map(pantoglide::Defect::octets);
    assert!(octets.eq(told.octets().iter().copied()));
    let Track { cylinder, head } = told.storage();
    Ok(map(told.defects().len(), cylinder, head))
}
