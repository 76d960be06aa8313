//! The maker's defect map (request M-108): the worked cases of the reading, at the plain Rust, at the
//! archive and at the wrapper; the laws that maps keep, on random ones at the plain Rust; and the
//! other two against that.
//!
//! `PANTOGLIDE_MAPS` sets the number of random maps in each test, 100,000 where it is not set.

mod accepted;
mod agreement;
mod changes;
mod damage;
mod drives;
mod encodings;
mod interface;
mod laws;
mod maps;
mod refused;
mod sectors;
mod setups;
mod sides;
mod spelling;
mod tally;

use accepted::ACCEPTED;
use encodings::{ENCODINGS, PLACES};
use refused::REFUSED;
use shared::plain::{Defect, Map};
use sides::{Side, ARCHIVE, PLAIN, WRAPPER};

#[allow(dead_code, unused_imports)] // the speed program uses the rest
#[path = "../../shared/mod.rs"]
mod shared;

/// What stands in a lent slice before a call.
const BEFORE: u8 = 0xEE;

fn maps_to_try() -> usize {
    match std::env::var("PANTOGLIDE_MAPS") {
        Ok(number) => number.parse().expect("PANTOGLIDE_MAPS is a number"),
        Err(_) => 100_000,
    }
}

/// The reading names four measures; the others are the bench drive's.
const fn drive(cylinders: u16, heads: u16, sectors: u16, field1: u16) -> [u16; 7] {
    [cylinders, heads, sectors, 1, field1, 1, 3]
}

fn octets(hex: &[&str]) -> Vec<u8> {
    let hex = hex.concat();
    let pairs = hex.as_bytes().chunks(2);
    let pairs = pairs.map(|pair| std::str::from_utf8(pair).expect("hexadecimal digits"));
    let octets = pairs.map(|pair| u8::from_str_radix(pair, 16).expect("an octet"));
    octets.collect()
}

/// A test for each side: what the function asserts of a side holds at all of them.
macro_rules! at_every_side {
    ($($test:ident),*) => {
        mod plain_rust {
            $(#[test] fn $test() { super::$test(super::PLAIN); })*
        }
        mod archive {
            $(#[test] fn $test() { super::$test(super::ARCHIVE); })*
        }
        mod wrapper {
            $(#[test] fn $test() { super::$test(super::WRAPPER); })*
        }
    };
}

at_every_side!(
    worked_cases_are_decoded_and_encoded_again,
    worked_cases_are_refused,
    worked_cases_are_encoded,
    worked_places,
    a_defect_is_twelve_octets
);

fn worked_cases_are_decoded_and_encoded_again(side: Side) {
    for case in &ACCEPTED {
        let string = octets(case.octets);
        let mut room = vec![BEFORE; string.len() / 3 + 1];
        let map = (side.decode_map)(&case.drive, &string, &mut room);
        let (storage_cylinder, storage_head) = case.storage;
        let expected = Map {
            count: case.defects.len(),
            storage_cylinder,
            storage_head,
        };
        assert_eq!(map, Ok(expected), "{}", case.case);

        let (entries, rest) = room.split_at(12 * expected.count);
        let defects = entries.chunks(12).map(side.decode_defect);
        assert!(defects.eq(case.defects.iter().map(|defect| Ok(*defect))));
        assert!(rest.iter().all(|octet| *octet == BEFORE));

        let mut out = vec![BEFORE; string.len()];
        let size = (side.encode_map)(&case.drive, case.storage, entries, &mut out);
        let again = case.encodes_to.map_or(string, octets);
        assert_eq!(size, Ok(again.len()), "{}", case.case);
        assert_eq!(out[..again.len()], again, "{}", case.case);
        assert!(out[again.len()..].iter().all(|octet| *octet == BEFORE));
    }
}

fn worked_cases_are_refused(side: Side) {
    for case in &REFUSED {
        let string = octets(case.octets);
        let mut room = vec![BEFORE; string.len() / 3];
        let map = (side.decode_map)(&case.drive, &string, &mut room);
        assert_eq!(map, Err(case.offence), "{}", case.case);
        assert!(room.iter().all(|octet| *octet == BEFORE), "{}", case.case);
    }
}

fn worked_cases_are_encoded(side: Side) {
    for case in &ENCODINGS {
        let mut out = vec![BEFORE; case.room];
        let defects = octets(&[case.defects]);
        let size = (side.encode_map)(&case.drive, case.storage, &defects, &mut out);
        let expected_size = case.result.map(|fields| octets(fields).len());
        assert_eq!(size, expected_size, "{}", case.case);
        let written = case.result.map_or(Vec::new(), octets);
        assert_eq!(out[..written.len()], written, "{}", case.case);
        assert!(out[written.len()..].iter().all(|octet| *octet == BEFORE));
    }
}

fn worked_places(side: Side) {
    for (numbers, k, place) in &PLACES {
        assert_eq!((side.map_place)(numbers, *k), *place, "{k}");
    }
}

fn a_defect_is_twelve_octets(side: Side) {
    let defect = Defect {
        cylinder: 0x0001_0203,
        head: 0x0405,
        offset: 0x0607_0809,
        length: 0x0A0B,
    };
    let mut room = [BEFORE; 13];
    assert_eq!((side.encode_defect)(defect, &mut room[..11]), Err(10));
    assert_eq!(room, [BEFORE; 13]);
    assert_eq!((side.encode_defect)(defect, &mut room), Ok(()));
    assert_eq!(room, [0, 1, 2, 3, 4, 5, 6, 7, 8, 9, 10, 11, BEFORE]);
    assert_eq!((side.decode_defect)(&room), Ok(defect));
    assert_eq!((side.decode_defect)(&room[..11]), Err(10));
}
