//! The laws of strings and values, on random ones.

use crate::maps::{likely_decoding, likely_encoding, plain_fields, Decoding, Encoding};
use crate::setups::Numbers;
use crate::shared::plain::{self, Setup};
use crate::shared::random::Random;
use crate::spelling::{is_plain, Value};
use crate::{maps_to_try, BEFORE};

const NOT_ENCODABLE: u8 = 8;

/// The value of a map. Every octet that is no part of it is checked to be as it was.
fn decoded(numbers: &Numbers, octets: &[u8], room: usize) -> Result<Value, (u8, usize)> {
    let mut defects = vec![BEFORE; room];
    let map = plain::decode_map(Setup::from_numbers(numbers), octets, &mut defects);
    let written = map.map_or(0, |map| 12 * map.count);
    assert!(defects[written..].iter().all(|octet| *octet == BEFORE));
    let map = map?;
    let (entries, _) = defects[..written].as_chunks();
    Ok(Value {
        storage: (map.storage_cylinder, map.storage_head),
        defects: entries.to_vec(),
    })
}

/// The octets of a value. Every octet behind them is checked to be as it was.
fn encoded(case: &Encoding) -> Result<Vec<u8>, u8> {
    let mut out = vec![BEFORE; case.room];
    let (cylinder, head) = case.storage;
    let drive = Setup::from_numbers(&case.numbers);
    let size = plain::encode_map(drive, cylinder, head, &case.defects, &mut out);
    let written = size.unwrap_or(0);
    assert!(out[written..].iter().all(|octet| *octet == BEFORE));
    out.truncate(size?);
    Ok(out)
}

#[test]
fn strings_are_decoded_or_refused_and_every_number_occurs() {
    let mut random = Random::new(0x1108);
    let (mut seen, mut plain, mut free) = ([0; 29], 0, 0);
    let strings = maps_to_try();
    for _ in 0..strings {
        let case = likely_decoding(&mut random);
        let result = decoded(&case.numbers, &case.octets, case.room);
        if let Some(value) = &case.value {
            assert_eq!(result.as_ref(), Ok(value), "{case:?}");
        }
        match result {
            Ok(value) if is_encoded_alike(&case, &value) => plain += 1,
            Ok(_) => free += 1,
            Err((number, _)) => seen[usize::from(number)] += 1,
        }
    }
    println!("decoded: {plain} plain, {free} in other spellings");
    assert!(plain > strings / 10 && free > strings / 10);
    for number in (9..=10).chain(16..=28) {
        println!("{number}: {}", seen[number]);
        assert!(seen[number] >= 100, "{number} occurred too seldom");
    }
}

/// Encodes a decoded map, which gives the string again exactly if that is plain.
fn is_encoded_alike(case: &Decoding, value: &Value) -> bool {
    let again = encoded(&Encoding {
        numbers: case.numbers,
        storage: value.storage,
        defects: value.defects.concat(),
        room: case.octets.len(),
    });
    let again = again.unwrap_or_else(|number| panic!("{number} for {case:?}"));
    assert!(is_plain(&case.numbers, &again), "{case:?}");
    let is_alike = again == case.octets;
    assert_eq!(is_alike, is_plain(&case.numbers, &case.octets), "{case:?}");
    is_alike
}

#[test]
fn values_are_encoded_plainly_and_decoded_again() {
    let mut random = Random::new(0x2108);
    let mut seen = [0; 11];
    let values = maps_to_try();
    for _ in 0..values {
        let case = likely_encoding(&mut random);
        let result = encoded(&case);
        assert_encoded_rightly(&case, &result);
        seen[usize::from(result.err().unwrap_or(0))] += 1;
    }
    println!("encoded, and refused by number: {seen:?}");
    for number in [0, 8, 9, 10] {
        assert!(seen[number] > values / 100, "{number} occurred too seldom");
    }
}

/// What is encoded is decoded again. What is refused with 8 no encoder could have encoded: its
/// plain spelling is decoded to something else, or not at all.
fn assert_encoded_rightly(case: &Encoding, result: &Result<Vec<u8>, u8>) {
    let is_whole = case.defects.len().is_multiple_of(12);
    let value = case.value();
    let spelled = || plain_fields(&case.numbers, &value).concat();
    let decoded = |octets: &[u8]| decoded(&case.numbers, octets, octets.len() / 3);
    match result {
        Ok(octets) => {
            assert!(is_whole && *octets == spelled(), "{case:?}");
            assert_eq!(decoded(octets), Ok(value), "{case:?}");
        }
        Err(NOT_ENCODABLE) if is_whole => {
            assert_ne!(decoded(&spelled()), Ok(value), "{case:?}");
        }
        Err(_) => {}
    }
}
