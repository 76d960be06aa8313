//! The archive and the wrapper against the plain Rust, on random strings, values and drives: what a
//! call returns and everything that it could have changed.

use crate::maps::{likely_decoding, likely_encoding};
use crate::sectors::{drive_words, length_near, random_words, write_over, MOST_WORDS};
use crate::setups::{field_octets, measures};
use crate::shared::plain::Defect;
use crate::shared::random::Random;
use crate::sides::{Offence, Side, ARCHIVE, PLAIN, WRAPPER};
use crate::tally::Tally;
use crate::{maps_to_try, BEFORE};
use std::fmt::Debug;

const TOO_SHORT: u8 = 10;

/// What a call tells, lent a slice with these contents. All sides tell the same and leave the slice
/// alike.
pub fn agreed<E, T>(before: &[E], request: &dyn Debug, call: impl Fn(Side, &mut [E]) -> T) -> T
where
    E: Clone + PartialEq,
    T: PartialEq + Debug,
{
    let mut expected_after = before.to_vec();
    let expected = call(PLAIN, &mut expected_after);
    for side in [ARCHIVE, WRAPPER] {
        let mut after = before.to_vec();
        let told = call(side, &mut after);
        assert_eq!(told, expected, "{}, {request:?}", side.name);
        assert!(after == expected_after, "{}, {request:?}", side.name);
    }
    expected
}

/// The number of a result that may have an offset.
pub fn number<T>(result: Result<T, Offence>) -> u8 {
    result.map_or_else(|(number, _)| number, |_| 0)
}

#[test]
fn strings_are_decoded_alike() {
    let mut random = Random::new(0x6108);
    let mut tally = Tally::default();
    for _ in 0..maps_to_try() {
        let case = likely_decoding(&mut random);
        let needed = case.octets.len() / 3;
        for room in [case.room, needed.saturating_sub(1)] {
            let result = agreed(&vec![BEFORE; room], &case, |side, defects| {
                (side.decode_map)(&case.numbers, &case.octets, defects)
            });
            tally.note(number(result));
        }
    }
    tally.assert_met("decoded", [0, 9, 10].into_iter().chain(16..=28));
}

#[test]
fn values_are_encoded_alike() {
    let mut random = Random::new(0x7108);
    let mut tally = Tally::default();
    for _ in 0..maps_to_try() {
        let case = likely_encoding(&mut random);
        let encode = |room: usize| {
            agreed(&vec![BEFORE; room], &case, |side, out| {
                (side.encode_map)(&case.numbers, case.storage, &case.defects, out)
            })
        };
        let result = encode(case.room);
        tally.note(result.err().unwrap_or(0));
        if let Ok(size) = result {
            assert_eq!(encode(size - 1), Err(TOO_SHORT), "{case:?}");
            tally.note(TOO_SHORT);
        }
    }
    tally.assert_met("encoded", [0, 8, 9, 10]);
}

#[test]
fn drives_are_read_alike() {
    let mut random = Random::new(0x8108);
    let mut tally = Tally::default();
    for _ in 0..maps_to_try() {
        let case = likely_decoding(&mut random);
        let needed = drive_words(&case.numbers);
        if needed > MOST_WORDS {
            continue;
        }
        let mut sectors = random_words(&mut random, needed + 4);
        write_over(&case.numbers, &case.octets, &mut sectors);
        let (data_fields, _) = measures(&case.numbers);
        let room = data_fields * field_octets(&case.numbers) / 3;
        for (length, room) in [
            (
                length_near(&mut random, needed),
                length_near(&mut random, room),
            ),
            (needed.saturating_sub(1), room),
            (needed, room.saturating_sub(1)),
        ] {
            let result = agreed(&vec![BEFORE; room], &case, |side, defects| {
                (side.read_map)(&case.numbers, &sectors[..length], defects)
            });
            tally.note(number(result));
        }
    }
    tally.assert_met("read", [0, 9, 10, 16].into_iter().chain(18..=27));
}

#[test]
fn drives_are_written_alike() {
    let mut random = Random::new(0x9108);
    let mut tally = Tally::default();
    for _ in 0..maps_to_try() {
        let case = likely_encoding(&mut random);
        let needed = drive_words(&case.numbers);
        if needed > MOST_WORDS {
            continue;
        }
        let sectors = random_words(&mut random, needed + 4);
        for length in [length_near(&mut random, needed), needed.saturating_sub(1)] {
            let result = agreed(&sectors[..length], &case, |side, sectors| {
                (side.write_map)(&case.numbers, case.storage, &case.defects, sectors)
            });
            tally.note(result.err().unwrap_or(0));
        }
    }
    tally.assert_met("written", [0, 8, 9, 10]);
}

/// Drives whose sector words 32 bits would count as next to none. Any slice is too short for them.
#[test]
fn sizes_over_32_bits_are_judged_alike() {
    for [header, field1, field2] in [[0, 128, 0], [0, 8, 120], [8, 1024, 1016], [0, 1024, 1024]] {
        let numbers = [4096, 32, 256, header, field1, field2, 0];
        let sectors = [0; 4096];
        let room = vec![BEFORE; 1 << 24];
        let read = agreed(&room, &numbers, |side, defects| {
            (side.read_map)(&numbers, &sectors, defects)
        });
        assert_eq!(read, Err((TOO_SHORT, 0)));
        let written = agreed(&sectors, &numbers, |side, sectors| {
            (side.write_map)(&numbers, (0, 0), &[], sectors)
        });
        assert_eq!(written, Err(TOO_SHORT));
    }
}

#[test]
fn places_are_told_alike() {
    let mut random = Random::new(0xA108);
    let mut tally = Tally::default();
    for _ in 0..maps_to_try() {
        let numbers = likely_decoding(&mut random).numbers;
        let (data_fields, _) = measures(&numbers);
        let any = random.below(data_fields + 2);
        for k in [
            any,
            data_fields.saturating_sub(1),
            data_fields,
            any | 1 << 32,
            usize::MAX,
        ] {
            let place = agreed(&[0; 0], &(numbers, k), |side, _| {
                (side.map_place)(&numbers, k)
            });
            tally.note(place.err().unwrap_or(0));
        }
    }
    tally.assert_met("placed", [0, 9, 16]);
}

#[test]
fn defects_are_told_alike() {
    let mut random = Random::new(0xB108);
    let mut tally = Tally::default();
    for _ in 0..maps_to_try() {
        let octets = random.next().to_be_bytes();
        let octets = [octets, random.next().to_be_bytes()].concat();
        let octets = &octets[..random.below(15)];
        let decoded = agreed(&[0; 0], &octets, |side, _| (side.decode_defect)(octets));
        let defect = decoded.unwrap_or(Defect {
            cylinder: random.next() as u32,
            head: random.word(),
            offset: random.next() as u32,
            length: random.word(),
        });
        let room = vec![BEFORE; random.below(15)];
        let encoded = agreed(&room, &defect, |side, octets| {
            (side.encode_defect)(defect, octets)
        });
        tally.note(decoded.err().unwrap_or(0));
        tally.note(encoded.err().unwrap_or(0));
    }
    tally.assert_met("defects", [0, 10]);
}
