//! Maps on drives: read and written where the places say, and nowhere else.

use crate::maps::{likely_decoding, likely_encoding, plain_fields, Decoding, Encoding};
use crate::sectors::{drive_words, length_near, map_words, random_words, write_over, MOST_WORDS};
use crate::setups::measures;
use crate::shared::plain::{self, Map, Setup};
use crate::shared::random::Random;
use crate::BEFORE;

const DRIVES: usize = 20_000;

const OUTSIDE_LIMITS: u8 = 9;
const TOO_SHORT: u8 = 10;
const BEHIND_THE_END: u8 = 28;

#[test]
fn a_map_is_read_as_its_string_is_decoded() {
    let mut random = Random::new(0x3108);
    let mut seen = [0; 29];
    for _ in 0..DRIVES {
        let case = likely_decoding(&mut random);
        if drive_words(&case.numbers) <= MOST_WORDS {
            let result = read_alike(&mut random, &case);
            seen[usize::from(result.map_or_else(|(number, _)| number, |_| 0))] += 1;
        }
    }
    println!("read, and refused by number: {seen:?}");
    for number in (9..=10).chain(18..=27).chain([0, 16]) {
        assert!(seen[number] > 20, "{number} occurred too seldom");
    }
}

/// The string on a drive, read and compared with what decoding all data fields gives.
fn read_alike(random: &mut Random, case: &Decoding) -> Result<Map, (u8, usize)> {
    let (drive, needed) = (
        Setup::from_numbers(&case.numbers),
        drive_words(&case.numbers),
    );
    let mut sectors = random_words(random, needed + 4);
    write_over(&case.numbers, &case.octets, &mut sectors);
    let words = map_words(&case.numbers).into_iter().map(|at| sectors[at]);
    let string = words.flat_map(u16::to_be_bytes).collect::<Vec<_>>();
    sectors.truncate(length_near(random, needed));

    let room = length_near(random, string.len() / 3);
    let (mut read, mut decoded) = (vec![BEFORE; room], vec![BEFORE; room]);
    let result = plain::read_map(drive, &sectors, &mut read);
    let expected = if plain::map_place(drive, 0) == Err(OUTSIDE_LIMITS) {
        Err((OUTSIDE_LIMITS, 0))
    } else if sectors.len() < needed {
        Err((TOO_SHORT, 0))
    } else {
        match plain::decode_map(drive, &string, &mut decoded) {
            Err((BEHIND_THE_END, end)) => plain::decode_map(drive, &string[..end], &mut decoded),
            other => other,
        }
    };
    assert_eq!((result, read), (expected, decoded), "{case:?}");
    result
}

#[test]
fn a_map_is_written_as_it_is_encoded() {
    let mut random = Random::new(0x4108);
    let mut seen = [0; 11];
    for _ in 0..DRIVES {
        let case = likely_encoding(&mut random);
        if drive_words(&case.numbers) <= MOST_WORDS {
            let result = written_alike(&mut random, &case);
            seen[usize::from(result.err().unwrap_or(0))] += 1;
        }
    }
    println!("written, and refused by number: {seen:?}");
    for number in [0, 8, 9, 10] {
        assert!(seen[number] > 20, "{number} occurred too seldom");
    }
}

/// The value written on a drive, and all its words compared with what encoding gives.
fn written_alike(random: &mut Random, case: &Encoding) -> Result<(), u8> {
    let (drive, needed) = (
        Setup::from_numbers(&case.numbers),
        drive_words(&case.numbers),
    );
    let length = length_near(random, needed);
    let mut expected = random_words(random, length);
    let mut sectors = expected.clone();
    let (cylinder, head) = case.storage;
    let result = plain::write_map(drive, cylinder, head, &case.defects, &mut sectors);

    let mut octets = plain_fields(&case.numbers, &case.value()).concat();
    octets.fill(BEFORE);
    let size = plain::encode_map(drive, cylinder, head, &case.defects, &mut octets);
    let expected_result = match size {
        Err(OUTSIDE_LIMITS) => Err(OUTSIDE_LIMITS),
        _ if length < needed => Err(TOO_SHORT),
        Err(number) => Err(number),
        Ok(size) => {
            write_over(&case.numbers, &octets[..size], &mut expected);
            Ok(())
        }
    };
    assert_eq!((result, sectors), (expected_result, expected), "{case:?}");
    result
}

#[test]
fn places_go_down_the_heads_and_up_the_sectors() {
    let mut random = Random::new(0x5108);
    for _ in 0..2_000 {
        let numbers = likely_decoding(&mut random).numbers;
        let drive = Setup::from_numbers(&numbers);
        if plain::map_place(drive, 0) == Err(OUTSIDE_LIMITS) {
            continue;
        }
        let (data_fields, _) = measures(&numbers);
        let [cylinders, heads, sectors, ..] = numbers;
        let tracks = (0..heads).rev();
        let places =
            tracks.flat_map(|head| (0..sectors).map(move |sector| (cylinders - 1, head, sector)));
        for (k, place) in places.take(data_fields).enumerate() {
            assert_eq!(plain::map_place(drive, k), Ok(place), "{numbers:?}");
        }
        for k in [data_fields, data_fields + 1, usize::MAX] {
            assert_eq!(plain::map_place(drive, k), Err(16), "{numbers:?}");
        }
    }
}
