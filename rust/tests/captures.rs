//! Captures: document 01's own, damaged ones, and octets at random against the plain Rust.

use bench::BENCH;
use pantoglide::raw::{self, RECORD_OCTETS, TRAILER_OCTETS};
use pantoglide::{make_capture, Board, Capture, Refusal};
use shared::plain;
use shared::random::Random;

#[allow(dead_code, unused_imports)] // the speed program uses the rest
#[path = "../shared/mod.rs"]
mod shared;

mod bench;

/// The three events that document 01 writes out.
const RECORDS: [u8; 24] = [
    0x00, 0x00, 0x00, 0x01, 0x30, 0x00, 0x00, 0x00, // port 0 selects
    0x00, 0x05, 0x01, 0x01, 0x30, 0x00, 0x00, 0x00, // port 1 tries to
    0x00, 0x09, 0x00, 0x02, 0x00, 0x00, 0x00, 0x00, // port 0 deselects
];
const TRAILER: [u8; TRAILER_OCTETS] = [0x00, 0x00, 0x00, 0x18, 0x49, 0x50, 0x49, 0x32];

fn whole() -> Vec<u8> {
    [&RECORDS[..], &TRAILER].concat()
}

fn refusal_of(octets: &[u8]) -> Option<Refusal> {
    Capture::find(octets).err()
}

#[test]
fn the_capture_of_document_01_is_found_made_and_run() {
    let octets = whole();
    let capture = Capture::find(&octets).expect("document 01's capture");
    assert_eq!(
        (capture.notes(), capture.records()),
        (&[][..], &RECORDS[..])
    );

    let mut made = [0xEE; 40];
    assert_eq!(make_capture(&[], &RECORDS, &mut made), Ok(32));
    assert_eq!((&made[..32], &made[32..]), (&octets[..], &[0xEE; 8][..]));

    let (mut sectors, mut staging) = ([0; 48], [0; 4]);
    let mut board = Board::power_up(BENCH, &mut sectors, &mut staging).expect("the bench drive");
    let outcomes = board.run(capture.records()).expect("whole records");
    let refusals = outcomes.into_iter().map(Result::err).collect::<Vec<_>>();
    assert_eq!(refusals, [None, Some(Refusal::Busy), None]);
}

#[test]
fn the_sample_has_notes_and_25_events() {
    let octets = include_bytes!("../../docs/samples/two-hosts.capture");
    let capture = Capture::find(octets).expect("the sample");
    assert_eq!(capture.notes(), b"two hosts, one sector");
    assert_eq!(capture.records().len(), 25 * RECORD_OCTETS);
    let mut again = vec![0; octets.len()];
    let size = make_capture(capture.notes(), capture.records(), &mut again);
    assert_eq!((size, &again[..]), (Ok(octets.len()), &octets[..]));
}

#[test]
fn under_eight_octets_is_12_whatever_they_are() {
    for length in 0..TRAILER_OCTETS {
        let end = &TRAILER[TRAILER_OCTETS - length..];
        assert_eq!(refusal_of(end), Some(Refusal::CaptureTooShort));
    }
}

#[test]
fn a_wrong_mark_is_13_before_any_distance() {
    for bit in 0..32 {
        for distance in [0x18, 0x19, 0xFF] {
            let mut octets = whole();
            octets[27] = distance;
            octets[28 + bit / 8] ^= 1 << (bit % 8);
            assert_eq!(refusal_of(&octets), Some(Refusal::TrailerMark));
        }
    }
}

#[test]
fn a_distance_that_is_not_whole_or_too_far_is_14() {
    for distance in 0..=255 {
        let mut octets = whole();
        octets[27] = distance;
        let found = Capture::find(&octets);
        if distance % 8 == 0 && distance <= 24 {
            let capture = found.expect("records inside the capture");
            let first = 24 - usize::from(distance);
            assert_eq!(capture.notes(), &RECORDS[..first]);
            assert_eq!(capture.records(), &RECORDS[first..]);
        } else {
            assert_eq!(found, Err(Refusal::TrailerDistance), "{distance}");
        }
    }
    for high in 24..27 {
        let mut octets = whole();
        octets[high] = 0x80;
        assert_eq!(refusal_of(&octets), Some(Refusal::TrailerDistance));
    }
}

#[test]
fn a_capture_without_notes_or_records_is_a_trailer() {
    let mut out = [0; TRAILER_OCTETS];
    assert_eq!(make_capture(&[], &[], &mut out), Ok(TRAILER_OCTETS));
    assert_eq!(out, [0, 0, 0, 0, 0x49, 0x50, 0x49, 0x32]);
    let capture = Capture::find(&out).expect("no records at all");
    assert!(capture.notes().is_empty() && capture.records().is_empty());
}

#[test]
fn room_is_judged_before_records() {
    for records in 0..=RECORDS.len() {
        for length in 0..40 {
            let mut out = [0xEE; 40];
            let made = make_capture(b"note", &RECORDS[..records], &mut out[..length]);
            let needed = 4 + records + TRAILER_OCTETS;
            let expected = match (length >= needed, records % RECORD_OCTETS == 0) {
                (false, _) => Err(Refusal::TooShort),
                (true, false) => Err(Refusal::Malformed),
                (true, true) => Ok(needed),
            };
            assert_eq!(made, expected, "{records} octets into {length}");
            let changed = made.unwrap_or(0);
            assert!(out[changed..].iter().all(|&octet| octet == 0xEE));
        }
    }
}

/// Records that four octets cannot count. Nothing but a refusal touches the memory.
#[test]
#[ignore = "asks for 8 GiB of address space"]
fn records_over_32_bits_are_8() {
    let records = vec![0; 1 << 32];
    let mut out = vec![0; (1 << 32) + TRAILER_OCTETS];
    assert_eq!(
        make_capture(&[], &records, &mut out),
        Err(Refusal::Malformed)
    );
    let short = make_capture(&[], &records, &mut out[..(1 << 32) + 7]);
    assert_eq!(short, Err(Refusal::TooShort));
}

/// Notes, records and a trailer that is right more often than not.
fn likely_capture(random: &mut Random) -> Vec<u8> {
    let longest = random.pick(&[4, 40, 4000]);
    let mut octets = (0..random.below(longest))
        .map(|_| random.octet())
        .collect::<Vec<_>>();
    let distance = match random.below(8) {
        0 => random.next() as u32,
        1 => octets.len() as u32 + random.below(10) as u32,
        2 => random.below(octets.len() + 1) as u32,
        _ => random.below(octets.len() + 1) as u32 & !7,
    };
    octets.extend(distance.to_be_bytes());
    octets.extend(&TRAILER[4..]);
    if random.one_in(4) {
        let end = octets.len() - random.below(TRAILER_OCTETS) - 1;
        octets[end] ^= 1 << random.below(8);
    }
    if random.one_in(8) {
        octets.truncate(random.below(12));
    }
    octets
}

#[test]
fn captures_agree_with_the_plain_rust() {
    let mut random = Random::new(0x1B12);
    let mut seen = [0; 15];
    for _ in 0..100_000 {
        let octets = likely_capture(&mut random);
        let (mut proved, mut plain) = ((77, 78), (77, 78));
        let returned = raw::capture(&octets, &mut proved.0, &mut proved.1);
        let expected = plain::capture(&octets, &mut plain.0, &mut plain.1);
        assert_eq!((returned, proved), (expected, plain), "{octets:?}");
        if returned != 0 {
            assert_eq!(proved, (77, 78), "refused {octets:?}");
        }
        seen[usize::from(returned)] += 1;
    }
    for number in [0, 12, 13, 14] {
        assert!(seen[number] > 1000, "{number} occurred too seldom");
    }
}

#[test]
fn captures_made_agree_with_the_plain_rust() {
    let mut random = Random::new(0x2B12);
    let mut seen = [0; 15];
    for _ in 0..50_000 {
        let longest = random.pick(&[1, 20, 600]);
        let mut octets = |count: usize| (0..count).map(|_| random.octet()).collect::<Vec<_>>();
        let source = octets(2 * longest + 40);
        let notes = &source[..random.below(longest)];
        let records = match random.below(4) {
            0 => random.below(longest),
            _ => random.below(longest) & !7,
        };
        let records = &source[source.len() - records..];
        let needed = notes.len() + records.len() + TRAILER_OCTETS;
        let length = match random.below(4) {
            0 => random.below(needed),
            _ => needed + random.below(20),
        };
        let before = vec![0xEE; length];
        let (mut proved, mut plain) = ((before.clone(), 77), (before.clone(), 77));
        let returned = raw::make_capture(notes, records, &mut proved.0, &mut proved.1);
        let expected = plain::make_capture(notes, records, &mut plain.0, &mut plain.1);
        assert_eq!((returned, &proved), (expected, &plain));
        if returned == 0 {
            let capture = Capture::find(&proved.0[..proved.1]).expect("what was made");
            assert_eq!((capture.notes(), capture.records()), (notes, records));
            assert_eq!(proved.0[proved.1..], before[proved.1..]);
        } else {
            assert_eq!(proved, (before, 77));
        }
        seen[usize::from(returned)] += 1;
    }
    for number in [0, 8, 10] {
        assert!(seen[number] > 1000, "{number} occurred too seldom");
    }
}
