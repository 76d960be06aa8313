//! The wrapper's own parts: what a refusal says, and the map of a board.

use crate::drive;
use pantoglide::{Board, Defect, Setup, Track};

const NO_ENTRIES: Setup = Setup::from_numbers(drive(2, 2, 3, 8));
const ONE_ENTRY: Setup = Setup::from_numbers(drive(2, 2, 3, 14));
const TOO_SMALL: Setup = Setup::from_numbers(drive(2, 2, 3, 2));

#[test]
fn a_refusal_says_where_and_why() {
    let refused = |setup: Setup, octets: &[u8]| match setup.decode_map(octets, &mut [0; 16]) {
        Ok(map) => panic!("{map:?}"),
        Err(refused) => refused.to_string(),
    };
    let mut octets = [0; 48];
    let size = NO_ENTRIES.encode_map(Track::default(), &[], &mut octets);
    assert_eq!(size, Ok(48));
    octets[47] ^= 1;
    assert_eq!(
        refused(NO_ENTRIES, &octets),
        "refused 26 at octet 46: the CRC is not that of the octets before it"
    );
    assert_eq!(
        refused(TOO_SMALL, &octets),
        "refused 16 at octet 0: the last cylinder has no further data field for the map"
    );
    // Where no octet was looked at there is nothing to say of one.
    assert_eq!(
        refused(NO_ENTRIES, &[0; 51]),
        "refused 10: a lent slice is too short"
    );
}

#[test]
fn the_map_of_a_board_is_read_off_its_sectors() {
    let mut sectors = vec![0; ONE_ENTRY.drive_words()];
    let mut staging = vec![0; ONE_ENTRY.sector_words()];
    let storage = Track {
        cylinder: 0,
        head: 1,
    };
    let defect = Defect {
        cylinder: 1,
        head: 1,
        offset: 300,
        length: 5,
    };
    let written = ONE_ENTRY.write_map(storage, &defect.octets(), &mut sectors);
    assert_eq!(written, Ok(()));

    let board = Board::power_up(ONE_ENTRY, &mut sectors, &mut staging).expect("a small drive");
    let mut defects = vec![0; board.setup().map_octets() / 3];
    let map = board.setup().read_map(board.sectors(), &mut defects);
    let map = map.expect("the map that was written");
    assert_eq!(
        (map.storage(), map.octets()),
        (storage, &defect.octets()[..])
    );
    assert!(map.defects().eq([defect]));
}

#[test]
fn a_map_has_so_many_octets_at_the_most() {
    let sizes = [NO_ENTRIES, ONE_ENTRY, TOO_SMALL].map(|setup| setup.map_octets());
    assert_eq!(sizes, [6 * 16, 6 * 28, 0]);
    assert_eq!(Setup::from_numbers([0xFFFF; 7]).numbers(), [0xFFFF; 7]);
}
