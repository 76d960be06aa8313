//! The calls for defect maps, about one that has every set for which the last cylinder has room.

use crate::shared::plain::{self, Defect, Setup};
use crate::shared::random::Random;
use pantoglide::raw::{self, Numbers, DEFECT_OCTETS};

/// The drive: 32 heads of 256 sectors with field 1 of 256 words, so 8,192 data fields.
pub const NUMBERS: Numbers = [4, 32, 256, 1, 256, 0, 3];
const SETS: usize = 8_192 / 3;
const SET_OCTETS: usize = 3 * 512;
/// As many as fit, 41 in each set.
const DEFECTS: usize = 41 * SETS;
const STORAGE: (u16, u16) = (3, 0);

/// A call about a map, with sector words and octets lent to it. It tells how many defects or octets
/// there are, or the refusal's number.
pub type MapCall = fn(&FullMap, &mut [u16], &mut [u8]) -> Result<usize, u8>;

/// The map, and what is asked of it at each side.
pub struct FullMap {
    pub octets: Vec<u8>,
    defects: Vec<u8>,
    pub rattle: MapCall,
    pub plain: MapCall,
}

/// The name of each request, and its call at the archive and at the plain Rust.
pub const REQUESTS: [(&str, MapCall, MapCall); 4] = [
    ("i  a map decoded", decode, plain_decode),
    ("j  a map encoded", encode, plain_encode),
    ("k  a map read", read, plain_read),
    ("l  a map written", write, plain_write),
];

impl FullMap {
    pub fn new(rattle: MapCall, plain: MapCall) -> FullMap {
        let mut map = FullMap {
            octets: vec![0; SETS * SET_OCTETS],
            defects: in_sequence(),
            rattle,
            plain,
        };
        let mut octets = std::mem::take(&mut map.octets);
        let size = plain_encode(&map, &mut [], &mut octets);
        assert_eq!(size, Ok(octets.len()), "a map of every set");
        map.octets = octets;
        map
    }

    /// Puts the map on the last cylinder.
    pub fn write(&self, sectors: &mut [u16]) {
        plain_write(self, sectors, &mut []).expect("the last cylinder has room");
    }
}

/// Random defects, all in the drive and in order, no two at one address.
fn in_sequence() -> Vec<u8> {
    let mut random = Random::new(0xDEF);
    let mut defects = (0..DEFECTS)
        .map(|number| {
            let [cylinder, head] = [0, 1].map(|at| random.below(NUMBERS[at].into()));
            let mut octets = [0; DEFECT_OCTETS];
            let defect = Defect {
                cylinder: cylinder as u32,
                head: head as u16,
                offset: number as u32,
                length: random.word(),
            };
            defect.encode(&mut octets).expect("twelve octets");
            octets
        })
        .collect::<Vec<_>>();
    defects.sort();
    defects.concat()
}

fn unless_refused(returned: u8, told: usize) -> Result<usize, u8> {
    match returned {
        0 => Ok(told),
        number => Err(number),
    }
}

/// The count that a call tells beside the storage track, or beside the offset of an offence.
fn count_told(
    call: impl FnOnce(&mut usize, &mut u16, &mut u16, &mut usize) -> u8,
) -> Result<usize, u8> {
    let (mut count, mut cylinder, mut head, mut offset) = (0, 0, 0, 0);
    let returned = call(&mut count, &mut cylinder, &mut head, &mut offset);
    unless_refused(returned, count)
}

fn decode(map: &FullMap, _: &mut [u16], room: &mut [u8]) -> Result<usize, u8> {
    count_told(|count, cylinder, head, offset| {
        raw::decode_map(NUMBERS, &map.octets, room, count, cylinder, head, offset)
    })
}

fn plain_decode(map: &FullMap, _: &mut [u16], room: &mut [u8]) -> Result<usize, u8> {
    let told = plain::decode_map(Setup::from_numbers(&NUMBERS), &map.octets, room);
    told.map(|map| map.count).map_err(|(number, _)| number)
}

fn encode(map: &FullMap, _: &mut [u16], room: &mut [u8]) -> Result<usize, u8> {
    let (cylinder, head) = STORAGE;
    let mut size = 0;
    let returned = raw::encode_map(NUMBERS, cylinder, head, &map.defects, room, &mut size);
    unless_refused(returned, size)
}

fn plain_encode(map: &FullMap, _: &mut [u16], room: &mut [u8]) -> Result<usize, u8> {
    let (cylinder, head) = STORAGE;
    let setup = Setup::from_numbers(&NUMBERS);
    plain::encode_map(setup, cylinder, head, &map.defects, room)
}

fn read(_: &FullMap, sectors: &mut [u16], room: &mut [u8]) -> Result<usize, u8> {
    count_told(|count, cylinder, head, offset| {
        raw::read_map(NUMBERS, sectors, room, count, cylinder, head, offset)
    })
}

fn plain_read(_: &FullMap, sectors: &mut [u16], room: &mut [u8]) -> Result<usize, u8> {
    let told = plain::read_map(Setup::from_numbers(&NUMBERS), sectors, room);
    told.map(|map| map.count).map_err(|(number, _)| number)
}

fn write(map: &FullMap, sectors: &mut [u16], _: &mut [u8]) -> Result<usize, u8> {
    let (cylinder, head) = STORAGE;
    let returned = raw::write_map(NUMBERS, cylinder, head, &map.defects, sectors);
    unless_refused(returned, 0)
}

fn plain_write(map: &FullMap, sectors: &mut [u16], _: &mut [u8]) -> Result<usize, u8> {
    let (cylinder, head) = STORAGE;
    let setup = Setup::from_numbers(&NUMBERS);
    let written = plain::write_map(setup, cylinder, head, &map.defects, sectors);
    written.map(|()| 0)
}
