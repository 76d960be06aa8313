//! The reading's worked cases of encoding, and of places.

use crate::drive;

pub struct Encoding {
    pub case: &'static str,
    pub drive: [u16; 7],
    pub storage: (u16, u16),
    pub defects: &'static str,
    pub room: usize,
    /// The octets data field by data field, or the number.
    pub result: Result<&'static [&'static str], u8>,
}

pub const ENCODINGS: [Encoding; 13] = [
    Encoding {
        case: "no defects",
        drive: drive(2, 2, 3, 8),
        storage: (1, 0),
        defects: "",
        room: 48,
        result: Ok(&[
            "000e80000001000000000001000044bb",
            "000e800100010000000000010000d1f8",
            "000e800200010000000000010000ee38",
        ]),
    },
    Encoding {
        case: "room for all but one octet",
        drive: drive(2, 2, 3, 8),
        storage: (1, 0),
        defects: "",
        room: 47,
        result: Err(10),
    },
    Encoding {
        case: "twice the same defect: bit 3 in the second set",
        drive: drive(2, 2, 3, 14),
        storage: (1, 0),
        defects: "0000000100010000012c00050000000100010000012c0005",
        room: 200,
        result: Ok(&[
            "001a0000000200000000000100000000000100010000012c0005776b",
            "001a0001000200000000000100000000000100010000012c0005610d",
            "001a0002000200000000000100000000000100010000012c00055ba7",
            "001a8800000200010000000100000000000100010000012c0005ea10",
            "001a8801000200010000000100000000000100010000012c0005fc76",
            "001a8802000200010000000100000000000100010000012c0005c6dc",
        ]),
    },
    Encoding {
        case: "13 octets",
        drive: drive(2, 2, 3, 14),
        storage: (1, 0),
        defects: "0000000100010000012c000501",
        room: 200,
        result: Err(8),
    },
    Encoding {
        case: "defect on cylinder 2 of 2",
        drive: drive(2, 2, 3, 14),
        storage: (1, 0),
        defects: "000000020000000000000001",
        room: 200,
        result: Err(8),
    },
    Encoding {
        case: "defect on head 2 of 2",
        drive: drive(2, 2, 3, 14),
        storage: (1, 0),
        defects: "000000000002000000000001",
        room: 200,
        result: Err(8),
    },
    Encoding {
        case: "a defect of zeros",
        drive: drive(2, 2, 3, 14),
        storage: (1, 0),
        defects: "000000000000000000000000",
        room: 200,
        result: Err(8),
    },
    Encoding {
        case: "length 0 alone",
        drive: drive(2, 2, 3, 14),
        storage: (1, 0),
        defects: "000000000000000000010000",
        room: 84,
        result: Ok(&[
            "001a800000010000000000010000000000000000000000010000d7fb",
            "001a800100010000000000010000000000000000000000010000c19d",
            "001a800200010000000000010000000000000000000000010000fb37",
        ]),
    },
    Encoding {
        case: "storage on head 2 of 2",
        drive: drive(2, 2, 3, 14),
        storage: (1, 2),
        defects: "0000000100010000012c0005",
        room: 200,
        result: Err(8),
    },
    Encoding {
        case: "three sets on six data fields",
        drive: drive(2, 2, 3, 14),
        storage: (1, 0),
        defects: "0000000100010000012c00050000000100010000012c00050000000100010000012c0005",
        room: 252,
        result: Err(8),
    },
    Encoding {
        case: "a defect, but no room for entries",
        drive: drive(2, 2, 3, 8),
        storage: (1, 0),
        defects: "0000000100010000012c0005",
        room: 48,
        result: Err(8),
    },
    Encoding {
        case: "field 1 of 2 words",
        drive: drive(2, 2, 3, 2),
        storage: (1, 0),
        defects: "",
        room: 48,
        result: Err(8),
    },
    Encoding {
        case: "33 heads",
        drive: drive(2, 33, 3, 8),
        storage: (1, 0),
        defects: "",
        room: 48,
        result: Err(9),
    },
];

/// Set-up, data field, and its cylinder, head and sector or the number.
pub type PlaceCase = ([u16; 7], usize, Result<(u16, u16, u16), u8>);

pub const PLACES: [PlaceCase; 13] = [
    (drive(2, 2, 3, 14), 0, Ok((1, 1, 0))),
    (drive(2, 2, 3, 14), 1, Ok((1, 1, 1))),
    (drive(2, 2, 3, 14), 2, Ok((1, 1, 2))),
    (drive(2, 2, 3, 14), 3, Ok((1, 0, 0))),
    (drive(2, 2, 3, 14), 4, Ok((1, 0, 1))),
    (drive(2, 2, 3, 14), 5, Ok((1, 0, 2))),
    (drive(2, 2, 3, 14), 6, Err(16)),
    (drive(4096, 32, 256, 256), 0, Ok((4095, 31, 0))),
    (drive(4096, 32, 256, 256), 255, Ok((4095, 31, 255))),
    (drive(4096, 32, 256, 256), 256, Ok((4095, 30, 0))),
    (drive(4096, 32, 256, 256), 8191, Ok((4095, 0, 255))),
    (drive(4096, 32, 256, 256), 8192, Err(16)),
    (drive(2, 2, 3, 2), 0, Err(16)),
];
