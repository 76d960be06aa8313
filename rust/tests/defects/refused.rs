//! The reading's worked cases of strings that are no map.

use crate::drive;

pub struct Refused {
    pub case: &'static str,
    pub drive: [u16; 7],
    /// Data field by data field.
    pub octets: &'static [&'static str],
    /// The refusal's number, and the offset.
    pub offence: (u8, usize),
}

pub const REFUSED: [Refused; 14] = [
    Refused {
        case: "9: the empty string",
        drive: drive(2, 2, 3, 8),
        octets: &[],
        offence: (17, 0),
    },
    Refused {
        case: "12: ignored data fields until the last cylinder is full",
        drive: drive(2, 2, 3, 8),
        octets: &[
            "deadbeffdeadbeefdeadbeefdeadbeef",
            "deadbeffdeadbeefdeadbeefdeadbeef",
            "deadbeffdeadbeefdeadbeefdeadbeef",
            "deadbeffdeadbeefdeadbeefdeadbeef",
            "deadbeffdeadbeefdeadbeefdeadbeef",
            "deadbeffdeadbeefdeadbeefdeadbeef",
            "deadbeffdeadbeefdeadbeefdeadbeef",
        ],
        offence: (16, 96),
    },
    Refused {
        case: "13: field 1 of 2 words (the bench drive): no room for any map",
        drive: drive(2, 2, 3, 2),
        octets: &[
            "000e8000", "00010000", "00000001", "000044bb", "000e8001", "00010000", "00000001",
            "0000d1f8", "000e8002", "00010000", "00000001", "0000ee38",
        ],
        offence: (16, 0),
    },
    Refused {
        case: "14: count not 14 (000D)",
        drive: drive(2, 2, 3, 8),
        octets: &[
            "000d800000010000000000010000c43b",
            "000e800100010000000000010000d1f8",
            "000e800200010000000000010000ee38",
        ],
        offence: (18, 0),
    },
    Refused {
        case: "15: reserved bit 0",
        drive: drive(2, 2, 3, 8),
        octets: &[
            "000e81000001000000000001000004c5",
            "000e800100010000000000010000d1f8",
            "000e800200010000000000010000ee38",
        ],
        offence: (19, 2),
    },
    Refused {
        case: "16: bit 6: continues on the next lower cylinder",
        drive: drive(2, 2, 3, 8),
        octets: &[
            "000ec00000010000000000010000db58",
            "000e800100010000000000010000d1f8",
            "000e800200010000000000010000ee38",
        ],
        offence: (19, 2),
    },
    Refused {
        case: "18: second copy says 03",
        drive: drive(2, 2, 3, 8),
        octets: &[
            "000e80000001000000000001000044bb",
            "000e8003000100000000000100007b7b",
            "000e800200010000000000010000ee38",
        ],
        offence: (20, 19),
    },
    Refused {
        case: "21: storage at cylinder 2 of 2",
        drive: drive(2, 2, 3, 8),
        octets: &[
            "000e8000000100000000000200004487",
            "000e800100010000000000010000d1f8",
            "000e800200010000000000010000ee38",
        ],
        offence: (23, 8),
    },
    Refused {
        case: "24: defect on cylinder 2 of 2",
        drive: drive(2, 2, 3, 14),
        octets: &[
            "001a8000000100000000000100000000000200010000012c00054c52",
            "001a8001000100000000000100000000000100010000012c00055094",
            "001a8002000100000000000100000000000100010000012c00056a3e",
        ],
        offence: (23, 14),
    },
    Refused {
        case: "26: second set below the first, bit 3 clear",
        drive: drive(2, 2, 3, 14),
        octets: &[
            "001a000000020000000000010000000000010000000000070009604f",
            "001a0001000200000000000100000000000100000000000700097629",
            "001a0002000200000000000100000000000100000000000700094c83",
            "001a8000000200010000000100000000000000010000012c0005dfda",
            "001a8801000200010000000100000000000000010000012c00057a15",
            "001a8802000200010000000100000000000000010000012c000540bf",
        ],
        offence: (24, 98),
    },
    Refused {
        case: "28: an octet behind the last entry",
        drive: drive(10, 2, 6, 21),
        octets: &[
            "002880000001000000000009000000000003000100000014000b0000000000000000000000000001445e",
            "002880010001000000000009000000000003000100000014000b00000000000000000000000000004328",
            "002880020001000000000009000000000003000100000014000b00000000000000000000000000004ab8",
        ],
        offence: (25, 39),
    },
    Refused {
        case: "29: one bit of the CRC",
        drive: drive(2, 2, 3, 8),
        octets: &[
            "000e80000001000000000001000044ba",
            "000e800100010000000000010000d1f8",
            "000e800200010000000000010000ee38",
        ],
        offence: (26, 14),
    },
    Refused {
        case: "30: third copy differs in octet 13",
        drive: drive(2, 2, 3, 8),
        octets: &[
            "000e80000001000000000001000044bb",
            "000e800100010000000000010000d1f8",
            "000e8002000100000000000100016e3d",
        ],
        offence: (27, 45),
    },
    Refused {
        case: "31: a fourth data field",
        drive: drive(2, 2, 3, 8),
        octets: &[
            "000e80000001000000000001000044bb",
            "000e800100010000000000010000d1f8",
            "000e800200010000000000010000ee38",
            "000e80000001000000000001000044bb",
        ],
        offence: (28, 48),
    },
];
