//! CRC-16: the remainder of the octets as one long number, high bit first, starting from 0.

use super::layout::Word;

/// X^16 + X^15 + X^2 + 1, without its highest power.
const POLYNOMIAL: u16 = 0x8005;

static REMAINDERS: [u16; 256] = remainders();

/// The remainder that each octet leaves.
const fn remainders() -> [u16; 256] {
    let mut remainders = [0; 256];
    let mut octet = 0;
    while octet < 256 {
        let mut remainder = (octet as u16) << 8;
        let mut bit = 0;
        while bit < 8 {
            let carry = remainder >> 15;
            remainder = (remainder << 1) ^ (carry * POLYNOMIAL);
            bit += 1;
        }
        remainders[octet] = remainder;
        octet += 1;
    }
    remainders
}

pub fn crc<W: Word>(words: &[W]) -> u16 {
    words.iter().fold(0, |remainder, word| {
        let [high, low] = word.number().to_be_bytes();
        with_octet(with_octet(remainder, high), low)
    })
}

fn with_octet(remainder: u16, octet: u8) -> u16 {
    (remainder << 8) ^ REMAINDERS[usize::from((remainder >> 8) as u8 ^ octet)]
}
