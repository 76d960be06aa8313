//! Headers of 1 to 8 words, sent with every choice of words that differ from the stored ones.

use crate::setups::with_setup;
use crate::shared::random::Random;
use crate::shared::streams::EventOctets;
use crate::tally::Tally;
use crate::words::{Cut, Pair};
use pantoglide::raw::ABSENT;

const LONGEST_HEADER: u16 = 8;
/// The writes that verify the header.
const VERIFYING: [u8; 8] = [0x84, 0x85, 0x86, 0x87, 0x94, 0x95, 0x96, 0x97];
const NORMAL: u16 = 0;
const HEADER_MISCOMPARE: u16 = 7;
const SELECT_3: [u8; 4] = [0x30, 0, 0, 0];
/// Cylinder 1, head 1, sector 2: the last of twelve.
const LAST_SECTOR: [u8; 4] = [0, 1, 1, 2];
const SECTORS_BEFORE: u16 = 11;
const FIELD_WORDS: u16 = 3;

#[test]
fn headers_that_differ_agree() {
    let mut random = Random::new(0x101);
    let mut tally = Tally::default();
    for header in 1..=LONGEST_HEADER {
        for differing in 0..1 << header {
            for control in VERIFYING {
                let status = last_status(&mut random, &mut tally, header, differing, control);
                // Without a field the header's last word is the last of all.
                let expected = match (differing, control & 3) {
                    (0, 0) => NORMAL,
                    (0, _) => ABSENT,
                    _ => HEADER_MISCOMPARE,
                };
                assert_eq!(status, expected, "{control:X}: {differing:b} of {header}");
            }
        }
    }
}

/// The status at the last word of a header that differs from the stored one in the words whose
/// bits are set.
fn last_status(
    random: &mut Random,
    tally: &mut Tally,
    header: u16,
    differing: u16,
    control: u8,
) -> u16 {
    let mut pair = with_setup(random, [2, 2, 3, header, 2, 1, 3]);
    let mut send = |pair: &mut Pair, kind, [a0, a1, a2, a3]: [u8; 4]| {
        let event: EventOctets = [0, kind, a0, a1, a2, a3];
        assert_eq!(pair.event(event, Cut::default(), tally), 0, "{event:?}");
    };
    send(&mut pair, 1, SELECT_3);
    send(&mut pair, 7, LAST_SECTOR);
    send(&mut pair, 3, [control, 0, 0, 0]);
    let first = SECTORS_BEFORE * (header + FIELD_WORDS);
    for k in 0..header {
        let stored = pair.sectors()[usize::from(first + k)];
        let bit = (differing >> k & 1) << random.below(16);
        let [high, low] = (stored ^ bit).to_be_bytes();
        send(&mut pair, 4, [high, low, 0, 0]);
    }
    pair.status()
}
