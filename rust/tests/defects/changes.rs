//! The strings of the worked cases with any octet changed to any other, and cut anywhere, decoded at
//! all sides.

use crate::accepted::ACCEPTED;
use crate::agreement::{agreed, number};
use crate::refused::REFUSED;
use crate::setups::{field_octets, Numbers};
use crate::spelling::mend;
use crate::tally::Tally;
use crate::{octets, BEFORE};

#[test]
fn worked_strings_that_are_changed_or_cut_are_decoded_alike() {
    let mut tally = Tally::default();
    let accepted = ACCEPTED.iter().map(|case| (case.drive, case.octets));
    let refused = REFUSED.iter().map(|case| (case.drive, case.octets));
    for (numbers, fields) in accepted.chain(refused) {
        let string = octets(fields);
        let mut decode = |octets: &[u8]| decode(&numbers, octets, &mut tally);
        change_any_octet(&numbers, &string, &mut decode);
        change_all_data_fields(&numbers, &string, &mut decode);
        for length in 0..=string.len() {
            decode(&string[..length]);
        }
    }
    tally.assert_met("changed or cut", [0].into_iter().chain(16..=28));
}

fn decode(numbers: &Numbers, octets: &[u8], tally: &mut Tally) {
    let room = vec![BEFORE; octets.len() / 3];
    let result = agreed(&room, &(numbers, octets), |side, defects| {
        (side.decode_map)(numbers, octets, defects)
    });
    tally.note(number(result));
}

/// Any octet, its data field's CRC left as it is or mended.
fn change_any_octet(numbers: &Numbers, string: &[u8], decode: &mut impl FnMut(&[u8])) {
    let size = field_octets(numbers);
    for at in 0..string.len() {
        let start = at / size * size;
        for octet in 0..=0xFF {
            let mut changed = string.to_vec();
            changed[at] = octet;
            decode(&changed);
            mend(&mut changed[start..start + size]);
            decode(&changed);
        }
    }
}

/// The same octet of all data fields, and every CRC mended.
fn change_all_data_fields(numbers: &Numbers, string: &[u8], decode: &mut impl FnMut(&[u8])) {
    let size = field_octets(numbers);
    for at in 0..size {
        for octet in 0..=0xFF {
            let mut changed = string.to_vec();
            for field in changed.chunks_mut(size) {
                field[at] = octet;
                mend(field);
            }
            decode(&changed);
        }
    }
}
