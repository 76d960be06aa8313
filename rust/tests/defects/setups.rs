//! Set-ups for maps.

use crate::shared::random::Random;

/// Cylinders, heads, sectors; words of header, field 1 and field 2; address.
pub type Numbers = [u16; 7];

const LEAST: Numbers = [1, 1, 1, 0, 1, 0, 0];
const MOST: Numbers = [4096, 32, 256, 8, 1024, 1024, 7];

/// Octets of a data field.
pub fn field_octets(numbers: &Numbers) -> usize {
    2 * usize::from(numbers[4])
}

/// How many data fields the last cylinder has for a map, and how many entries each of them holds.
pub fn measures(numbers: &Numbers) -> (usize, usize) {
    let [_, heads, sectors, ..] = numbers.map(usize::from);
    match field_octets(numbers).checked_sub(16) {
        Some(octets) => (heads * sectors, octets / 12),
        None => (0, 0),
    }
}

/// Measures within their limits: a small drive mostly, on which a map fits.
pub fn likely_setup(random: &mut Random) -> Numbers {
    let mut up_to =
        |least: u16, most: u16| least + random.below(usize::from(most - least) + 1) as u16;
    let (header, field2, address) = (up_to(0, 8), up_to(0, 3), up_to(0, 7));
    let (cylinders, heads, sectors) = (up_to(1, 4), up_to(1, 4), up_to(1, 8));
    let [cylinders, heads, sectors, field1] = match up_to(0, 63) {
        0 => [cylinders, heads, sectors, up_to(1, 7)],
        1 => [cylinders, heads, sectors, up_to(100, 1024)],
        2 => [4096, up_to(1, 32), 256, up_to(8, 20)],
        3 => [up_to(1, 4096), 32, up_to(1, 256), up_to(8, 20)],
        4..20 => [cylinders, heads, sectors, up_to(8, 15)],
        _ => [cylinders, heads, sectors.max(3), up_to(13, 40)],
    };
    [cylinders, heads, sectors, header, field1, field2, address]
}

/// The measures with one of them put outside its limits.
pub fn outside_limits(random: &mut Random, mut numbers: Numbers) -> Numbers {
    let at = random.below(numbers.len());
    numbers[at] = match random.below(4) {
        0 if LEAST[at] > 0 => 0,
        1 => 0xFFFF - random.below(usize::from(0xFFFF - MOST[at])) as u16,
        _ => MOST[at] + 1,
    };
    numbers
}
