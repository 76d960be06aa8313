//! Every number that a command loads, in the bench drive of 2 cylinders, 2 heads and 3 sectors.

use crate::sides::{status, with, Bench, Side, State, SELECTED_BY_0};
use crate::sides::{CONTROL, CYLINDER, HEAD, MOVED, PARAMETERS, PENDING, TARGET};

const NO_TARGET: u16 = 0xFFFF;
const INVALID_PARAMETER: u16 = 0x40;

/// Every word in each place of each command, the others being good ones.
pub fn every_number_loaded(side: Side) {
    for word in 0..=0xFFFF {
        load(side, 0x04, &[0, word]);
        load(side, 0x04, &[word, 1]);
        load(side, 0x05, &[word]);
        load(side, 0x06, &[word]);
        for place in 0..4 {
            let mut words = [0, 1, 1, 2];
            words[place] = word;
            load(side, 0x07, &words);
        }
    }
}

/// The last word of a command whose other words the state has already.
fn load(side: Side, code: u16, words: &[u16]) {
    let (last, kept) = words.split_last().expect("a command has words");
    let moved = kept.len() as u16;
    let mut before = with(SELECTED_BY_0, &[(CONTROL, code), (MOVED, moved)]);
    before[PARAMETERS..][..kept.len()].copy_from_slice(kept);
    let mut bench = Bench::in_state(before);
    let [high, low] = last.to_be_bytes();
    let answered = bench.event(side, [0, 4, high, low, 0, 0]);
    let (expected, state) = match loaded(code, words) {
        Some(state) => (0, state),
        None => (8, with(SELECTED_BY_0, &[(PENDING, INVALID_PARAMETER)])),
    };
    let shown = || format!("{}, {code:02X} {words:04X?}", side.name);
    assert_eq!(answered, status(expected), "{}", shown());
    assert_eq!(bench, Bench::in_state(state), "{}", shown());
}

/// What the words make of the state, nothing where one of them is outside the drive.
fn loaded(code: u16, words: &[u16]) -> Option<State> {
    let cylinder = |high, low| (high == 0 && low < 2).then_some((CYLINDER, low));
    let head = |head| (head < 2).then_some((HEAD, head));
    let target = |target| (target == NO_TARGET || target < 3).then_some((TARGET, target));
    let changes = match (code, words) {
        (0x04, &[high, low]) => vec![cylinder(high, low)?],
        (0x05, &[to]) => vec![head(to)?],
        (0x06, &[to]) => vec![target(to)?],
        (0x07, &[high, low, to, aim]) => vec![cylinder(high, low)?, head(to)?, target(aim)?],
        _ => panic!("{code:02X} does not load {words:?}"),
    };
    Some(with(SELECTED_BY_0, &changes))
}
