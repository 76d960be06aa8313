//! The rules that a map's data fields keep, and the first offence against them.

use super::crc::crc;
use super::defect::{Sequence, ENTRY_OCTETS};
use super::layout::{DataField, Front, Word, COPIES, FLAG_LAST, FLAG_OUT_OF_SEQUENCE, FRONT_WORDS};
use super::source::Source;
use super::{Map, Offence, Setup, NOT_PADDED, OUTSIDE_DRIVE, OUT_OF_SEQUENCE, UNLIKE_COPY_0};
use super::{UNLIKE_SET_0, WRONG_COPY, WRONG_COUNT, WRONG_CRC, WRONG_FLAGS, WRONG_SET};

pub struct Judged {
    pub map: Map,
    /// How many the map takes, ignored ones included.
    pub data_fields: usize,
}

/// The map that starts at data field 0, all its sets judged.
pub fn judged<W: Word, Start: Fn(usize) -> usize>(
    source: &Source<W, Start>,
) -> Result<Judged, Offence> {
    let mut judge = Judge::new(source.setup);
    let mut data_fields = 0;
    while !judge.is_at_end() {
        let (copy_0, start) = source.next(&mut data_fields)?;
        judge.judge_copy_0(copy_0).map_err(behind(start))?;
        for number in 1..COPIES {
            let (copy, start) = source.next(&mut data_fields)?;
            judge_copy(copy, number as u8, copy_0).map_err(behind(start))?;
        }
        judge.sets_judged += 1;
    }
    let map = judge.map();
    Ok(Judged { map, data_fields })
}

/// An offence in a data field that starts there.
fn behind(start: usize) -> impl Fn(Offence) -> Offence {
    move |(number, offset)| (number, start + offset)
}

/// What the sets judged so far say.
struct Judge<'a> {
    setup: Setup<'a>,
    sets_judged: usize,
    /// The front matter that later sets have to repeat.
    of_set_0: Front,
    sequence: Sequence,
    count: usize,
}

impl<'a> Judge<'a> {
    fn new(setup: Setup<'a>) -> Judge<'a> {
        Judge {
            setup,
            sets_judged: 0,
            of_set_0: Front::default(),
            sequence: Sequence::default(),
            count: 0,
        }
    }

    fn is_at_end(&self) -> bool {
        self.sets_judged > 0 && self.sets_judged == usize::from(self.of_set_0.sets)
    }

    /// The storage track is in the drive, so that no high octet of its cylinder is lost.
    fn map(&self) -> Map {
        Map {
            count: self.count,
            storage_cylinder: self.of_set_0.storage_cylinder as u16,
            storage_head: self.of_set_0.storage_head,
        }
    }

    fn judge_copy_0<W: Word>(&mut self, field: DataField<W>) -> Result<(), Offence> {
        self.judge_front(field.front)?;
        let end = self.judge_entries(field)?;
        let padding = &field.words[end / 2..];
        if let Some(offset) = first_not_zero(padding.iter().map(|word| word.number())) {
            return Err((NOT_PADDED, end + offset));
        }
        first_of([wrong_crc(field)])
    }

    fn judge_front(&mut self, front: Front) -> Result<(), Offence> {
        if self.sets_judged == 0 {
            self.of_set_0 = front;
        }
        let of_set_0 = self.of_set_0;
        let (cylinder, head) = (front.storage_cylinder, front.storage_head);
        let is_last = self.sets_judged + 1 == usize::from(of_set_0.sets);
        let flag_last = if is_last { FLAG_LAST } else { 0 };
        let octets_behind_count = self.setup.field_octets() - 2;
        first_of([
            (usize::from(front.count) != octets_behind_count).then_some((WRONG_COUNT, 0)),
            (front.flags & !FLAG_OUT_OF_SEQUENCE != flag_last).then_some((WRONG_FLAGS, 2)),
            (front.copy != 0).then_some((WRONG_COPY, 3)),
            (front.sets == 0 || front.sets != of_set_0.sets).then_some((UNLIKE_SET_0, 4)),
            (usize::from(front.set) != self.sets_judged).then_some((WRONG_SET, 6)),
            (cylinder != of_set_0.storage_cylinder).then_some((UNLIKE_SET_0, 8)),
            (cylinder >= u32::from(*self.setup.cylinders)).then_some((OUTSIDE_DRIVE, 8)),
            (head != of_set_0.storage_head).then_some((UNLIKE_SET_0, 12)),
            (head >= *self.setup.heads).then_some((OUTSIDE_DRIVE, 12)),
        ])
    }

    /// The offset at which the entries end.
    fn judge_entries<W: Word>(&mut self, field: DataField<W>) -> Result<usize, Offence> {
        let may_break = field.front.flags & FLAG_OUT_OF_SEQUENCE != 0;
        let mut offset = 2 * FRONT_WORDS;
        for defect in field.entries() {
            if defect.cylinder >= u32::from(*self.setup.cylinders) {
                return Err((OUTSIDE_DRIVE, offset));
            }
            if self.sequence.breaks_at(defect) && !may_break {
                return Err((OUT_OF_SEQUENCE, offset));
            }
            if defect.head >= *self.setup.heads {
                return Err((OUTSIDE_DRIVE, offset + 4));
            }
            self.count += 1;
            offset += ENTRY_OCTETS;
        }
        Ok(offset)
    }
}

/// Copy 1 or 2, which differs from copy 0 in its number and CRC alone.
fn judge_copy<W: Word>(
    copy: DataField<W>,
    number: u8,
    copy_0: DataField<W>,
) -> Result<(), Offence> {
    let differences = copy.words.iter().zip(copy_0.words).enumerate();
    let unlike = first_not_zero(differences.map(|(at, (word, of_copy_0))| {
        let difference = word.number() ^ of_copy_0.number();
        match at {
            1 => difference & 0xFF00,
            _ => difference,
        }
    }));
    first_of([
        unlike.map(|offset| (UNLIKE_COPY_0, offset)),
        (copy.front.copy != number).then_some((WRONG_COPY, 3)),
        wrong_crc(copy),
    ])
}

fn wrong_crc<W: Word>(field: DataField<W>) -> Option<Offence> {
    let offset = 2 * field.words.len();
    (crc(field.words) != field.crc).then_some((WRONG_CRC, offset))
}

/// The offset of the first octet that is not zero.
fn first_not_zero(words: impl Iterator<Item = u16>) -> Option<usize> {
    let (index, word) = words.enumerate().find(|&(_, word)| word != 0)?;
    let is_low = word < 0x100;
    Some(2 * index + usize::from(is_low))
}

/// The offence with the least offset, and among those the one with the lowest number.
fn first_of<const COUNT: usize>(offences: [Option<Offence>; COUNT]) -> Result<(), Offence> {
    let found = offences.into_iter().flatten();
    let first = found.min_by_key(|&(number, offset)| (offset, number));
    first.map_or(Ok(()), Err)
}
