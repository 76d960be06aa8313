//! The octet of a control: data controls from 80 on, codes of commands and responses below.

use super::setup::Setup;

#[derive(Clone, Copy, PartialEq, Eq)]
pub struct Control(pub u8);

pub enum Meaning {
    Write,
    Read,
    StepHead,
    /// 80 to 83, 91 to 93, and the codes that act on more than this drive has.
    Unsupported,
    /// D0 and everything that no paper defines.
    Invalid,
    Command,
    Response,
}

impl Control {
    pub const LOAD_DRIVE_FUNCTION: Control = Control(0x01);
    pub const LOAD_CYLINDER: Control = Control(0x04);
    pub const LOAD_HEAD: Control = Control(0x05);
    pub const LOAD_TARGET: Control = Control(0x06);
    pub const READ_STATUS: Control = Control(0x44);
    pub const READ_SECTOR: Control = Control(0x46);

    #[inline(always)]
    pub fn meaning(self) -> Meaning {
        match self.0 {
            0x84..=0x8F | 0x94..=0x9F => Meaning::Write,
            0xC0..=0xCF | 0xD1..=0xDF => Meaning::Read,
            0x90 => Meaning::StepHead,
            0x01 | 0x04..=0x07 => Meaning::Command,
            0x44 | 0x46 | 0x47 => Meaning::Response,
            0x80..=0x83 | 0x91..=0x93 => Meaning::Unsupported,
            0x02 | 0x03 | 0x41..=0x43 | 0x45 | 0x48 => Meaning::Unsupported,
            _ => Meaning::Invalid,
        }
    }

    // The questions below are for controls that open a transfer, the first five also for 0, "none".
    // Ranges for the codes, so that a data transfer's bits stay known where it passes its words.

    #[inline(always)]
    pub fn is_data(self) -> bool {
        self.0 & 0x80 != 0
    }

    #[inline(always)]
    pub fn is_data_write(self) -> bool {
        self.0 & 0xC0 == 0x80
    }

    #[inline(always)]
    pub fn is_data_read(self) -> bool {
        self.0 & 0xC0 == 0xC0
    }

    #[inline(always)]
    pub fn is_command(self) -> bool {
        matches!(self.0, 0x01..=0x3F)
    }

    #[inline(always)]
    pub fn is_response(self) -> bool {
        matches!(self.0, 0x40..=0x7F)
    }

    /// How many words pass with a command or a response, 0 with a code that opens neither.
    #[inline(always)]
    pub fn code_words(self) -> u16 {
        match self.0 {
            0x01 | 0x05 | 0x06 | 0x46 => 1,
            0x04 => 2,
            0x07 | 0x44 => 4,
            0x47 => 5,
            _ => 0,
        }
    }

    // The rest is about data controls alone.

    #[inline(always)]
    pub fn is_at_target(self) -> bool {
        self.0 & 0x0C == 0x0C
    }

    #[inline(always)]
    pub fn verifies_header(self) -> bool {
        self.0 & 0x4C == 0x04
    }

    #[inline(always)]
    fn passes_header(self) -> bool {
        self.0 & 0x48 != 0x40
    }

    #[inline(always)]
    pub fn names_field1(self) -> bool {
        self.0 & 1 != 0
    }

    #[inline(always)]
    pub fn names_field2(self) -> bool {
        self.0 & 2 != 0
    }

    /// How many words pass.
    #[inline(always)]
    pub fn words(self, setup: &Setup) -> u16 {
        words_if(self.passes_header(), setup.header)
            + words_if(self.names_field1(), setup.field1)
            + words_if(self.names_field2(), setup.field2)
    }

    /// Where in its sector the word lies that passes as number `index` of a transfer.
    #[inline(always)]
    pub fn offset(self, setup: &Setup, index: u16) -> usize {
        if self.passes_header() && index < *setup.header {
            return index.into();
        }
        let skipped = words_if(!self.passes_header(), setup.header)
            + words_if(!self.names_field1(), setup.field1);
        usize::from(index + skipped)
    }
}

#[inline(always)]
fn words_if(is_passed: bool, words: &u16) -> u16 {
    if is_passed {
        *words
    } else {
        0
    }
}
