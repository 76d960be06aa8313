//! Transfers: how they open and end, and how a write and a read pass their words.

use super::answer::{Answer, Refusal, Status};
use super::commands::Parameters;
use super::control::{Control, Meaning};
use super::drive::{
    next, Drive, Medium, Outcome, Port, INVALID_CONTROL, NO_TARGET, TARGET_MISSING,
    UNSUPPORTED_CONTROL,
};

impl Drive<'_> {
    #[inline(always)]
    pub(super) fn control(&mut self, port: Port, control: Control) -> Outcome {
        self.require_rest(port)?;
        // How a host learns what is pending: nothing stops it, and its opening clears nothing.
        if control == Control::READ_STATUS {
            return Ok(self.open(control, control.code_words()));
        }
        if let Some(stopped) = self.begin_request(port) {
            return Ok(stopped);
        }
        match control.meaning() {
            Meaning::Write | Meaning::Read => Ok(self.open_data(port, control)),
            Meaning::Command | Meaning::Response => Ok(self.open(control, control.code_words())),
            Meaning::StepHead => {
                *self.head = next(*self.head, *self.setup.heads);
                Ok(Answer::Status(Status::Normal))
            }
            Meaning::Unsupported => Ok(self.exception(port, UNSUPPORTED_CONTROL)),
            Meaning::Invalid => Ok(self.exception(port, INVALID_CONTROL)),
        }
    }

    #[inline(always)]
    fn open_data(&mut self, port: Port, control: Control) -> Answer {
        if control.is_at_target() {
            if *self.target == NO_TARGET {
                return self.exception(port, TARGET_MISSING);
            }
            *self.sector = *self.target;
        }
        match control.words(&self.setup) {
            0 => self.finish(Status::Normal),
            words => self.open(control, words),
        }
    }

    #[inline(always)]
    fn open(&mut self, control: Control, words: u16) -> Answer {
        self.close();
        *self.control = control.0.into();
        let place = self.place();
        Answer::Opened { words, place }
    }

    #[inline(always)]
    pub(super) fn word_from_host(&mut self, port: Port, word: u16, medium: &mut Medium) -> Outcome {
        self.require_selected(port)?;
        let control = self.open_control();
        if control.is_data_write() {
            Ok(self.write(control, word, medium))
        } else if control.is_command() {
            Ok(self.command_word(port, control, word))
        } else {
            Err(Refusal::WrongMoment)
        }
    }

    #[inline(always)]
    fn write(&mut self, control: Control, word: u16, medium: &mut Medium) -> Answer {
        medium.staging[usize::from(*self.moved)] = word;
        *self.moved += 1;
        if *self.moved == *self.setup.header
            && control.verifies_header()
            && !self.header_matches(medium)
        {
            return self.finish(Status::HeaderMiscompare);
        }
        if *self.moved < control.words(&self.setup) {
            return Answer::Accepted;
        }
        self.commit(control, medium);
        self.finish(Status::Normal)
    }

    #[inline(always)]
    fn header_matches(&self, medium: &Medium) -> bool {
        let header = usize::from(*self.setup.header);
        let first = self.setup.first_word(self.place());
        medium.sectors[first..][..header] == medium.staging[..header]
    }

    /// Puts the staged words of a write into the sector, a verified header left out.
    #[inline(always)]
    fn commit(&self, control: Control, medium: &mut Medium) {
        let sector = &mut medium.sectors[self.setup.first_word(self.place())..];
        let staged = &medium.staging[..usize::from(*self.moved)];
        let (header, fields) = staged.split_at((*self.setup.header).into());
        if !control.verifies_header() {
            sector[..header.len()].copy_from_slice(header);
        }
        let first = control.offset(&self.setup, *self.setup.header);
        sector[first..][..fields.len()].copy_from_slice(fields);
    }

    #[inline(always)]
    pub(super) fn take(&mut self, port: Port, sectors: &[u16]) -> Outcome {
        self.require_selected(port)?;
        let control = self.open_control();
        if control.is_data_read() {
            Ok(self.read(control, sectors))
        } else if control.is_response() {
            Ok(self.response_word(port, control))
        } else {
            Err(Refusal::WrongMoment)
        }
    }

    #[inline(always)]
    fn read(&mut self, control: Control, sectors: &[u16]) -> Answer {
        let offset = control.offset(&self.setup, *self.moved);
        let word = sectors[self.setup.first_word(self.place()) + offset];
        *self.moved += 1;
        if *self.moved < control.words(&self.setup) {
            return Answer::Word(word);
        }
        self.finish(Status::Normal);
        Answer::LastWord(word)
    }

    /// Ends a transfer early. A command or a response leaves the position alone.
    #[inline(always)]
    pub(super) fn end(&mut self, port: Port) -> Outcome {
        self.require_selected(port)?;
        let control = self.open_control();
        if control.is_data() {
            return Ok(self.finish(Status::Normal));
        }
        if control.0 == 0 {
            return Err(Refusal::WrongMoment);
        }
        self.close();
        Ok(Answer::Status(Status::Normal))
    }

    #[inline(always)]
    fn open_control(&self) -> Control {
        Control(*self.control as u8)
    }

    /// Ends a data transfer inside its session.
    #[inline(always)]
    fn finish(&mut self, status: Status) -> Answer {
        self.close();
        *self.sector = next(*self.sector, *self.setup.sectors);
        Answer::Status(status)
    }

    /// Leaves nothing of a transfer, whatever it was.
    #[inline(always)]
    pub(super) fn close(&mut self) {
        (*self.control, *self.moved) = (0, 0);
        let Parameters {
            cylinder_high,
            cylinder_low,
            head,
        } = &mut self.parameters;
        (**cylinder_high, **cylinder_low, **head) = (0, 0, 0);
    }
}
