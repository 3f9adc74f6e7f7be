//! What the reader sends next.

use super::acts::{Act, AT_PICC, IDLE, NEARLY_WORN, PENDING, SDM, SESSION, WORN};
use super::files::header;
use super::Talk;
use crate::command::Native;
use crate::reader::wrap;
use crate::settings::{FileNo, Mode};
use crate::tag::{ReadKind, LAST_CMD_CTR};

impl Talk {
    pub(super) fn compose(&mut self) -> Vec<u8> {
        if let Some(end) = self.wear {
            return self.wear_out(end);
        }
        let act = if let Some(act) = self.go_on_tapping().or_else(|| self.counters_by_key()) {
            act
        } else if self.tag.at_picc_level() {
            self.rng.weighted(&AT_PICC)
        } else if self.tag.pending().is_some() {
            self.rng.weighted(&PENDING)
        } else if self.tag.session().is_some() {
            self.rng.weighted(&SESSION)
        } else if self.tag.settings(FileNo::Two).sdm.is_some() {
            self.rng.weighted(&SDM)
        } else {
            self.rng.weighted(&IDLE)
        };
        self.act(act)
    }

    /// The same read again, in about half of the cases where a tap runs.
    fn go_on_tapping(&mut self) -> Option<Act> {
        let kind = self.tag.tap().filter(|_| self.rng.chance(45))?;
        Some(match kind {
            ReadKind::ReadData => Act::Read,
            ReadKind::IsoReadBinary => Act::IsoRead,
        })
    }

    /// GetFileCounters, in some of the cases where the session's key grants it, since few
    /// sessions have that key.
    fn counters_by_key(&mut self) -> Option<Act> {
        let mode = self.tag.mode_of(Native::GetFileCounters, &[2]);
        (mode == Some(Mode::Full) && self.rng.chance(15)).then_some(Act::Counters)
    }

    /// Opens a session, drives its CmdCtr up to the end and then tries what still goes.
    fn wear_out(&mut self, end: u16) -> Vec<u8> {
        let slips = std::mem::take(&mut self.slips);
        let ctr = self.tag.session().map(|session| session.ctr);
        let command = match ctr {
            Some(ctr) if ctr < end => wrap(Native::ReadData, &[1, 0, 0, 0, 1, 0, 0]),
            Some(LAST_CMD_CTR) => {
                let act = self.rng.weighted(&WORN);
                self.act(act)
            }
            Some(_) => {
                let act = self.rng.pick(&NEARLY_WORN);
                self.act(act)
            }
            None if self.tag.at_picc_level() => self.act(Act::SelectApplication),
            None if self.tag.pending().is_some() => self.act(Act::PartTwo),
            None => {
                let key = self.rng.between(1, 4) as u8;
                wrap(Native::AuthenticateEv2First, &[key, 0])
            }
        };
        self.slips = slips;
        command
    }

    fn act(&mut self, act: Act) -> Vec<u8> {
        let patience = if self.tag.session().is_some() { 90 } else { 30 };
        if self.hopeless(act) && self.rng.chance(patience) {
            return self.another_key();
        }
        match act {
            Act::SelectApplication => self.select_application(),
            Act::SelectPicc => self.select_picc(),
            Act::SelectFile => self.select_file(),
            Act::SelectOdd => self.select_odd(),
            Act::First => self.first(),
            Act::NonFirst => self.non_first(),
            Act::PartTwo => self.part_two(),
            Act::KeyVersion => self.key_version(),
            Act::CardUid => self.close(Native::GetCardUid, &[], &[]),
            Act::FileSettings => self.about_file(Native::GetFileSettings),
            Act::Counters => self.about_file(Native::GetFileCounters),
            Act::ChangeSettings => self.change_settings(),
            Act::ChangeKey => self.change_key(),
            Act::Read => self.read(),
            Act::Write => self.write(),
            Act::IsoRead => self.iso_read(),
            Act::IsoUpdate => self.iso_update(),
            Act::Noise => self.noise(),
        }
    }

    /// Whether no file, or no key, grants the command now.
    fn hopeless(&self, act: Act) -> bool {
        let ins = match act {
            Act::Counters => Native::GetFileCounters,
            Act::ChangeSettings => Native::ChangeFileSettings,
            Act::ChangeKey => Native::ChangeKey,
            Act::Read => Native::ReadData,
            Act::Write => Native::WriteData,
            _ => return false,
        };
        !self.tag.at_picc_level() && !FileNo::ALL.into_iter().any(|file| self.grants(ins, file))
    }

    pub(super) fn grants(&self, ins: Native, file: FileNo) -> bool {
        self.tag.mode_of(ins, &header(file, 0, 0)).is_some()
    }

    /// Goes on with an authentication or begins one.
    fn another_key(&mut self) -> Vec<u8> {
        if self.tag.pending().is_some() {
            self.part_two()
        } else if self.tag.session().is_some() {
            self.non_first()
        } else {
            self.first()
        }
    }

    pub(super) fn slip(&mut self) -> bool {
        let percent = self.in_care(self.slips, 6);
        self.rng.chance(percent)
    }
}
