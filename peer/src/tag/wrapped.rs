//! The wrapped commands after their form: target, access, secure messaging, own values.

use super::access::Access;
use super::authenticate::key_number;
use super::mirror::TapRefusal;
use super::{Call, Phase, ReadKind, Tag, LAST_CMD_CTR};
use crate::bytes::{three, Cursor};
use crate::command::Native;
use crate::crypto::crc;
use crate::messaging::{plain_data, MAC};
use crate::settings::{FileNo, Mode, Settings};
use crate::status::{Answer, Reply, Status};

/// A command with the key or file it aims at.
#[derive(Clone, Copy)]
pub(super) enum Job {
    ChangeKey(u8),
    KeyVersion(u8),
    CardUid,
    FileSettings(FileNo),
    ChangeSettings(FileNo),
    Counters(FileNo),
    Read(FileNo),
    Write(FileNo),
}

impl Tag {
    /// A pending part two lets nothing but AF through, and AF needs one.
    pub(super) fn wrapped(&mut self, ins: Native, data: &[u8], call: &mut Call) -> Answer<Reply> {
        match (self.end_pending(), ins) {
            (Some(pending), Native::PartTwo) => self.part_two(pending, data, call.without_access()),
            (Some(_), _) => Err(Status::CommandAborted),
            (None, Native::PartTwo) => Err(Status::IllegalCommandCode),
            (None, Native::AuthenticateEv2First) => self.first(data, call.without_access()),
            (None, Native::AuthenticateEv2NonFirst) => self.non_first(data, call.without_access()),
            (None, _) => self.secured(ins, data, call),
        }
    }

    /// Target, access, CmdCtr and messaging, the command's own values, and the reply in
    /// the mode fixed by access.
    fn secured(&mut self, ins: Native, message: &[u8], call: &mut Call) -> Answer<Reply> {
        let job = self.job(ins, message)?;
        let mode = call.decided(self.access(job))?;
        let data = self.receive(mode, ins, message)?;
        let fields = message.get(1..ins.header()).unwrap_or_default();
        let out = self.perform(job, mode, fields, data, call)?;
        let out = match self.session() {
            Some(session) => session.close_reply(mode, out),
            None => out,
        };
        Ok(Reply::wrapped(out))
    }

    /// Data shorter than the header, PICC level, then the file or key byte.
    pub(super) fn job(&self, ins: Native, message: &[u8]) -> Answer<Job> {
        if message.len() < ins.header() {
            return Err(Status::LengthError);
        }
        if self.at_picc_level() {
            return Err(Status::PermissionDenied);
        }
        let file = || file_number(first_byte(message)?);
        let key = || key_number(first_byte(message)?);
        Ok(match ins {
            Native::ChangeKey => Job::ChangeKey(key()?),
            Native::GetKeyVersion => Job::KeyVersion(key()?),
            Native::GetCardUid => Job::CardUid,
            Native::GetFileSettings => Job::FileSettings(file()?),
            Native::ChangeFileSettings => Job::ChangeSettings(file()?),
            Native::GetFileCounters => Job::Counters(file()?),
            Native::ReadData => Job::Read(file()?),
            Native::WriteData => Job::Write(file()?),
            Native::AuthenticateEv2First | Native::AuthenticateEv2NonFirst | Native::PartTwo => {
                return Err(Status::IllegalCommandCode)
            }
        })
    }

    pub(super) fn access(&self, job: Job) -> Answer<Access> {
        match job {
            Job::ChangeKey(_) => self.access_session(|key| key == 0),
            Job::CardUid => self.access_session(|_| true),
            Job::KeyVersion(_) | Job::FileSettings(_) => Ok(self.access_always()),
            Job::ChangeSettings(file) => self.access_change(file),
            Job::Counters(file) => self.access_counters(file),
            Job::Read(file) => self.access_read(file),
            Job::Write(file) => self.access_write(file),
        }
    }

    /// A full CmdCtr refuses; else the message is opened and CmdCtr rises by one.
    fn receive(&mut self, mode: Mode, ins: Native, message: &[u8]) -> Answer<Vec<u8>> {
        let Some(session) = self.session_mut() else {
            return plain_data(ins, message);
        };
        if session.ctr == LAST_CMD_CTR {
            return Err(Status::AuthenticationError);
        }
        let data = session.open_command(mode, ins, message)?;
        session.ctr += 1;
        Ok(data)
    }

    fn perform(
        &mut self,
        job: Job,
        mode: Mode,
        fields: &[u8],
        data: Vec<u8>,
        call: &Call,
    ) -> Answer<Vec<u8>> {
        match job {
            Job::ChangeKey(key) => self.change_key(key, &data),
            Job::KeyVersion(key) => Ok(vec![self.keys[usize::from(key)].version]),
            Job::CardUid => Ok(self.uid.to_vec()),
            Job::FileSettings(file) => Ok(self.settings(file).report(file)),
            Job::ChangeSettings(file) => self.change_settings(file, &data),
            Job::Counters(_) => Ok([&three(self.counter)[..], &[0, 0]].concat()),
            Job::Read(file) => self.read_data(file, mode, fields, call),
            Job::Write(file) => self.write_data(file, fields, &data),
        }
    }

    /// Key 0: new key and version. Others: new xor old, version and CRC of the new key.
    fn change_key(&mut self, number: u8, data: &[u8]) -> Answer<Vec<u8>> {
        let place = usize::from(number);
        let mut cursor = Cursor::new(data);
        let mut bytes: [u8; 16] = cursor.take().ok_or(Status::LengthError)?;
        let version = cursor.byte().ok_or(Status::LengthError)?;
        if number == 0 {
            expect_length(cursor.rest(), 0)?;
            self.set_phase(Phase::Idle);
        } else {
            expect_length(cursor.rest(), 4)?;
            for (byte, old) in bytes.iter_mut().zip(self.keys[place].bytes) {
                *byte ^= old;
            }
            if cursor.rest() != crc(&bytes) {
                return Err(Status::IntegrityError);
            }
        }
        self.keys[place].bytes = bytes;
        self.keys[place].version = version;
        Ok(Vec::new())
    }

    /// Stores the normal form; turning SDM on from off sets the tap counter to 0.
    fn change_settings(&mut self, file: FileNo, string: &[u8]) -> Answer<Vec<u8>> {
        let settings = Settings::parse(file, string)?;
        if settings.sdm.is_some() && self.settings(file).sdm.is_none() {
            self.counter = 0;
        }
        self.file_mut(file).settings = settings;
        Ok(Vec::new())
    }

    /// The range, then the size of the reply, then the read.
    fn read_data(
        &mut self,
        file: FileNo,
        mode: Mode,
        fields: &[u8],
        call: &Call,
    ) -> Answer<Vec<u8>> {
        let (offset, length) = offset_and_length(fields)?;
        let there = file.size().saturating_sub(offset);
        if there == 0 || length > there {
            return Err(Status::ParameterError);
        }
        let length = if length == 0 { there } else { length };
        if reply_size(mode, length) > 256 {
            return Err(Status::LengthError);
        }
        self.read(file, offset..offset + length, ReadKind::ReadData, call)
            .map_err(|refusal| match refusal {
                TapRefusal::Limit => Status::PermissionDenied,
                TapRefusal::Overflow => Status::IntegrityError,
            })
    }

    /// Length 0, data not that length, past the end.
    fn write_data(&mut self, file: FileNo, fields: &[u8], data: &[u8]) -> Answer<Vec<u8>> {
        let (offset, length) = offset_and_length(fields)?;
        if length == 0 {
            return Err(Status::ParameterError);
        }
        expect_length(data, length)?;
        self.file_mut(file)
            .bytes
            .get_mut(offset..offset + length)
            .ok_or(Status::BoundaryError)?
            .copy_from_slice(data);
        Ok(Vec::new())
    }
}

fn first_byte(message: &[u8]) -> Answer<u8> {
    message.first().copied().ok_or(Status::LengthError)
}

/// A file byte: over 31 919E, file not 1 to 3 91F0.
fn file_number(byte: u8) -> Answer<FileNo> {
    if byte > 31 {
        return Err(Status::ParameterError);
    }
    FileNo::from_number(byte).ok_or(Status::FileNotFound)
}

fn offset_and_length(fields: &[u8]) -> Answer<(usize, usize)> {
    let mut cursor = Cursor::new(fields);
    let pair = cursor.number().zip(cursor.number());
    pair.ok_or(Status::LengthError)
}

fn expect_length(data: &[u8], length: usize) -> Answer<()> {
    if data.len() == length {
        Ok(())
    } else {
        Err(Status::LengthError)
    }
}

/// The size of reply data with padding and MAC.
fn reply_size(mode: Mode, length: usize) -> usize {
    match mode {
        Mode::Plain => length,
        Mode::Mac => length + MAC,
        Mode::Full => (length + 1).next_multiple_of(16) + MAC,
    }
}
