//! Access conditions, why they grant and the mode they give (8.2.3, Tables 6 to 12).

use super::{Call, Tag};
use crate::grant::{Grant, Right};
use crate::settings::{Condition, FileNo, Mode};
use crate::status::{Answer, Status};

/// Access granted: why, and in which mode.
pub(super) struct Access {
    grant: Grant,
    pub(super) mode: Mode,
}

impl Access {
    /// Granted in Plain.
    fn plain(grant: Grant) -> Access {
        let mode = Mode::Plain;
        Access { grant, mode }
    }

    /// A command under none of Table 9's rights.
    fn no_right(mode: Mode) -> Access {
        let grant = Grant::NoRight;
        Access { grant, mode }
    }
}

impl Call<'_> {
    /// Takes down what the access step decided.
    pub(super) fn decided(&mut self, access: Answer<Access>) -> Answer<Mode> {
        let refused = |_: &Status| Grant::Refused;
        self.grant = access.as_ref().map_or_else(refused, |access| access.grant);
        access.map(|access| access.mode)
    }

    /// Takes down that the command, which came through step 4, has no access step.
    pub(super) fn without_access(&mut self) -> &Self {
        self.grant = Grant::NoRight;
        self
    }
}

impl Tag {
    /// In session the key grants in the given mode; failing that, E grants in Plain. Of
    /// several rights alike the first. Not granted: 919D if all conditions concerned are F,
    /// else 91AE.
    fn judge(&self, rights: &[(Right, Condition)], under_key: Mode) -> Answer<Access> {
        let first = |holds: Condition| rights.iter().find(|(_, condition)| *condition == holds);
        let session = self.session();
        let by_key = session.and_then(|session| first(Condition::Key(session.key_no)));
        if let Some((right, _)) = by_key {
            let (grant, mode) = (Grant::Key(*right), under_key);
            Ok(Access { grant, mode })
        } else if let Some((right, _)) = first(Condition::Free) {
            Ok(Access::plain(Grant::Free(*right)))
        } else if rights.iter().all(|(_, c)| *c == Condition::Never) {
            Err(Status::PermissionDenied)
        } else {
            Err(Status::AuthenticationError)
        }
    }

    /// A read looks at Read and ReadWrite. With SDM on, SDMFileRead grants where there is
    /// no session, before E; in session it only counts as a condition that isn't F.
    pub(super) fn access_read(&self, file: FileNo) -> Answer<Access> {
        let settings = self.settings(file);
        let (read, read_write) = (settings.rights.read, settings.rights.read_write);
        let rights = [(Right::Read, read), (Right::ReadWrite, read_write)];
        let access = self.judge(&rights, settings.mode);
        let file_read = settings.sdm.as_ref().and_then(|sdm| sdm.file_read.as_ref());
        match (access, file_read, self.session()) {
            (_, Some(_), None) => Ok(Access::plain(Grant::Tap)),
            (Err(_), Some(_), Some(_)) => Err(Status::AuthenticationError),
            (access, _, _) => access,
        }
    }

    /// A write looks at Write and ReadWrite.
    pub(super) fn access_write(&self, file: FileNo) -> Answer<Access> {
        let settings = self.settings(file);
        let (write, read_write) = (settings.rights.write, settings.rights.read_write);
        let rights = [(Right::Write, write), (Right::ReadWrite, read_write)];
        self.judge(&rights, settings.mode)
    }

    /// ChangeFileSettings looks at Change.
    pub(super) fn access_change(&self, file: FileNo) -> Answer<Access> {
        let change = self.settings(file).rights.change;
        self.judge(&[(Right::Change, change)], Mode::Full)
    }

    /// GetFileCounters looks at SDMCtrRet; with SDM off it is denied.
    pub(super) fn access_counters(&self, file: FileNo) -> Answer<Access> {
        let sdm = self.settings(file).sdm.as_ref();
        let sdm = sdm.ok_or(Status::PermissionDenied)?;
        self.judge(&[(Right::SdmCtrRet, sdm.counter_right)], Mode::Full)
    }

    /// GetCardUID needs a session, ChangeKey one with key 0.
    pub(super) fn access_session(&self, fits: impl Fn(u8) -> bool) -> Answer<Access> {
        match self.session() {
            Some(session) if fits(session.key_no) => Ok(Access::no_right(Mode::Full)),
            _ => Err(Status::AuthenticationError),
        }
    }

    /// GetFileSettings and GetKeyVersion are always granted, MAC in session.
    pub(super) fn access_always(&self) -> Access {
        Access::no_right(match self.session() {
            Some(_) => Mode::Mac,
            None => Mode::Plain,
        })
    }
}
