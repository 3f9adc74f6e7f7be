//! ISOSelectFile, ISOReadBinary and ISOUpdateBinary (10.9).

use super::{Call, Phase, Place, ReadKind, Tag, LAST_CMD_CTR};
use crate::command::{Iso, IsoFields};
use crate::settings::{FileNo, Mode};
use crate::status::{Answer, Reply, Status};

const PICC_NAME: [u8; 7] = [0xd2, 0x76, 0x00, 0x00, 0x85, 0x01, 0x00];
const APPLICATION_NAME: [u8; 7] = [0xd2, 0x76, 0x00, 0x00, 0x85, 0x01, 0x01];

/// What a select names.
enum Named {
    Picc,
    Application,
    File(FileNo),
}

impl Tag {
    /// A pending part two lets no CLA 00 command through.
    pub(super) fn iso(&mut self, ins: Iso, fields: &IsoFields, call: &mut Call) -> Answer<Reply> {
        if self.end_pending().is_some() {
            return Err(Status::IsoConditions);
        }
        let data = match ins {
            Iso::SelectFile => self.select(fields, call)?,
            Iso::ReadBinary => self.read_binary(fields, call)?,
            Iso::UpdateBinary => self.update_binary(fields, call)?,
        };
        Ok(Reply::iso(data))
    }

    /// Selecting PICC or application ends session and file selection; a file needs the
    /// application and keeps the session.
    fn select(&mut self, fields: &IsoFields, call: &mut Call) -> Answer<Vec<u8>> {
        call.without_access();
        let named = named(fields)?;
        match (&mut self.place, named) {
            (place, Named::Picc) => *place = Place::Picc,
            (place, Named::Application) => {
                *place = Place::Application {
                    file: None,
                    phase: Phase::Idle,
                }
            }
            (Place::Application { file, .. }, Named::File(new)) => *file = Some(new),
            (Place::Picc, Named::File(_)) => return Err(Status::IsoNotFound),
        }
        Ok(Vec::new())
    }

    /// Le 00 gives all; Le over what is there: 6C and that number.
    fn read_binary(&mut self, fields: &IsoFields, call: &mut Call) -> Answer<Vec<u8>> {
        let offset = offset(fields)?;
        let le = match (fields.le, fields.data) {
            (Some(le), []) => usize::from(le),
            _ => return Err(Status::IsoWrongLength),
        };
        let file = self.selected().ok_or(Status::IsoConditions)?;
        self.require_plain(call.decided(self.access_read(file)))?;
        let there = remaining(file, offset)?;
        if le > there {
            // Le is one byte, so what is there fits one too.
            return Err(Status::IsoWrongLe(there as u8));
        }
        let length = if le == 0 { there } else { le };
        let range = offset..offset + length;
        let data = self
            .read(file, range, ReadKind::IsoReadBinary, call)
            .map_err(|_| Status::IsoSecurity)?;
        self.count_command();
        Ok(data)
    }

    fn update_binary(&mut self, fields: &IsoFields, call: &mut Call) -> Answer<Vec<u8>> {
        let offset = offset(fields)?;
        if fields.data.is_empty() || fields.le.is_some() {
            return Err(Status::IsoWrongLength);
        }
        let file = self.selected().ok_or(Status::IsoConditions)?;
        self.require_plain(call.decided(self.access_write(file)))?;
        if fields.data.len() > remaining(file, offset)? {
            return Err(Status::IsoWrongLc);
        }
        self.file_mut(file).bytes[offset..][..fields.data.len()].copy_from_slice(fields.data);
        self.count_command();
        Ok(Vec::new())
    }

    /// Access 6982, also with CmdCtr full or a mode other than Plain.
    fn require_plain(&self, decided: Answer<Mode>) -> Answer<()> {
        let ctr = self.session().map(|session| session.ctr);
        if decided == Ok(Mode::Plain) && ctr != Some(LAST_CMD_CTR) {
            Ok(())
        } else {
            Err(Status::IsoSecurity)
        }
    }

    /// In session an accepted read or update raises CmdCtr.
    fn count_command(&mut self) {
        if let Some(session) = self.session_mut() {
            session.ctr += 1;
        }
    }
}

/// P1 P2, the id's length, then the id or name.
fn named(fields: &IsoFields) -> Answer<Named> {
    if fields.p2 != 0x00 && fields.p2 != 0x0c {
        return Err(Status::IsoWrongP1P2);
    }
    match (fields.p1, fields.data) {
        (0..=2, []) => Ok(Named::Picc),
        (0..=2, [high, low]) => file_id(u16::from_be_bytes([*high, *low])),
        (0..=2, _) => Err(Status::IsoWrongData),
        (4, name) if name == PICC_NAME => Ok(Named::Picc),
        (4, name) if name == APPLICATION_NAME => Ok(Named::Application),
        (4, _) => Err(Status::IsoNotFound),
        _ => Err(Status::IsoWrongP1P2),
    }
}

fn file_id(id: u16) -> Answer<Named> {
    match id {
        0x3f00 => Ok(Named::Picc),
        0xe110 => Ok(Named::Application),
        0xe103 => Ok(Named::File(FileNo::One)),
        0xe104 => Ok(Named::File(FileNo::Two)),
        0xe105 => Ok(Named::File(FileNo::Three)),
        _ => Err(Status::IsoNotFound),
    }
}

/// The offset P1 P2; bit 7 of P1 must be clear.
fn offset(fields: &IsoFields) -> Answer<usize> {
    if fields.p1 & 0x80 != 0 {
        return Err(Status::IsoWrongP1P2);
    }
    Ok(usize::from(u16::from_be_bytes([fields.p1, fields.p2])))
}

/// What the file holds from the offset on, at least one byte.
fn remaining(file: FileNo, offset: usize) -> Answer<usize> {
    match file.size().checked_sub(offset) {
        None | Some(0) => Err(Status::IsoWrongP1P2),
        Some(there) => Ok(there),
    }
}
