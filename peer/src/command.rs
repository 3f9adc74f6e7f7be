//! The first three checks: size and class, form, instruction.

use crate::status::{Answer, Status};

/// The wrapped commands (CLA 90).
#[derive(Clone, Copy, PartialEq, Eq, Debug)]
pub enum Native {
    AuthenticateEv2First,
    AuthenticateEv2NonFirst,
    PartTwo,
    ChangeKey,
    GetKeyVersion,
    GetCardUid,
    GetFileSettings,
    ChangeFileSettings,
    GetFileCounters,
    ReadData,
    WriteData,
}

impl Native {
    pub const ALL: [Native; 11] = [
        Native::AuthenticateEv2First,
        Native::AuthenticateEv2NonFirst,
        Native::PartTwo,
        Native::ChangeKey,
        Native::GetKeyVersion,
        Native::GetCardUid,
        Native::GetFileSettings,
        Native::ChangeFileSettings,
        Native::GetFileCounters,
        Native::ReadData,
        Native::WriteData,
    ];

    /// The command code, Cmd.
    pub fn code(self) -> u8 {
        match self {
            Native::AuthenticateEv2First => 0x71,
            Native::AuthenticateEv2NonFirst => 0x77,
            Native::PartTwo => 0xaf,
            Native::ChangeKey => 0xc4,
            Native::GetKeyVersion => 0x64,
            Native::GetCardUid => 0x51,
            Native::GetFileSettings => 0xf5,
            Native::ChangeFileSettings => 0x5f,
            Native::GetFileCounters => 0xf6,
            Native::ReadData => 0xad,
            Native::WriteData => 0x8d,
        }
    }

    fn from_code(code: u8) -> Option<Native> {
        Native::ALL.into_iter().find(|ins| ins.code() == code)
    }

    /// The length of the header, CmdHeader.
    pub fn header(self) -> usize {
        match self {
            Native::ReadData | Native::WriteData => 7,
            Native::GetCardUid | Native::PartTwo => 0,
            _ => 1,
        }
    }

    /// Whether a data part, CmdData, follows the header.
    pub fn has_data(self) -> bool {
        matches!(
            self,
            Native::ChangeKey | Native::ChangeFileSettings | Native::WriteData
        )
    }
}

/// The commands of CLA 00.
#[derive(Clone, Copy, PartialEq, Eq, Debug)]
pub enum Iso {
    SelectFile,
    ReadBinary,
    UpdateBinary,
}

impl Iso {
    pub const ALL: [Iso; 3] = [Iso::SelectFile, Iso::ReadBinary, Iso::UpdateBinary];

    pub fn code(self) -> u8 {
        match self {
            Iso::SelectFile => 0xa4,
            Iso::ReadBinary => 0xb0,
            Iso::UpdateBinary => 0xd6,
        }
    }

    fn from_code(code: u8) -> Option<Iso> {
        Iso::ALL.into_iter().find(|ins| ins.code() == code)
    }
}

/// P1 P2, data (empty where there is none) and Le of a CLA 00 command.
#[derive(Clone, Copy, Debug)]
pub struct IsoFields<'a> {
    pub p1: u8,
    pub p2: u8,
    pub data: &'a [u8],
    pub le: Option<u8>,
}

/// A command that passed the first three checks.
#[derive(Debug)]
pub enum Command<'a> {
    Wrapped(Native, &'a [u8]),
    Plain(Iso, IsoFields<'a>),
}

impl<'a> Command<'a> {
    pub fn parse(bytes: &'a [u8]) -> Answer<Command<'a>> {
        if bytes.len() > 261 {
            return Err(Status::IsoWrongLength);
        }
        let (head, body) = bytes
            .split_first_chunk::<4>()
            .ok_or(Status::IsoWrongLength)?;
        match head[0] {
            0x90 => wrapped(*head, body),
            0x00 => plain(*head, body),
            _ => Err(Status::IsoUnknownClass),
        }
    }
}

/// Wrapped: Le 00 alone, or Lc, that many bytes and Le 00.
fn wrapped([_, ins, p1, p2]: [u8; 4], body: &[u8]) -> Answer<Command<'_>> {
    let data = match body {
        [0] => &[],
        [lc, data @ .., 0] if *lc > 0 && data.len() == usize::from(*lc) => data,
        _ => return Err(Status::LengthError),
    };
    let ins = Native::from_code(ins).ok_or(Status::IllegalCommandCode)?;
    if (p1, p2) != (0, 0) {
        return Err(Status::ParameterError);
    }
    Ok(Command::Wrapped(ins, data))
}

/// CLA 00: nothing, Le, or Lc and that many bytes with Le or without.
fn plain([_, ins, p1, p2]: [u8; 4], body: &[u8]) -> Answer<Command<'_>> {
    let (data, le) = match body {
        [] => (body, None),
        [le] => (&[][..], Some(*le)),
        [0, ..] => return Err(Status::IsoWrongLength),
        [lc, data @ ..] if data.len() == usize::from(*lc) => (data, None),
        [lc, data @ .., le] if data.len() == usize::from(*lc) => (data, Some(*le)),
        _ => return Err(Status::IsoWrongLength),
    };
    let ins = Iso::from_code(ins).ok_or(Status::IsoUnknownInstruction)?;
    Ok(Command::Plain(ins, IsoFields { p1, p2, data, le }))
}
