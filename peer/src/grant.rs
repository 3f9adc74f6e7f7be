//! Why a command was granted (02, request 5).

use std::fmt;

/// The rights that grant, in the order of Table 9. SDMFileRead grants by the tap rule alone,
/// SDMMetaRead grants nothing.
#[derive(Clone, Copy, PartialEq, Eq, Debug)]
pub enum Right {
    Read,
    Write,
    ReadWrite,
    Change,
    SdmCtrRet,
}

impl fmt::Display for Right {
    fn fmt(&self, out: &mut fmt::Formatter) -> fmt::Result {
        out.write_str(match self {
            Right::Read => "Read",
            Right::Write => "Write",
            Right::ReadWrite => "ReadWrite",
            Right::Change => "Change",
            Right::SdmCtrRet => "SDMCtrRet",
        })
    }
}

/// What the access step said.
#[derive(Clone, Copy, PartialEq, Eq, Debug)]
pub enum Grant {
    /// The session's key holds the right.
    Key(Right),
    /// Without session, SDMFileRead 0 to 4.
    Tap,
    /// The right is E.
    Free(Right),
    /// A command under none of these rights.
    NoRight,
    /// The access step refused.
    Refused,
    /// An earlier step refused.
    NotAsked,
}

impl fmt::Display for Grant {
    fn fmt(&self, out: &mut fmt::Formatter) -> fmt::Result {
        match self {
            Grant::Key(right) => write!(out, "key {right}"),
            Grant::Tap => out.write_str("tap SDMFileRead"),
            Grant::Free(right) => write!(out, "E {right}"),
            Grant::NoRight => out.write_str("none"),
            Grant::Refused => out.write_str("refused"),
            Grant::NotAsked => out.write_str("-"),
        }
    }
}
