//! The status words.

/// A status word, named as in Tables 23 and 24.
#[derive(Clone, Copy, PartialEq, Eq, Debug)]
pub enum Status {
    OperationOk,
    IllegalCommandCode,
    IntegrityError,
    NoSuchKey,
    LengthError,
    PermissionDenied,
    ParameterError,
    AuthenticationError,
    AdditionalFrame,
    BoundaryError,
    CommandAborted,
    FileNotFound,
    IsoNormal,
    IsoWrongLength,
    IsoSecurity,
    IsoConditions,
    IsoWrongData,
    IsoNotFound,
    IsoWrongP1P2,
    IsoWrongLc,
    IsoWrongLe(u8),
    IsoUnknownInstruction,
    IsoUnknownClass,
}

impl Status {
    pub fn word(self) -> u16 {
        match self {
            Status::OperationOk => 0x9100,
            Status::IllegalCommandCode => 0x911c,
            Status::IntegrityError => 0x911e,
            Status::NoSuchKey => 0x9140,
            Status::LengthError => 0x917e,
            Status::PermissionDenied => 0x919d,
            Status::ParameterError => 0x919e,
            Status::AuthenticationError => 0x91ae,
            Status::AdditionalFrame => 0x91af,
            Status::BoundaryError => 0x91be,
            Status::CommandAborted => 0x91ca,
            Status::FileNotFound => 0x91f0,
            Status::IsoNormal => 0x9000,
            Status::IsoWrongLength => 0x6700,
            Status::IsoSecurity => 0x6982,
            Status::IsoConditions => 0x6985,
            Status::IsoWrongData => 0x6a80,
            Status::IsoNotFound => 0x6a82,
            Status::IsoWrongP1P2 => 0x6a86,
            Status::IsoWrongLc => 0x6a87,
            Status::IsoWrongLe(there) => 0x6c00 | u16::from(there),
            Status::IsoUnknownInstruction => 0x6d00,
            Status::IsoUnknownClass => 0x6e00,
        }
    }
}

/// What an accepted command gives back.
pub struct Reply {
    pub data: Vec<u8>,
    pub status: Status,
}

impl Reply {
    /// Data with 9100.
    pub fn wrapped(data: Vec<u8>) -> Reply {
        Reply {
            data,
            status: Status::OperationOk,
        }
    }

    /// Data with 91AF.
    pub fn more(data: Vec<u8>) -> Reply {
        Reply {
            data,
            status: Status::AdditionalFrame,
        }
    }

    /// Data with 9000.
    pub fn iso(data: Vec<u8>) -> Reply {
        Reply {
            data,
            status: Status::IsoNormal,
        }
    }

    /// A refusal by status has no data.
    pub fn refusal(status: Status) -> Reply {
        Reply {
            data: Vec::new(),
            status,
        }
    }

    /// Data and two status bytes.
    pub fn into_bytes(self) -> Vec<u8> {
        let mut bytes = self.data;
        bytes.extend(self.status.word().to_be_bytes());
        bytes
    }
}

/// What a call comes to: a reply, or the status that refuses.
pub type Answer<T> = Result<T, Status>;
