//! File settings: the string of ChangeFileSettings read, checked and written again in
//! normal form (Tables 69 and 73).

use crate::bytes::{three, Cursor};
use crate::status::{Answer, Status};

/// The files of the application.
#[derive(Clone, Copy, PartialEq, Eq, Debug)]
pub enum FileNo {
    One,
    Two,
    Three,
}

impl FileNo {
    pub const ALL: [FileNo; 3] = [FileNo::One, FileNo::Two, FileNo::Three];

    pub fn from_number(number: u8) -> Option<FileNo> {
        FileNo::ALL.into_iter().find(|file| file.number() == number)
    }

    pub fn number(self) -> u8 {
        match self {
            FileNo::One => 1,
            FileNo::Two => 2,
            FileNo::Three => 3,
        }
    }

    pub fn size(self) -> usize {
        match self {
            FileNo::One => 32,
            FileNo::Two => 256,
            FileNo::Three => 128,
        }
    }
}

/// The communication modes (Table 12).
#[derive(Clone, Copy, PartialEq, Eq, Debug)]
pub enum Mode {
    Plain,
    Mac,
    Full,
}

impl Mode {
    fn from_bits(bits: u8) -> Mode {
        match bits & 3 {
            1 => Mode::Mac,
            3 => Mode::Full,
            _ => Mode::Plain,
        }
    }

    fn bits(self) -> u8 {
        match self {
            Mode::Plain => 0,
            Mode::Mac => 1,
            Mode::Full => 3,
        }
    }
}

/// An access condition (Table 6): a key, E or F.
#[derive(Clone, Copy, PartialEq, Eq, Debug)]
pub enum Condition {
    Key(u8),
    Free,
    Never,
}

impl Condition {
    /// From the low four bits.
    fn from_bits(bits: u8) -> Answer<Condition> {
        match bits & 15 {
            key @ 0..=4 => Ok(Condition::Key(key)),
            0xe => Ok(Condition::Free),
            0xf => Ok(Condition::Never),
            _ => Err(Status::ParameterError),
        }
    }

    fn bits(self) -> u8 {
        match self {
            Condition::Key(key) => key,
            Condition::Free => 0xe,
            Condition::Never => 0xf,
        }
    }
}

/// The set of access conditions (Table 7).
#[derive(Clone, Copy, PartialEq, Eq, Debug)]
pub struct Rights {
    pub read: Condition,
    pub write: Condition,
    pub read_write: Condition,
    pub change: Condition,
}

impl Rights {
    fn from_bytes([low, high]: [u8; 2]) -> Answer<Rights> {
        Ok(Rights {
            read: Condition::from_bits(high >> 4)?,
            write: Condition::from_bits(high)?,
            read_write: Condition::from_bits(low >> 4)?,
            change: Condition::from_bits(low)?,
        })
    }

    fn bytes(&self) -> [u8; 2] {
        [
            self.read_write.bits() << 4 | self.change.bits(),
            self.read.bits() << 4 | self.write.bits(),
        ]
    }
}

/// Bytes of file 2 that a mirror covers.
#[derive(Clone, Copy, PartialEq, Eq, Debug)]
pub struct Span {
    pub start: usize,
    pub length: usize,
}

impl Span {
    pub fn end(&self) -> usize {
        self.start + self.length
    }

    fn shares_a_byte(&self, other: &Span) -> bool {
        self.start < other.end() && other.start < self.end()
    }
}

pub const UID_LENGTH: usize = 14;
pub const COUNTER_LENGTH: usize = 6;
pub const PICC_DATA_LENGTH: usize = 32;
pub const MAC_LENGTH: usize = 16;

/// What SDMMetaRead makes of UID and counter (Table 10).
#[derive(Clone, PartialEq, Eq, Debug)]
pub enum Meta {
    /// F: neither is mirrored.
    Off,
    /// E: each in plain at its offset.
    Plain {
        uid: Option<usize>,
        counter: Option<usize>,
    },
    /// 0 to 4: PICCData encrypted under that key.
    Encrypted {
        key: u8,
        uid: bool,
        counter: bool,
        offset: usize,
    },
}

impl Meta {
    pub fn mirrors_uid(&self) -> bool {
        match self {
            Meta::Off => false,
            Meta::Plain { uid, .. } => uid.is_some(),
            Meta::Encrypted { uid, .. } => *uid,
        }
    }

    pub fn mirrors_counter(&self) -> bool {
        match self {
            Meta::Off => false,
            Meta::Plain { counter, .. } => counter.is_some(),
            Meta::Encrypted { counter, .. } => *counter,
        }
    }

    fn bits(&self) -> u8 {
        match self {
            Meta::Off => 0xf,
            Meta::Plain { .. } => 0xe,
            Meta::Encrypted { key, .. } => *key,
        }
    }
}

/// What SDMFileRead 0 to 4 brings: a MAC, and ENC where option bit 4 is set.
#[derive(Clone, PartialEq, Eq, Debug)]
pub struct FileRead {
    pub key: u8,
    pub mac_input: usize,
    pub enc: Option<Span>,
    pub mac: usize,
}

/// Secure Dynamic Messaging switched on.
#[derive(Clone, PartialEq, Eq, Debug)]
pub struct Sdm {
    pub meta: Meta,
    pub file_read: Option<FileRead>,
    pub counter_right: Condition,
    pub limit: Option<usize>,
}

/// The settings of one file.
#[derive(Clone, PartialEq, Eq, Debug)]
pub struct Settings {
    pub mode: Mode,
    pub rights: Rights,
    pub sdm: Option<Sdm>,
}

impl Settings {
    /// Reads a settings string; the status says what is wrong with it.
    pub fn parse(file: FileNo, string: &[u8]) -> Answer<Settings> {
        let mut cursor = Cursor::new(string);
        let option = cursor.byte().ok_or(Status::LengthError)?;
        let sdm_on = option & 0x40 != 0;
        if option & 0b1011_1100 != 0 || (sdm_on && file != FileNo::Two) {
            return Err(Status::ParameterError);
        }
        let rights = Rights::from_bytes(cursor.take().ok_or(Status::LengthError)?)?;
        let sdm = if sdm_on {
            Some(Sdm::parse(&mut cursor)?)
        } else {
            None
        };
        if !cursor.rest().is_empty() {
            return Err(Status::LengthError);
        }
        Ok(Settings {
            mode: Mode::from_bits(option),
            rights,
            sdm,
        })
    }

    fn option(&self) -> u8 {
        self.mode.bits() | if self.sdm.is_some() { 0x40 } else { 0 }
    }

    /// The normal form.
    pub fn string(&self) -> Vec<u8> {
        let mut string = vec![self.option()];
        string.extend(self.rights.bytes());
        self.sdm.iter().for_each(|sdm| sdm.write(&mut string));
        string
    }

    /// The data of GetFileSettings: 00, FileOption, rights, size, the rest.
    pub fn report(&self, file: FileNo) -> Vec<u8> {
        let mut report = vec![0, self.option()];
        report.extend(self.rights.bytes());
        report.extend(three(file.size()));
        self.sdm.iter().for_each(|sdm| sdm.write(&mut report));
        report
    }
}

/// SDMOptions and SDM rights, before the offsets are read.
struct Header {
    uid: bool,
    counter: bool,
    limit: bool,
    enc: bool,
    meta: Condition,
    file_read: Option<u8>,
    counter_right: Condition,
}

impl Header {
    fn parse(cursor: &mut Cursor) -> Answer<Header> {
        let options = cursor.byte().ok_or(Status::LengthError)?;
        if options & 0b1111 != 1 {
            return Err(Status::ParameterError);
        }
        let [low, high] = cursor.take().ok_or(Status::LengthError)?;
        let header = Header {
            uid: options & 0x80 != 0,
            counter: options & 0x40 != 0,
            limit: options & 0x20 != 0,
            enc: options & 0x10 != 0,
            meta: Condition::from_bits(high >> 4)?,
            file_read: match Condition::from_bits(high)? {
                Condition::Key(key) => Some(key),
                Condition::Never => None,
                Condition::Free => return Err(Status::ParameterError),
            },
            counter_right: Condition::from_bits(low)?,
        };
        if header.joins() {
            Ok(header)
        } else {
            Err(Status::ParameterError)
        }
    }

    /// The rules that join SDMOptions and SDM rights.
    fn joins(&self) -> bool {
        let meta_fits = match self.meta {
            Condition::Key(_) => self.uid || self.counter,
            Condition::Never => !self.uid && !self.counter,
            Condition::Free => true,
        };
        let enc_fits = !self.enc || (self.file_read.is_some() && self.uid && self.counter);
        meta_fits && enc_fits
    }

    /// How many three-byte fields follow.
    fn fields(&self) -> usize {
        let meta = match self.meta {
            Condition::Key(_) => 1,
            Condition::Free => usize::from(self.uid) + usize::from(self.counter),
            Condition::Never => 0,
        };
        let file_read = match self.file_read {
            Some(_) => 2 + 2 * usize::from(self.enc),
            None => 0,
        };
        meta + file_read + usize::from(self.limit)
    }
}

/// A field that the whole length has promised.
fn field(cursor: &mut Cursor) -> Answer<usize> {
    cursor.number().ok_or(Status::LengthError)
}

fn field_if(present: bool, cursor: &mut Cursor) -> Answer<Option<usize>> {
    if present {
        field(cursor).map(Some)
    } else {
        Ok(None)
    }
}

impl Sdm {
    fn parse(cursor: &mut Cursor) -> Answer<Sdm> {
        let header = Header::parse(cursor)?;
        if cursor.rest().len() != 3 * header.fields() {
            return Err(Status::LengthError);
        }
        let sdm = Sdm {
            meta: parse_meta(&header, cursor)?,
            file_read: parse_file_read(&header, cursor)?,
            counter_right: header.counter_right,
            limit: field_if(header.limit, cursor)?,
        };
        if sdm.positions_fit() {
            Ok(sdm)
        } else {
            Err(Status::ParameterError)
        }
    }

    /// The present spans, as listed.
    fn spans(&self) -> Vec<Span> {
        let mut spans = Vec::with_capacity(4);
        let mut span = |start, length| spans.push(Span { start, length });
        match self.meta {
            Meta::Off => (),
            Meta::Plain { uid, counter } => {
                uid.into_iter().for_each(|at| span(at, UID_LENGTH));
                counter.into_iter().for_each(|at| span(at, COUNTER_LENGTH));
            }
            Meta::Encrypted { offset, .. } => span(offset, PICC_DATA_LENGTH),
        }
        if let Some(read) = &self.file_read {
            read.enc.iter().for_each(|enc| span(enc.start, enc.length));
            span(read.mac, MAC_LENGTH);
        }
        spans
    }

    /// SDMENCLength, inside the file, no shared byte, MAC input start, ENC between.
    fn positions_fit(&self) -> bool {
        let spans = self.spans();
        let inside = spans.iter().all(|span| span.end() <= FileNo::Two.size());
        let apart = (1..spans.len()).all(|i| {
            spans[..i]
                .iter()
                .all(|other| !other.shares_a_byte(&spans[i]))
        });
        inside && apart && self.file_read.iter().all(FileRead::in_order)
    }

    fn options(&self) -> u8 {
        let enc = self
            .file_read
            .as_ref()
            .is_some_and(|read| read.enc.is_some());
        u8::from(self.meta.mirrors_uid()) << 7
            | u8::from(self.meta.mirrors_counter()) << 6
            | u8::from(self.limit.is_some()) << 5
            | u8::from(enc) << 4
            | 1
    }

    fn write(&self, string: &mut Vec<u8>) {
        let file_read = self.file_read.as_ref().map_or(0xf, |read| read.key);
        string.push(self.options());
        string.push(0xf0 | self.counter_right.bits());
        string.push(self.meta.bits() << 4 | file_read);
        let mut put = |number| string.extend(three(number));
        match self.meta {
            Meta::Off => (),
            Meta::Plain { uid, counter } => uid.into_iter().chain(counter).for_each(&mut put),
            Meta::Encrypted { offset, .. } => put(offset),
        }
        if let Some(read) = &self.file_read {
            put(read.mac_input);
            if let Some(enc) = read.enc {
                put(enc.start);
                put(enc.length);
            }
            put(read.mac);
        }
        self.limit.into_iter().for_each(put);
    }
}

impl FileRead {
    /// SDMENCLength is a multiple of 32, at least 32; the MAC input starts at most at the
    /// MAC; the ENC span lies between them.
    fn in_order(&self) -> bool {
        let enc_fits = self.enc.is_none_or(|enc| {
            enc.length >= 32
                && enc.length % 32 == 0
                && self.mac_input <= enc.start
                && enc.end() <= self.mac
        });
        self.mac_input <= self.mac && enc_fits
    }
}

fn parse_meta(header: &Header, cursor: &mut Cursor) -> Answer<Meta> {
    Ok(match header.meta {
        Condition::Never => Meta::Off,
        Condition::Free => Meta::Plain {
            uid: field_if(header.uid, cursor)?,
            counter: field_if(header.counter, cursor)?,
        },
        Condition::Key(key) => Meta::Encrypted {
            key,
            uid: header.uid,
            counter: header.counter,
            offset: field(cursor)?,
        },
    })
}

fn parse_file_read(header: &Header, cursor: &mut Cursor) -> Answer<Option<FileRead>> {
    let Some(key) = header.file_read else {
        return Ok(None);
    };
    let mac_input = field(cursor)?;
    let enc = match header.enc {
        true => Some(Span {
            start: field(cursor)?,
            length: field(cursor)?,
        }),
        false => None,
    };
    let mac = field(cursor)?;
    Ok(Some(FileRead {
        key,
        mac_input,
        enc,
        mac,
    }))
}
