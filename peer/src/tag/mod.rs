//! The tag: its state, and how a call goes through the order of checks.

mod access;
mod authenticate;
mod iso;
mod mirror;
#[cfg(test)]
mod tests;
mod wrapped;

use crate::aes::counted;
use crate::command::{Command, Native};
use crate::grant::Grant;
use crate::messaging::{Pending, Session};
use crate::settings::{FileNo, Mode, Settings};
use crate::status::{Answer, Reply};

pub type Uid = [u8; 7];
pub type Random = [u8; 20];
type Padding = [u8; 12];

/// The longest reply: 256 bytes of data and two of status.
pub const ROOM: usize = 258;

/// The highest CmdCtr; a session that has it takes no more commands.
pub const LAST_CMD_CTR: u16 = u16::MAX;

/// The highest tap counter.
pub const LAST_COUNTER: usize = 0xff_ffff;

/// The contents of file 1 at delivery, before its zeros.
const CAPABILITY_CONTAINER: [u8; 23] = [
    0x00, 0x17, 0x20, 0x01, 0x00, 0x00, 0xff, 0x04, 0x06, 0xe1, 0x04, 0x01, 0x00, 0x00, 0x00, 0x05,
    0x06, 0xe1, 0x05, 0x00, 0x80, 0x82, 0x83,
];

#[derive(Clone, Default)]
struct Key {
    bytes: [u8; 16],
    version: u8,
}

#[derive(Clone)]
struct File {
    bytes: Vec<u8>,
    settings: Settings,
}

/// The two commands that read a file.
#[derive(Clone, Copy, PartialEq, Eq, Debug)]
pub enum ReadKind {
    ReadData,
    IsoReadBinary,
}

/// A tap: the read that it goes on with, and the padding of PICCData, drawn when it started and
/// used until it ends (02, request 3).
#[derive(Clone, Copy)]
struct Tap {
    kind: ReadKind,
    padding: Padding,
}

/// What runs at application level: at most one of a tap, a pending part two, a session.
#[derive(Clone)]
enum Phase {
    Idle,
    Tap(Tap),
    Pending(Pending),
    Session(Box<Session>),
}

/// What is selected. At PICC level nothing runs.
#[derive(Clone)]
enum Place {
    Picc,
    Application { file: Option<FileNo>, phase: Phase },
}

/// A tag. Its state is sound by construction: nothing outside can put it together.
#[derive(Clone)]
pub struct Tag {
    uid: Uid,
    keys: [Key; 5],
    files: [File; 3],
    counter: usize,
    place: Place,
}

/// What a call brings besides its command.
struct Call<'a> {
    random: &'a Random,
    /// The tap of the last command, if that was such a read.
    tap: Option<Tap>,
    /// What the access step said so far; what refuses later leaves it.
    grant: Grant,
}

/// What a call answers.
pub struct Explained {
    /// Data and two status bytes.
    pub reply: Vec<u8>,
    /// Why the command was granted.
    pub grant: Grant,
    /// How many AES blocks the tag computed.
    pub blocks: usize,
}

impl Tag {
    /// A fresh tag; none where the UID isn't 7 bytes that start with 04.
    pub fn fresh(uid: &[u8]) -> Option<Tag> {
        let uid = Uid::try_from(uid).ok().filter(|uid| uid[0] == 0x04)?;
        let mut files = [
            delivered(FileNo::One, &[0x00, 0x00, 0xe0])?,
            delivered(FileNo::Two, &[0x00, 0xe0, 0xee])?,
            delivered(FileNo::Three, &[0x03, 0x30, 0x23])?,
        ];
        files[0].bytes[..CAPABILITY_CONTAINER.len()].copy_from_slice(&CAPABILITY_CONTAINER);
        Some(Tag {
            uid,
            keys: Default::default(),
            files,
            counter: 0,
            place: Place::Picc,
        })
    }

    /// One call with a reply room. A room under 258 bytes or other than 20 random bytes
    /// are refused: length 0, room and state untouched.
    pub fn call(&mut self, command: &[u8], random: &[u8], room: &mut [u8]) -> usize {
        let Ok(random) = random.try_into() else {
            return 0;
        };
        if room.len() < ROOM {
            return 0;
        }
        let reply = self.exchange(command, random);
        room[..reply.len()].copy_from_slice(&reply);
        reply.len()
    }

    /// One call: data and two status bytes.
    pub fn exchange(&mut self, command: &[u8], random: &Random) -> Vec<u8> {
        self.explained(command, random).reply
    }

    /// One call: the reply, why it was granted and the blocks it took.
    pub fn explained(&mut self, command: &[u8], random: &Random) -> Explained {
        let mut call = Call {
            random,
            tap: self.end_tap(),
            grant: Grant::NotAsked,
        };
        let (answer, blocks) = counted(|| self.answer(command, &mut call));
        let reply = answer.unwrap_or_else(|status| {
            self.set_phase(Phase::Idle);
            Reply::refusal(status)
        });
        Explained {
            reply: reply.into_bytes(),
            grant: call.grant,
            blocks,
        }
    }

    fn answer(&mut self, command: &[u8], call: &mut Call) -> Answer<Reply> {
        match Command::parse(command)? {
            Command::Wrapped(ins, data) => self.wrapped(ins, data, call),
            Command::Plain(ins, fields) => self.iso(ins, &fields, call),
        }
    }

    fn phase(&self) -> Option<&Phase> {
        match &self.place {
            Place::Picc => None,
            Place::Application { phase, .. } => Some(phase),
        }
    }

    /// Sets what runs; at PICC level nothing can.
    fn set_phase(&mut self, new: Phase) {
        if let Place::Application { phase, .. } = &mut self.place {
            *phase = new;
        }
    }

    /// Ends a running tap and hands it out.
    fn end_tap(&mut self) -> Option<Tap> {
        let Phase::Tap(tap) = *self.phase()? else {
            return None;
        };
        self.set_phase(Phase::Idle);
        Some(tap)
    }

    /// Ends a pending part two and hands it out.
    fn end_pending(&mut self) -> Option<Pending> {
        let pending = self.pending()?.clone();
        self.set_phase(Phase::Idle);
        Some(pending)
    }

    fn session_mut(&mut self) -> Option<&mut Session> {
        match &mut self.place {
            Place::Application {
                phase: Phase::Session(session),
                ..
            } => Some(session),
            _ => None,
        }
    }

    fn file(&self, file: FileNo) -> &File {
        &self.files[usize::from(file.number()) - 1]
    }

    fn file_mut(&mut self, file: FileNo) -> &mut File {
        &mut self.files[usize::from(file.number()) - 1]
    }
}

fn delivered(file: FileNo, settings: &[u8]) -> Option<File> {
    Some(File {
        bytes: vec![0; file.size()],
        settings: Settings::parse(file, settings).ok()?,
    })
}

/// What a reader who knows the tag's secrets may look at.
impl Tag {
    pub fn at_picc_level(&self) -> bool {
        matches!(self.place, Place::Picc)
    }

    pub fn selected(&self) -> Option<FileNo> {
        match self.place {
            Place::Application { file, .. } => file,
            Place::Picc => None,
        }
    }

    pub fn tap(&self) -> Option<ReadKind> {
        match self.phase()? {
            Phase::Tap(tap) => Some(tap.kind),
            _ => None,
        }
    }

    pub fn pending(&self) -> Option<&Pending> {
        match self.phase()? {
            Phase::Pending(pending) => Some(pending),
            _ => None,
        }
    }

    pub fn session(&self) -> Option<&Session> {
        match self.phase()? {
            Phase::Session(session) => Some(session),
            _ => None,
        }
    }

    /// A key, 0 to 4.
    pub fn key(&self, number: u8) -> Option<&[u8; 16]> {
        self.keys.get(usize::from(number)).map(|key| &key.bytes)
    }

    pub fn settings(&self, file: FileNo) -> &Settings {
        &self.file(file).settings
    }

    pub fn counter(&self) -> usize {
        self.counter
    }

    /// The mode in which a command would be granted now.
    pub fn mode_of(&self, ins: Native, header: &[u8]) -> Option<Mode> {
        let access = self.job(ins, header).and_then(|job| self.access(job));
        access.ok().map(|access| access.mode)
    }
}
