//! A tag and someone who talks to it, for the tests beside.

use peer::bytes::{hex, unhex};
use peer::command::Native;
use peer::reader::{part_two, wrap};
use peer::settings::Mode;
use peer::tag::{Random, Tag};

pub const UID: [u8; 7] = [0x04, 0xde, 0x5f, 0x1e, 0xac, 0xc0, 0x40];
pub const RANDOM: Random = [
    0xda, 0x5c, 0xf6, 0x09, 0x41, 6, 7, 8, 9, 10, 11, 12, 13, 14, 15, 16, 17, 18, 19, 20,
];

pub const READ_2: &str = "90AD0000070200000000000000";
pub const ISO_READ: &str = "00B0000000";

/// A tag and someone who talks to it.
pub struct Desk {
    pub tag: Tag,
}

impl Desk {
    /// A fresh tag at PICC level.
    pub fn picc() -> Desk {
        Desk {
            tag: Tag::fresh(&UID).expect("a tag"),
        }
    }

    /// A fresh tag with the application selected.
    pub fn application() -> Desk {
        let mut desk = Desk::picc();
        desk.gives("00A4040007D276000085010100", "9000");
        desk
    }

    pub fn send(&mut self, command: &str) -> String {
        self.send_with(command, &RANDOM)
    }

    pub fn send_with(&mut self, command: &str, random: &Random) -> String {
        let command = unhex(command).expect("hexadecimal");
        hex(&self.tag.exchange(&command, random))
    }

    pub fn gives(&mut self, command: &str, reply: &str) {
        assert_eq!(self.send(command), reply, "{command}");
    }

    /// A session with a key.
    pub fn authenticate(&mut self, key: u8) {
        let reply = self.send(&format!("9071000002{key:02X}0000"));
        assert!(reply.ends_with("91AF"));
        self.finish_authentication();
    }

    pub fn finish_authentication(&mut self) {
        let data = part_two(&self.tag, &[7; 16]).expect("a pending part two");
        let reply = self.send(&hex(&wrap(Native::PartTwo, &data)));
        assert!(reply.ends_with("9100"));
        assert!(self.tag.session().is_some());
    }

    /// A command closed in a mode.
    pub fn close(&self, mode: Mode, ins: Native, header: &str, data: &str) -> String {
        let (header, data) = (unhex(header).unwrap(), unhex(data).unwrap());
        let session = self.tag.session().expect("a session");
        hex(&wrap(
            ins,
            &session.close_command(mode, ins, &header, &data),
        ))
    }

    /// The status of a command closed in a mode.
    pub fn closed(&mut self, mode: Mode, ins: Native, header: &str, data: &str) -> String {
        let reply = self.send(&self.close(mode, ins, header, data));
        reply[reply.len() - 4..].to_string()
    }

    /// Settings changed in session with key 0, left again by selecting the application.
    pub fn change(&mut self, file: u8, string: &str) {
        self.authenticate(0);
        let header = format!("{file:02X}");
        let status = self.closed(Mode::Full, Native::ChangeFileSettings, &header, string);
        assert_eq!(status, "9100", "{string}");
        self.gives("00A4000C02E110", "9000");
    }
}
