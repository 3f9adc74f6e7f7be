//! The AES blocks of a call: 02's request 10, each point of its readings.

mod desk;

use std::collections::BTreeSet;

use desk::{Desk, ISO_READ, RANDOM, READ_2};
use peer::aes::{counted, Aes};
use peer::bytes::{hex, unhex};
use peer::command::Native;
use peer::crypto::Cmac;
use peer::reader::{seal_part_two, wrap};
use peer::rng::Rng;
use peer::settings::{FileNo, Meta, Mode, Settings};
use peer::talk::taps::{line, tag_with, tapped};
use peer::talk::{talk, Tally};

const COUNTS: &str = include_str!("vectors/counts.txt");
const PART_ONE: &str = "9071000002000000";

/// The header of a read or write of one byte of file 3.
const ONE_BYTE: &str = "03000000010000";

impl Desk {
    /// The status and the blocks of a command.
    fn takes(&mut self, command: &str, status: &str, blocks: usize) {
        let bytes = unhex(command).expect("hexadecimal");
        let ours = self.tag.explained(&bytes, &RANDOM);
        let reply = hex(&ours.reply);
        assert!(reply.ends_with(status), "{command}: {reply}");
        assert_eq!(ours.blocks, blocks, "{command}");
    }

    /// The same for a command in a session with this key, closed in a mode.
    fn closed_takes(
        &mut self,
        key: u8,
        (mode, ins, header, data): (Mode, Native, &str, &str),
        (status, blocks): (&str, usize),
    ) {
        self.authenticate(key);
        let command = self.close(mode, ins, header, data);
        self.takes(&command, status, blocks);
    }

    /// A fresh tag, these settings for file 2, and file 2 selected.
    fn with(settings: &str) -> Desk {
        let mut desk = Desk::application();
        desk.change(2, settings);
        desk.gives("00A4000C02E104", "9000");
        desk
    }
}

/// 02's formula for a mirrored read.
fn formula(settings: &Settings) -> usize {
    let sdm = settings.sdm.as_ref().expect("SDM on");
    let picc_data = usize::from(matches!(sdm.meta, Meta::Encrypted { .. }));
    let file_read = sdm.file_read.as_ref().map_or(0, |read| {
        let enc = read.enc.map_or(0, |enc| 3 + enc.length / 32);
        enc + 3 + (read.mac - read.mac_input).div_ceil(16).max(1)
    });
    picc_data + file_read
}

#[test]
fn a_cmac() {
    let mac = Cmac::new(Aes::new(&[7; 16]));
    for (length, blocks) in [(0, 2), (1, 2), (15, 2), (16, 2), (17, 3), (32, 3), (33, 4)] {
        let text = vec![1; length];
        assert_eq!(counted(|| mac.of(&[&text])).1, blocks, "{length} bytes");
    }
    assert_eq!(counted(|| Cmac::new(Aes::new(&[7; 16]))).1, 0);
}

#[test]
fn authentication() {
    for (part_one, part_two) in [(PART_ONE, 10), ("90770000010300", 9)] {
        let mut desk = Desk::application();
        desk.authenticate(0);
        desk.takes(part_one, "91AF", 1);
        let data = peer::reader::part_two(&desk.tag, &[7; 16]).expect("a pending part two");
        desk.takes(&hex(&wrap(Native::PartTwo, &data)), "9100", part_two);
        desk.takes(part_one, "91AF", 1);
        let data = seal_part_two(&[0; 16], &[7; 16], &[8; 16]);
        desk.takes(&hex(&wrap(Native::PartTwo, &data)), "91AE", 2);
        desk.takes(PART_ONE, "91AF", 1);
        desk.takes("90AF00000400000000", "917E", 0);
    }
}

#[test]
fn no_blocks_where_nothing_is_closed_or_mirrored() {
    let mut desk = Desk::picc();
    desk.takes(PART_ONE, "9140", 0);
    desk.takes("00A4000C02E110", "9000", 0);
    desk.takes("00A4000C02E104", "9000", 0);
    desk.takes(READ_2, "9100", 0);
    desk.takes(ISO_READ, "9000", 0);
    desk.takes("908D00000802000000010000AA00", "9100", 0);
    desk.takes("00D6000001AA", "9000", 0);
    desk.takes("90F50000010200", "9100", 0);
    desk.takes("90640000010000", "9100", 0);
    desk.authenticate(1);
    desk.takes(READ_2, "9100", 0);
    desk.takes(ISO_READ, "9000", 0);
    desk.takes("00A4000C02E103", "9000", 0);
}

#[test]
fn refused_before_the_mac() {
    let mut desk = Desk::application();
    for (command, status) in [
        ("", "6700"),
        ("80F50000010200", "6E00"),
        ("90F5000001", "917E"),
        ("9060000000", "911C"),
        ("90F50001010200", "919E"),
        ("90AF000000", "911C"),
        ("9071000002050000", "9140"),
        ("9051000000", "91AE"),
        ("90AD0000070300000000000000", "91AE"),
        ("00B0010001", "6985"),
    ] {
        desk.takes(command, status, 0);
    }
    let (read, write) = (Native::ReadData, Native::WriteData);
    desk.closed_takes(2, (Mode::Plain, read, ONE_BYTE, ""), ("917E", 0));
    desk.closed_takes(3, (Mode::Mac, write, ONE_BYTE, "AA"), ("917E", 0));
    desk.closed_takes(1, (Mode::Full, read, ONE_BYTE, ""), ("91AE", 0));
}

/// A CMAC over 7 bytes, header and data as sent, each way; a Full part that isn't empty costs its IV
/// and its blocks.
#[test]
fn mac_and_full() {
    let mut desk = Desk::application();
    let version = (Mode::Mac, Native::GetKeyVersion, "00", "");
    desk.closed_takes(4, version, ("9100", 2 + 2));
    let settings = (Mode::Mac, Native::GetFileSettings, "02", "");
    desk.closed_takes(4, settings, ("9100", 2 + 2));
    let uid = (Mode::Full, Native::GetCardUid, "", "");
    desk.closed_takes(4, uid, ("9100", 2 + 1 + 1 + 3));
    let read = (Mode::Full, Native::ReadData, ONE_BYTE, "");
    desk.closed_takes(2, read, ("9100", 2 + 1 + 1 + 3));
    let write = (Mode::Full, Native::WriteData, ONE_BYTE, "AA");
    desk.closed_takes(3, write, ("9100", 3 + 1 + 1 + 2));
    let change = "4000E0D1F121000000000000200000C00000F00000";
    let change = (Mode::Full, Native::ChangeFileSettings, "02", change);
    desk.closed_takes(0, change, ("9100", 4 + 1 + 2 + 2));
}

/// The MAC alone, over 7 + 7 bytes and the data as sent.
#[test]
fn a_wrong_mac() {
    let mut desk = Desk::application();
    for (key, ins, data, blocks) in [
        (2, Native::ReadData, 0, 2),
        (3, Native::WriteData, 16, 3),
        (3, Native::WriteData, 32, 4),
    ] {
        desk.authenticate(key);
        let message = [unhex(ONE_BYTE).unwrap(), vec![0; data + 8]].concat();
        desk.takes(&hex(&wrap(ins, &message)), "911E", blocks);
    }
}

/// Wrong padding, wrong CRC and the command's own values: MAC, IV and data, and no reply.
#[test]
fn refused_behind_the_mac() {
    let mut desk = Desk::application();
    desk.authenticate(3);
    let session = desk.tag.session().expect("a session");
    let header = unhex(ONE_BYTE).unwrap();
    let message = session.close_padded(Mode::Full, Native::WriteData, &header, vec![0; 16]);
    desk.takes(&hex(&wrap(Native::WriteData, &message)), "911E", 3 + 1 + 1);
    let no_key = format!("{:042}", 0);
    let crc = (Mode::Full, Native::ChangeKey, "01", no_key.as_str());
    desk.closed_takes(0, crc, ("911E", 4 + 1 + 2));
    let surplus = (Mode::Full, Native::ChangeFileSettings, "03", "03302300");
    desk.closed_takes(0, surplus, ("917E", 3 + 1 + 1));
    let past_the_end = (Mode::Full, Native::WriteData, "03800000010000", "AA");
    desk.closed_takes(3, past_the_end, ("91BE", 3 + 1 + 1));
    let past_the_end = (Mode::Full, Native::ReadData, "03800000010000", "");
    desk.closed_takes(2, past_the_end, ("919E", 2));
}

/// Key 0 ends the session: no reply to close.
#[test]
fn a_changed_key() {
    let mut desk = Desk::application();
    let key = "00112233445566778899AABBCCDDEEFF";
    let other = format!("{key}01{}", hex(&peer::crypto::crc(&unhex(key).unwrap())));
    let other = (Mode::Full, Native::ChangeKey, "01", other.as_str());
    desk.closed_takes(0, other, ("9100", 4 + 1 + 2 + 2));
    let first = format!("{key}01");
    let first = (Mode::Full, Native::ChangeKey, "00", first.as_str());
    desk.closed_takes(0, first, ("9100", 4 + 1 + 2));
}

/// A part costs as much as the whole, and every read of a tap costs it anew.
#[test]
fn every_read_of_a_tap() {
    let mut desk = Desk::with("4000E0D1F121000000000000200000C00000F00000");
    for _ in 0..2 {
        desk.takes("90AD0000070200000001000000", "9100", 28);
        desk.takes(READ_2, "9100", 28);
        desk.takes("00B000FF01", "9000", 28);
        desk.takes(ISO_READ, "9000", 28);
    }
    desk.takes("00B000FF02", "6C01", 0);
    desk.takes("90AD0000070200010000000000", "919E", 0);
}

#[test]
fn a_refused_start() {
    let mut desk = Desk::with("4000E0E1F121200000430000430000010000");
    desk.takes(READ_2, "9100", 5);
    desk.takes(READ_2, "9100", 5);
    desk.takes(ISO_READ, "6982", 0);
    desk.takes(READ_2, "919D", 0);
}

/// A Full read of 239 bytes, and a Full write of as many.
#[test]
fn the_most_that_a_call_takes() {
    let header = "02000000EF0000";
    let mut desk = Desk::with("032022");
    desk.closed_takes(2, (Mode::Full, Native::ReadData, header, ""), ("9100", 35));
    let data = "AA".repeat(239);
    let write = (Mode::Full, Native::WriteData, header, data.as_str());
    desk.closed_takes(2, write, ("9100", 35));
    let mut seen = BTreeSet::new();
    for index in 0..50 {
        let (_, beside) = talk(424, index, 400, &mut Tally::default()).expect("a talk");
        seen.extend(beside.counts);
    }
    assert!(seen.len() >= 30 && seen.last() <= Some(&35), "{seen:?}");
}

/// The string, the tap of a tag that holds it, and the line's own number.
fn taps(text: &str) -> impl Iterator<Item = (Settings, usize, usize)> + '_ {
    let lines = text.lines().filter(|line| !line.starts_with('#'));
    lines.map(|line| {
        let (string, blocks) = line.split_once(' ').expect("two words");
        let string = unhex(string).expect("hexadecimal");
        let settings = Settings::parse(FileNo::Two, &string).expect("settings");
        let tag = tag_with(&string).expect("settings in normal form");
        let tapped = tapped(&tag, &mut Rng::new(424)).expect("a tap");
        (settings, tapped, blocks.parse().expect("a number"))
    })
}

#[test]
fn stored_strings() {
    let mut seen = 0;
    for (settings, tapped, blocks) in taps(COUNTS) {
        assert_eq!(
            (tapped, formula(&settings)),
            (blocks, blocks),
            "{settings:?}"
        );
        seen += 1;
    }
    assert_eq!(seen, 400);
}

/// Fresh lines say what the formula says, and leave out none of its parts.
#[test]
fn fresh_strings() {
    let mut rng = Rng::new(424);
    let lines: Vec<String> = (0..1000).map(|_| line(&mut rng).expect("a line")).collect();
    let text = lines.join("\n");
    let mut seen = BTreeSet::new();
    for (settings, tapped, blocks) in taps(&text) {
        assert_eq!(
            (tapped, formula(&settings)),
            (blocks, blocks),
            "{settings:?}"
        );
        seen.insert(blocks);
    }
    assert!(seen.len() >= 26 && seen.last() == Some(&28), "{seen:?}");
}
