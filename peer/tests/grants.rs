//! Why a command was granted: 02's request 5, each point of its readings.

mod desk;

use std::collections::BTreeMap;

use desk::{Desk, ISO_READ, RANDOM, READ_2};
use peer::bytes::{hex, unhex};
use peer::command::Native;
use peer::grant::{Grant, Right};
use peer::settings::Mode;
use peer::talk::{talk, Tally};

const SELECT_2: &str = "00A4000C02E104";
const WRITE_2: &str = "908D00000802000000010000AA00";
const UPDATE: &str = "00D6000001AA";
const COUNTERS: &str = "90F60000010200";
const PART_ONE: &str = "9071000002000000";

impl Desk {
    /// The status and the grant of a command.
    fn answers(&mut self, command: &str, status: &str, grant: &str) {
        let bytes = unhex(command).expect("hexadecimal");
        let ours = self.tag.explained(&bytes, &RANDOM);
        let reply = hex(&ours.reply);
        assert!(reply.ends_with(status), "{command}: {reply}");
        assert_eq!(ours.grant.to_string(), grant, "{command}");
    }

    /// The same for a command in a session with this key, closed in a mode.
    fn closed_answers(
        &mut self,
        key: u8,
        (mode, ins, header, data): (Mode, Native, &str, &str),
        (status, grant): (&str, &str),
    ) {
        self.authenticate(key);
        let command = self.close(mode, ins, header, data);
        self.answers(&command, status, grant);
    }

    /// A fresh tag, these settings for file 2, and file 2 selected.
    fn with(settings: &str) -> Desk {
        let mut desk = Desk::application();
        desk.change(2, settings);
        desk.gives(SELECT_2, "9000");
        desk
    }
}

#[test]
fn words() {
    for (grant, word) in [
        (Grant::Key(Right::Read), "key Read"),
        (Grant::Key(Right::Write), "key Write"),
        (Grant::Key(Right::ReadWrite), "key ReadWrite"),
        (Grant::Key(Right::Change), "key Change"),
        (Grant::Key(Right::SdmCtrRet), "key SDMCtrRet"),
        (Grant::Tap, "tap SDMFileRead"),
        (Grant::Free(Right::Read), "E Read"),
        (Grant::NoRight, "none"),
        (Grant::Refused, "refused"),
        (Grant::NotAsked, "-"),
    ] {
        assert_eq!(grant.to_string(), word);
    }
}

/// File 3 as delivered: Read 2, Write 3, ReadWrite 3, Change 0.
#[test]
fn by_key() {
    let mut desk = Desk::application();
    let (full, part) = (Mode::Full, "03000000010000");
    let read = (full, Native::ReadData, part, "");
    let write = (full, Native::WriteData, part, "AA");
    let change = (full, Native::ChangeFileSettings, "03", "033023");
    desk.closed_answers(2, read, ("9100", "key Read"));
    desk.closed_answers(3, read, ("9100", "key ReadWrite"));
    desk.closed_answers(3, write, ("9100", "key Write"));
    desk.closed_answers(0, change, ("9100", "key Change"));
    desk.change(3, "034023");
    desk.closed_answers(4, write, ("9100", "key ReadWrite"));
    desk.change(2, "40E0EE01F3FF");
    let counters = (full, Native::GetFileCounters, "02", "");
    desk.closed_answers(3, counters, ("9100", "key SDMCtrRet"));
}

#[test]
fn by_e_without_session() {
    let mut desk = Desk::with("00E0FF");
    desk.answers(READ_2, "9100", "E ReadWrite");
    desk.answers(ISO_READ, "9000", "E ReadWrite");
    desk.answers(WRITE_2, "9100", "E ReadWrite");
    desk.answers(UPDATE, "9000", "E ReadWrite");
    desk.change(2, "40FEEE01FEFF");
    desk.answers(READ_2, "9100", "E Read");
    desk.answers(WRITE_2, "9100", "E Write");
    desk.answers(COUNTERS, "9100", "E SDMCtrRet");
    desk.answers("905F0000040200FEEE00", "9100", "E Change");
}

#[test]
fn by_e_in_session() {
    let mut desk = Desk::with("43EEFF01FEFF");
    desk.authenticate(1);
    desk.answers(READ_2, "9100", "E ReadWrite");
    desk.answers(ISO_READ, "9000", "E ReadWrite");
    desk.answers(UPDATE, "9000", "E ReadWrite");
    desk.answers(COUNTERS, "9100", "E SDMCtrRet");
    desk.answers("905F0000040200E0EE00", "9100", "E Change");
}

#[test]
fn the_first_of_several_rights() {
    let mut desk = Desk::application();
    desk.answers(READ_2, "9100", "E Read");
    desk.answers(WRITE_2, "9100", "E Write");
    let mut desk = Desk::with("001011");
    desk.authenticate(1);
    desk.answers(READ_2, "9100", "key Read");
    desk.answers(ISO_READ, "9000", "key Read");
    desk.answers(WRITE_2, "9100", "key Write");
    desk.answers(UPDATE, "9000", "key Write");
}

#[test]
fn a_key_comes_before_e() {
    let mut desk = Desk::with("0010EE");
    desk.authenticate(1);
    desk.answers(READ_2, "9100", "key ReadWrite");
    desk.answers(WRITE_2, "9100", "key ReadWrite");
    desk.authenticate(2);
    desk.answers(READ_2, "9100", "E Read");
    desk.answers(WRITE_2, "9100", "E Write");
}

#[test]
fn the_tap_rule_comes_before_e() {
    for rights in ["E0EE", "00E0", "F0FF"] {
        let mut desk = Desk::with(&format!("40{rights}C1F121200000430000430000"));
        desk.answers(READ_2, "9100", "tap SDMFileRead");
        desk.answers(READ_2, "9100", "tap SDMFileRead");
        desk.answers(ISO_READ, "9000", "tap SDMFileRead");
    }
}

/// In session SDMFileRead grants nothing, not to its own key.
#[test]
fn no_tap_rule_in_session() {
    let mut desk = Desk::with("40F0E0C1F121200000430000430000");
    desk.authenticate(1);
    desk.answers(READ_2, "9100", "E Read");
    let mut desk = Desk::with("40F0FFC1F121200000430000430000");
    desk.authenticate(1);
    desk.answers(READ_2, "91AE", "refused");
}

/// SDMFileRead F: a tap, but by E.
#[test]
fn a_mirrored_read_by_e() {
    for (rights, grant) in [("E0EE", "E Read"), ("E0FE", "E ReadWrite")] {
        let mut desk = Desk::with(&format!("40{rights}C1FFEF000000100000"));
        desk.answers(READ_2, "9100", grant);
        assert!(desk.tag.tap().is_some());
        desk.answers(ISO_READ, "9000", grant);
        assert_eq!(desk.tag.counter(), 2);
    }
}

#[test]
fn commands_under_none_of_the_rights() {
    let mut desk = Desk::application();
    desk.answers("90F50000010200", "9100", "none");
    desk.answers("90640000010000", "9100", "none");
    for (key, mode, ins, header) in [
        (4, Mode::Mac, Native::GetFileSettings, "03"),
        (4, Mode::Mac, Native::GetKeyVersion, "00"),
        (4, Mode::Full, Native::GetCardUid, ""),
    ] {
        desk.closed_answers(key, (mode, ins, header, ""), ("9100", "none"));
    }
    let data = "00112233445566778899AABBCCDDEEFF01";
    let change_key = (Mode::Full, Native::ChangeKey, "00", data);
    desk.closed_answers(0, change_key, ("9100", "none"));
}

#[test]
fn authentication_has_no_access_step() {
    let mut desk = Desk::picc();
    desk.answers(PART_ONE, "9140", "none");
    desk.answers("90770000010000", "919D", "none");
    let mut desk = Desk::application();
    desk.answers("90710000010000", "917E", "none");
    desk.answers("9071000002050000", "9140", "none");
    desk.answers("907100000300010200", "919D", "none");
    desk.answers("90770000010000", "919D", "none");
    desk.answers(PART_ONE, "91AF", "none");
    desk.answers("90AF000000", "917E", "none");
    desk.answers(PART_ONE, "91AF", "none");
    let part_two = format!("90AF000020{}00", "00".repeat(32));
    desk.answers(&part_two, "91AE", "none");
    desk.authenticate(0);
    desk.answers("90770000010300", "91AF", "none");
    let data = peer::reader::part_two(&desk.tag, &[7; 16]).expect("a pending part two");
    desk.answers(&format!("90AF000020{}00", hex(&data)), "9100", "none");
}

#[test]
fn selects_have_no_access_step() {
    let mut desk = Desk::picc();
    desk.answers("00A4000C02E104", "6A82", "none");
    desk.answers("00A4000C02E110", "9000", "none");
    desk.answers("00A4000C02E104", "9000", "none");
    desk.answers("00A4000C02E106", "6A82", "none");
    desk.answers("00A4000C01E1", "6A80", "none");
    desk.answers("00A4030C023F00", "6A86", "none");
    desk.answers("00A4040C", "6A82", "none");
    desk.answers("00A4800C02E104", "6A86", "none");
    desk.answers("00A40000", "9000", "none");
}

#[test]
fn the_decision_refuses() {
    let mut desk = Desk::application();
    desk.answers(COUNTERS, "919D", "refused");
    desk.answers("90F60000010100", "919D", "refused");
    desk.answers("9051000000", "91AE", "refused");
    desk.answers("9051000001AA00", "91AE", "refused");
    desk.answers("90C40000010000", "91AE", "refused");
    desk.answers("90AD0000070300000000000000", "91AE", "refused");
    desk.answers("905F000004020000E000", "91AE", "refused");
    let change_key = (Mode::Full, Native::ChangeKey, "01", "");
    desk.closed_answers(1, change_key, ("91AE", "refused"));
    let mut desk = Desk::with("40F0FF01FFFF");
    for (command, status) in [
        (READ_2, "919D"),
        (WRITE_2, "919D"),
        (COUNTERS, "919D"),
        (ISO_READ, "6982"),
        (UPDATE, "6982"),
    ] {
        desk.answers(command, status, "refused");
    }
    desk.change(2, "40FFFF01F1FF");
    desk.answers(COUNTERS, "91AE", "refused");
    desk.answers("905F000004020000E000", "919D", "refused");
}

/// Steps 1 to 5.
#[test]
fn refused_before_the_decision() {
    let mut desk = Desk::application();
    for (command, status) in [
        ("", "6700"),
        ("90F500", "6700"),
        ("80F50000010200", "6E00"),
        ("90F5000001", "917E"),
        ("00B0000002AA", "6700"),
        ("9060000000", "911C"),
        ("00B1000000", "6D00"),
        ("90F50001010200", "919E"),
        ("9071000102000000", "919E"),
        ("90AF000000", "911C"),
        ("90F5000000", "917E"),
        ("90AD000006020000000000", "917E"),
        ("90AD0000072000000000000000", "919E"),
        ("90AD0000070400000000000000", "91F0"),
        ("90640000014000", "919E"),
        ("90C40000010500", "9140"),
    ] {
        desk.answers(command, status, "-");
    }
    for command in ["90F50000010200", "9051000000", READ_2] {
        Desk::picc().answers(command, "919D", "-");
    }
}

#[test]
fn refused_by_a_pending_part_two() {
    for (command, status) in [
        ("90F50000010200", "91CA"),
        (PART_ONE, "91CA"),
        ("90770000010000", "91CA"),
        (SELECT_2, "6985"),
        (ISO_READ, "6985"),
    ] {
        let mut desk = Desk::application();
        desk.answers(PART_ONE, "91AF", "none");
        desk.answers(command, status, "-");
    }
}

#[test]
fn iso_refused_before_the_decision() {
    let mut desk = Desk::application();
    for (command, status) in [
        ("00B0800000", "6A86"),
        ("00D6800001AA", "6A86"),
        ("00B00000", "6700"),
        ("00D6000001", "6700"),
        (ISO_READ, "6985"),
        (UPDATE, "6985"),
    ] {
        desk.answers(command, status, "-");
    }
    Desk::picc().answers(ISO_READ, "6985", "-");
}

#[test]
fn own_values_that_refuse_leave_the_answer() {
    let mut desk = Desk::with("00E0EE");
    for (command, status, grant) in [
        ("90AD0000070200010000000000", "919E", "E Read"),
        ("90AD000008020000000000000000", "917E", "E Read"),
        ("908D0000070200000000000000", "919E", "E Write"),
        ("908D00000802000100010000AA00", "91BE", "E Write"),
        ("00B0010001", "6A86", "E Read"),
        ("00B000FF02", "6C01", "E Read"),
        ("00D600FF02AABB", "6A87", "E Write"),
        ("90F5000002020000", "917E", "none"),
    ] {
        desk.answers(command, status, grant);
    }
}

#[test]
fn messages_that_refuse_leave_the_answer() {
    let mut desk = Desk::application();
    let (read, write) = (Native::ReadData, Native::WriteData);
    let (header, change) = ("03000000010000", Native::ChangeFileSettings);
    desk.closed_answers(2, (Mode::Plain, read, header, ""), ("917E", "key Read"));
    desk.closed_answers(3, (Mode::Mac, write, header, ""), ("917E", "key Write"));
    let wrong_mac = format!("90AD00000F{header}{}00", "00".repeat(8));
    desk.authenticate(2);
    desk.answers(&wrong_mac, "911E", "key Read");
    desk.authenticate(3);
    let session = desk.tag.session().expect("a session");
    let unpadded = session.close_padded(Mode::Full, write, &[3, 0, 0, 0, 1, 0, 0], vec![0; 16]);
    let command = hex(&peer::reader::wrap(write, &unpadded));
    desk.answers(&command, "911E", "key Write");
    let surplus = (Mode::Full, change, "03", "03302300");
    desk.closed_answers(0, surplus, ("917E", "key Change"));
    let crc = (Mode::Full, Native::ChangeKey, "01", &*format!("{:042}", 0));
    desk.closed_answers(0, crc, ("911E", "none"));
}

#[test]
fn a_refused_start_leaves_the_answer() {
    let mut desk = Desk::with("4000E0E1F121200000430000430000000000");
    desk.answers(READ_2, "919D", "tap SDMFileRead");
    desk.answers(ISO_READ, "6982", "tap SDMFileRead");
    let mut desk = Desk::with("40E0FE21FFFF000000");
    desk.answers(READ_2, "919D", "E ReadWrite");
    desk.answers(ISO_READ, "6982", "E ReadWrite");
}

/// 6982 for the file's mode comes after the decision; E grants in Plain.
#[test]
fn iso_in_session() {
    for option in ["01", "03"] {
        for (key, status, read, write) in [
            (1, "6982", "key Read", "key Write"),
            (2, "6982", "key ReadWrite", "key ReadWrite"),
            (3, "6982", "refused", "refused"),
        ] {
            let mut desk = Desk::with(&format!("{option}2011"));
            desk.authenticate(key);
            desk.answers(ISO_READ, status, read);
            desk.authenticate(key);
            desk.answers(UPDATE, status, write);
        }
        let mut desk = Desk::with(&format!("{option}20EE"));
        desk.authenticate(3);
        desk.answers(ISO_READ, "9000", "E Read");
        desk.answers(UPDATE, "9000", "E Write");
    }
}

/// Fresh talks get every answer, none of them rarely.
#[test]
fn talks_reach_every_answer() {
    let mut seen: BTreeMap<String, usize> = BTreeMap::new();
    for index in 0..50 {
        let (_, beside) = talk(424, index, 400, &mut Tally::default()).expect("a talk");
        for grant in beside.grants {
            *seen.entry(grant.to_string()).or_default() += 1;
        }
    }
    assert_eq!(seen.len(), 14, "{seen:?}");
    assert!(seen.values().all(|sum| *sum >= 20), "{seen:?}");
}
