//! What only a state put together by hand can show: worked values under given session
//! keys, a CmdCtr and a tap counter at their ends.

use super::*;
use crate::bytes::{hex, unhex};
use crate::reader::wrap;
use crate::settings::Condition;

const UID: Uid = [4, 1, 2, 3, 4, 5, 6];

fn bytes(text: &str) -> Vec<u8> {
    unhex(text).expect("hexadecimal")
}

fn block(text: &str) -> [u8; 16] {
    bytes(text).try_into().expect("a block")
}

fn send(tag: &mut Tag, command: &str) -> String {
    hex(&tag.exchange(&bytes(command), &[0; 20]))
}

/// A fresh tag with file 2 selected and this phase.
fn in_phase(phase: Phase) -> Tag {
    let mut tag = Tag::fresh(&UID).expect("a tag");
    tag.place = Place::Application {
        file: Some(FileNo::Two),
        phase,
    };
    tag
}

fn in_session(key_no: u8, ctr: u16) -> Tag {
    let session = Session::with_keys(key_no, &[1; 16], &[2; 16], [3; 4], ctr);
    in_phase(Phase::Session(Box::new(session)))
}

/// ChangeKey of AN12196: key 2, then key 0.
#[test]
fn change_key_of_an12196() {
    let session = Session::with_keys(
        0,
        &block("4CF3CB41A22583A61E89B158D252FC53"),
        &block("5529860B2FC5FB6154B7F28361D30BF9"),
        [0x76, 0x14, 0x28, 0x1a],
        2,
    );
    let mut tag = in_phase(Phase::Session(Box::new(session)));
    let command = "90C4000029022CF362B7BF4311FF3BE1DAA295E8C68DE09050560D19B9E16C2393AE9CD1FAC7\
                   5D0CE20BCD1D06E600";
    assert_eq!(send(&mut tag, command), "203BB55D1089D5879100");
    assert_eq!(tag.keys[2].bytes, block("F3847D627727ED3BC9C4CC050489B966"));
    assert_eq!(tag.keys[2].version, 1);
    let command = "90C400002900C0EB4DEEFEDDF0B513A03A95A75491818580503190D4D05053FF75668A01D6FD\
                   A6610234BDED643200";
    assert_eq!(send(&mut tag, command), "9100");
    assert_eq!(tag.keys[0].bytes, block("5004BF991F408672B1EF00F08F9E8647"));
    assert!(tag.session().is_none());
}

fn closed(tag: &Tag, mode: Mode, ins: Native, header: &[u8]) -> String {
    let session = tag.session().expect("a session");
    hex(&wrap(ins, &session.close_command(mode, ins, header, &[])))
}

#[test]
fn the_last_command_of_a_session() {
    for (mode, ins, header) in [
        (Mode::Mac, Native::GetKeyVersion, &[0][..]),
        (Mode::Full, Native::GetCardUid, &[]),
        (Mode::Plain, Native::ReadData, &[2, 0, 0, 0, 1, 0, 0]),
    ] {
        let mut tag = in_session(1, LAST_CMD_CTR - 1);
        let command = closed(&tag, mode, ins, header);
        assert!(send(&mut tag, &command).ends_with("9100"));
        let command = closed(&tag, mode, ins, header);
        assert_eq!(send(&mut tag, &command), "91AE");
        assert!(tag.session().is_none());
    }
}

#[test]
fn a_full_cmd_ctr() {
    for (key, command, reply, grant) in [
        (1, "00B0000001", "6982", "E Read"),
        (1, "00B0010001", "6982", "E Read"),
        (1, "00D6000001AA", "6982", "E Write"),
        (1, "90F50000010200", "91AE", "none"),
        (1, "9051000000", "91AE", "none"),
        (1, "90F50000010400", "91F0", "-"),
        (1, "90C400000100", "917E", "-"),
        (1, "90C40000010000", "91AE", "refused"),
        (0, "90C40000010000", "91AE", "none"),
        (0, "905F0000010200", "91AE", "key Change"),
        (1, "90AD0000070200000000000000", "91AE", "E Read"),
        (2, "90AD0000070300000000000000", "91AE", "key Read"),
        (3, "90AD0000070300000000000000", "91AE", "key ReadWrite"),
        (3, "908D0000070300000000000000", "91AE", "key Write"),
        (1, "90F60000010200", "919D", "refused"),
        (1, "00A4000C02E103", "9000", "none"),
    ] {
        let mut tag = in_session(key, LAST_CMD_CTR);
        let ours = tag.explained(&bytes(command), &[0; 20]);
        assert_eq!(hex(&ours.reply), reply);
        assert_eq!(ours.grant.to_string(), grant);
        assert_eq!(ours.blocks, 0);
    }
    let mut tag = in_session(1, LAST_CMD_CTR);
    assert!(send(&mut tag, "90770000010400").ends_with("91AF"));
    let data = crate::reader::part_two(&tag, &[9; 16]).expect("a pending part two");
    assert!(send(&mut tag, &hex(&wrap(Native::PartTwo, &data))).ends_with("9100"));
    let session = tag.session().expect("a session");
    assert_eq!((session.key_no, session.ctr), (4, LAST_CMD_CTR));
    let mut tag = in_session(1, LAST_CMD_CTR);
    assert!(send(&mut tag, "9071000002000000").ends_with("91AF"));
}

/// File 2 with SDM on, free to read.
fn with_counter(counter: usize, settings: &str) -> Tag {
    let mut tag = in_phase(Phase::Idle);
    tag.files[1].settings = Settings::parse(FileNo::Two, &bytes(settings)).expect("settings");
    tag.counter = counter;
    tag
}

#[test]
fn the_end_of_the_tap_counter() {
    let plain = "40E0EEC1FEE0000000100000200000200000";
    for (read, done, over) in [
        ("90AD0000070200000020000000", "9100", "911E"),
        ("00B0000020", "9000", "6982"),
    ] {
        let mut tag = with_counter(LAST_COUNTER - 1, plain);
        let reply = send(&mut tag, read);
        assert!(reply.ends_with(done));
        assert_eq!(&bytes(&reply)[16..22], b"FFFFFF");
        assert!(send(&mut tag, read).ends_with(done));
        assert_eq!(send(&mut tag, "90F60000010200"), "FFFFFF00009100");
        let refused = tag.explained(&bytes(read), &[0; 20]);
        assert_eq!((hex(&refused.reply), refused.blocks), (over.into(), 0));
        assert_eq!(tag.counter, LAST_COUNTER);
        assert!(tag.tap().is_none());
    }
}

#[test]
fn the_limit_comes_before_the_overflow() {
    let limited = "40E0EE21FFFFFFFFFF";
    let mut tag = with_counter(LAST_COUNTER, limited);
    assert_eq!(send(&mut tag, "90AD0000070200000020000000"), "919D");
    let mut tag = with_counter(LAST_COUNTER - 1, limited);
    assert!(send(&mut tag, "90AD0000070200000020000000").ends_with("9100"));
    assert_eq!(send(&mut tag, "00B0000020"), "6982");
}

#[test]
fn a_fresh_tag() {
    let tag = Tag::fresh(&UID).expect("a tag");
    assert!(tag.at_picc_level());
    assert!(tag
        .keys
        .iter()
        .all(|key| key.bytes == [0; 16] && key.version == 0));
    assert_eq!(tag.files[0].bytes[..23], CAPABILITY_CONTAINER);
    assert_eq!(tag.files[0].bytes[23..], [0; 9]);
    assert_eq!(tag.files[1].bytes, [0; 256]);
    assert_eq!(tag.files[2].bytes, [0; 128]);
    let rights = tag.files[2].settings.rights;
    assert_eq!(rights.read, Condition::Key(2));
    assert_eq!(rights.change, Condition::Key(0));
    let modes = FileNo::ALL.map(|file| tag.settings(file).mode);
    assert_eq!(modes, [Mode::Plain, Mode::Plain, Mode::Full]);
}
