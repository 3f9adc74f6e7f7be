//! The worked values of AN12196: an authentication with ChangeFileSettings, and two taps.

use peer::bytes::{hex, unhex};
use peer::command::Native;
use peer::messaging::Session;
use peer::reader::{part_two, seal_part_two, wrap};
use peer::settings::Mode;
use peer::tag::{Random, Tag};

fn bytes(text: &str) -> Vec<u8> {
    unhex(text).expect("hexadecimal")
}

fn array<const N: usize>(text: &str) -> [u8; N] {
    bytes(text).try_into().expect("so many bytes")
}

/// Twenty random bytes that begin with these.
fn random(front: &str) -> Random {
    array(&format!("{front:0<40}"))
}

fn send(tag: &mut Tag, command: &str, random: &Random) -> String {
    hex(&tag.exchange(&bytes(command), random))
}

fn application(uid: &str) -> Tag {
    let mut tag = Tag::fresh(&bytes(uid)).expect("a tag");
    assert_eq!(send(&mut tag, "00A4000C02E110", &random("")), "9000");
    tag
}

/// A session with key 0 between RndA and RndB of the note.
fn authenticated() -> Tag {
    let mut tag = application("04DE5F1EACC040");
    let rnd_b = random("B9E2FC789B64BF237CCCAA20EC7E6E48");
    assert_eq!(
        send(&mut tag, "9071000002000000", &rnd_b),
        "A04C124213C186F22399D33AC2A3021591AF"
    );
    assert_eq!(
        send(
            &mut tag,
            "90AF00002035C3E05A752E0144BAC0DE51C1F22C56B34408A23D8AEA266CAB947EA8E0118D00",
            &array("000000000000000000000000000000009D00C4DF"),
        ),
        "3FA64DB5446D1F34CD6EA311167F5E4985B89690C04A05F17FA7AB2F081206639100"
    );
    tag
}

#[test]
fn authentication() {
    let sealed = seal_part_two(
        &[0; 16],
        &array("13C5DB8A5930439FC3DEF9A4C675360F"),
        &array("E2FC789B64BF237CCCAA20EC7E6E48B9"),
    );
    assert_eq!(
        hex(&sealed),
        "35C3E05A752E0144BAC0DE51C1F22C56B34408A23D8AEA266CAB947EA8E0118D"
    );
    authenticated();
}

/// The session keys of the note close a command just as those of the tag do.
#[test]
fn session_keys() {
    let tag = authenticated();
    let drawn = tag.session().expect("a session");
    let given = Session::with_keys(
        0,
        &array("1309C877509E5A215007FF0ED19CA564"),
        &array("4C6626F5E72EA694202139295C7A7FC7"),
        array("9D00C4DF"),
        0,
    );
    let close = |session: &Session| {
        session.close_command(Mode::Full, Native::ChangeFileSettings, &[2], &[1, 2, 3])
    };
    assert_eq!(close(drawn), close(&given));
}

#[test]
fn change_file_settings() {
    let mut tag = authenticated();
    send(&mut tag, "90AD0000070100000001000000", &random(""));
    let session = tag.session().expect("a session");
    assert_eq!(session.ctr, 1);
    let message = session.close_command(
        Mode::Full,
        Native::ChangeFileSettings,
        &[2],
        &bytes("4000E0C1F121200000430000430000"),
    );
    let command = "905F0000190261B6D97903566E84C3AE5274467E89EAD799B7C1A0EF7A0400";
    assert_eq!(hex(&wrap(Native::ChangeFileSettings, &message)), command);
    assert_eq!(send(&mut tag, command, &random("")), "57BFF87B1241E93D9100");
}

/// A tag with SDM on, tapped until the counter is just below the one wanted.
fn tapped(uid: &str, settings: &str, counter: usize) -> Tag {
    let mut tag = application(uid);
    tag.exchange(&bytes("9071000002000000"), &random(""));
    let data = part_two(&tag, &[0; 16]).expect("a pending part two");
    tag.exchange(&wrap(Native::PartTwo, &data), &random(""));
    let session = tag.session().expect("a session");
    let ins = Native::ChangeFileSettings;
    let message = session.close_command(Mode::Full, ins, &[2], &bytes(settings));
    assert!(hex(&tag.exchange(&wrap(ins, &message), &random(""))).ends_with("9100"));
    send(&mut tag, "00A4000C02E110", &random(""));
    while tag.counter() + 1 < counter {
        send(&mut tag, "90AD0000070200000001000000", &random(""));
        send(&mut tag, "90F50000010200", &random(""));
    }
    tag
}

fn read(tag: &mut Tag, random: &Random) -> Vec<u8> {
    tag.exchange(&bytes("90AD0000070200000000000000"), random)
}

#[test]
fn a_tap_with_picc_data() {
    let settings = "40E0EEC1F100200000430000430000";
    let mut tag = tapped("04DE5F1EACC040", settings, 61);
    let text = read(&mut tag, &random("DA5CF60941"));
    assert_eq!(&text[32..64], b"EF963FF7828658A599F3041510671E88");
    assert_eq!(&text[67..83], b"94EED9EE65337086");
    assert_eq!(tag.counter(), 61);
}

#[test]
fn a_tap_with_encrypted_file_data() {
    let settings = "40E0EED1F100000000300000300000200000560000";
    let mut tag = tapped("04958CAA5C5E80", settings, 8);
    let placeholder = format!("{}{}{}", "78".repeat(16), "2A".repeat(16), hex(b"&cmac="));
    let write = format!("908D00002D02300000260000{placeholder}00");
    assert_eq!(send(&mut tag, &write, &random("")), "9100");
    let text = read(&mut tag, &random("A243C86DFC"));
    assert_eq!(&text[..32], b"FD91EC264309878BE6345CBE53BADF40");
    assert_eq!(&text[48..86], b"CEE9A53E3E463EF1F459635736738962&cmac=");
    assert_eq!(&text[86..102], b"ECC1E7F6C6C73BF6");
    assert_eq!(tag.counter(), 8);
}
