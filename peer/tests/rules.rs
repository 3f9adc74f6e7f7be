//! Rules of 01 and of the readings, each by what the tag answers.

mod desk;

use desk::{Desk, ISO_READ, RANDOM, READ_2, UID};
use peer::bytes::{hex, unhex};
use peer::command::Native;
use peer::reader::wrap;
use peer::settings::{FileNo, Mode};
use peer::tag::{Tag, ROOM};

#[test]
fn the_list_of_01() {
    let mut desk = Desk::picc();
    desk.gives("00A4040007D276000085010100", "9000");
    desk.gives("00A4000C02E104", "9000");
    desk.gives("00B000FE03", "6C02");
    desk.gives("00B0010001", "6A86");
    desk.gives("90F50000010200", "0000E0EE0001009100");
    desk.gives("90F50000010300", "000330238000009100");
    desk.gives("90AD0000070300000000000000", "91AE");
    desk.change(2, "4000E0C1F121200000400000400000");
    desk.change(2, "4000E0C1F121200000430000430000");
    desk.gives(
        "90F50000010200",
        "004000E0000100C1F1212000004300004300009100",
    );
}

#[test]
fn no_tag_from_a_wrong_uid() {
    assert!(Tag::fresh(&UID[..6]).is_none());
    assert!(Tag::fresh(&[UID[..].to_vec(), vec![0]].concat()).is_none());
    assert!(Tag::fresh(&[0x05, 0, 0, 0, 0, 0, 0]).is_none());
}

#[test]
fn refusals_before_any_status_word() {
    let mut desk = Desk::application();
    desk.change(2, "4000EEC1F121200000430000430000");
    assert!(desk.send(READ_2).ends_with("9100"));
    let command = unhex(READ_2).unwrap();
    let mut room = [0xaa; ROOM + 1];
    assert_eq!(desk.tag.call(&command, &RANDOM, &mut room[..ROOM - 1]), 0);
    assert_eq!(desk.tag.call(&command, &RANDOM[..19], &mut room), 0);
    assert_eq!(room, [0xaa; ROOM + 1]);
    assert_eq!(desk.tag.call(&command, &RANDOM, &mut room), 258);
    assert_eq!((room[256], room[257], room[258]), (0x91, 0x00, 0xaa));
    assert_eq!(desk.tag.counter(), 1);
}

#[test]
fn form_and_order() {
    let mut desk = Desk::application();
    for (command, reply) in [
        ("", "6700"),
        ("55AA", "6700"),
        ("90F500", "6700"),
        ("80F50000010200", "6E00"),
        ("90F50000", "917E"),
        ("90F5000001", "917E"),
        ("9051000001", "917E"),
        ("90F50000000200", "917E"),
        ("90F50000010201", "917E"),
        ("90F50000020200", "917E"),
        ("90F500000102", "917E"),
        ("90600000", "917E"),
        ("9060000000", "911C"),
        ("9060010000", "911C"),
        ("90F50001010200", "919E"),
        ("00B00000000000", "6700"),
        ("00B0000002AA", "6700"),
        ("00B1000000", "6D00"),
        ("00B1000002AA", "6700"),
        ("90AF0001000000", "917E"),
        ("90AF000100", "919E"),
        ("90AF000000", "911C"),
        ("90F5000000", "917E"),
        ("90AD000006020000000000", "917E"),
    ] {
        desk.gives(command, reply);
    }
    desk.gives(&format!("90F50000FF{}00", "02".repeat(255)), "917E");
    desk.gives(&format!("90F50000FF{}0000", "02".repeat(255)), "6700");
    desk.gives(&format!("80F50000FF{}0000", "02".repeat(255)), "6700");
}

#[test]
fn targets() {
    let mut desk = Desk::application();
    for (command, reply) in [
        ("90F50000010000", "91F0"),
        ("90F50000010400", "91F0"),
        ("90F50000011F00", "91F0"),
        ("90F50000012000", "919E"),
        ("90640000010400", "009100"),
        ("90640000010500", "9140"),
        ("90640000013F00", "9140"),
        ("90640000014000", "919E"),
        ("90C40000010500", "9140"),
        ("90C40000010000", "91AE"),
        ("9051000000", "91AE"),
        ("9051000001AA00", "91AE"),
        ("90F5000002020000", "917E"),
    ] {
        desk.gives(command, reply);
    }
}

#[test]
fn picc_level() {
    let mut desk = Desk::picc();
    for (command, reply) in [
        ("9051000000", "919D"),
        ("90640000010900", "919D"),
        ("90F50000012000", "919D"),
        ("90F5000000", "917E"),
        ("90710000010000", "917E"),
        ("9071000002000700", "919E"),
        ("907100000300000000", "917E"),
        ("9071000002050000", "9140"),
        ("9071000002400000", "919E"),
        ("907100000300010200", "919D"),
        ("9071000002000000", "9140"),
        ("9077000000", "917E"),
        ("90770000010000", "919D"),
        ("90770000014000", "919D"),
        ("00B0000000", "6985"),
        ("00B0800000", "6A86"),
        ("00B00000", "6700"),
        ("00A4000C02E104", "6A82"),
    ] {
        desk.gives(command, reply);
    }
}

#[test]
fn selects() {
    let mut desk = Desk::picc();
    for (command, reply) in [
        ("00A4020C02E11000", "9000"),
        ("00A4010002E103", "9000"),
        ("00A40000", "9000"),
        ("00A4040C07D2760000850101", "9000"),
        ("00A4040C00", "6A82"),
        ("00A4040C", "6A82"),
        ("00A4040C06D27600008501", "6A82"),
        ("00A4040C08D276000085010100", "6A82"),
        ("00A4000C02E106", "6A82"),
        ("00A4000C01E1", "6A80"),
        ("00A4000C03E10400", "6A80"),
        ("00A4030C023F00", "6A86"),
        ("00A4000D01E1", "6A86"),
        ("00A4050C02E104", "6A86"),
        ("00A4000C02E104", "9000"),
        ("00A4000C02E106", "6A82"),
        ("00B0000001", "009000"),
        ("00A4000C023F00", "9000"),
        ("00B0000001", "6985"),
    ] {
        desk.gives(command, reply);
    }
}

#[test]
fn selects_and_the_session() {
    let mut desk = Desk::application();
    desk.authenticate(0);
    desk.gives("00A4000C02E104", "9000");
    assert_eq!(desk.tag.session().map(|session| session.ctr), Some(0));
    desk.gives("00A4000C02E110", "9000");
    assert!(desk.tag.session().is_none());
    assert_eq!(desk.tag.selected(), None);
}

#[test]
fn a_pending_part_two() {
    for (command, reply) in [
        ("90F50000010200", "91CA"),
        ("9071000002000000", "91CA"),
        ("90770000010000", "91CA"),
        ("9060000000", "911C"),
        ("90F50001010200", "919E"),
        ("00A4000C02E104", "6985"),
        ("00B0800000", "6985"),
        ("00FF000000", "6D00"),
        ("00", "6700"),
        ("90AF000000", "917E"),
    ] {
        let mut desk = Desk::application();
        assert!(desk.send("9071000002000000").ends_with("91AF"));
        desk.gives(command, reply);
        desk.gives("90AF000000", "911C");
    }
    let mut desk = Desk::application();
    desk.send("9071000002000000");
    desk.gives(&format!("90AF000020{}00", "00".repeat(32)), "91AE");
}

#[test]
fn part_one_of_71_and_77() {
    let mut desk = Desk::application();
    desk.gives("90770000010000", "919D");
    assert!(desk.send("907100000300010100").ends_with("91AF"));
    desk.finish_authentication();
    let ti = desk.tag.session().expect("a session").ti;
    assert_eq!(ti, [17, 18, 19, 20]);
    assert_eq!(
        desk.closed(Mode::Mac, Native::GetKeyVersion, "00", ""),
        "9100"
    );
    assert!(desk.send("90770000010300").ends_with("91AF"));
    desk.finish_authentication();
    let session = desk.tag.session().expect("a session");
    assert_eq!((session.key_no, session.ti, session.ctr), (3, ti, 1));
    desk.gives("9077000002030000", "917E");
    assert!(desk.tag.session().is_none());
}

#[test]
fn secure_messaging() {
    let read = Native::ReadData;
    let mut desk = Desk::application();
    for (mode, header, status) in [
        (Mode::Full, "03000000000000", "9100"),
        (Mode::Plain, "03000000000000", "917E"),
        (Mode::Full, "03800000000000", "919E"),
        (Mode::Full, "037F0000020000", "919E"),
        (Mode::Full, "037F0000010000", "9100"),
    ] {
        desk.authenticate(2);
        assert_eq!(desk.closed(mode, read, header, ""), status);
        assert_eq!(desk.tag.session().is_some(), status == "9100");
    }
    desk.authenticate(2);
    let session = desk.tag.session().expect("a session");
    let mut message = session.close_command(Mode::Full, read, &[3, 0, 0, 0, 0, 0, 0], &[]);
    message[14] ^= 1;
    desk.gives(&hex(&wrap(read, &message)), "911E");
}

#[test]
fn data_parts() {
    let write = Native::WriteData;
    let mut desk = Desk::application();
    for (padded, reply) in [
        ("AA800000000000000000000000000000", "9100"),
        ("AA000000000000000000000000000000", "911E"),
        ("AA810000000000000000000000000000", "911E"),
        ("AA800000000000000000000000000001", "911E"),
        ("", "917E"),
        ("AA8000000000000000000000000000", "917E"),
        ("80000000000000000000000000000000", "917E"),
    ] {
        desk.authenticate(3);
        let session = desk.tag.session().expect("a session");
        let header = [3, 0, 0, 0, 1, 0, 0];
        let data = unhex(padded).unwrap();
        let message = session.close_padded(Mode::Full, write, &header, data);
        let reply_sent = desk.send(&hex(&wrap(write, &message)));
        assert!(reply_sent.ends_with(reply), "{padded}: {reply_sent}");
    }
    let long = format!("{}80{}", "AA".repeat(15), "00".repeat(16));
    desk.authenticate(3);
    let session = desk.tag.session().expect("a session");
    let data = unhex(&long).unwrap();
    let message = session.close_padded(Mode::Full, write, &[3, 0, 0, 0, 15, 0, 0], data);
    desk.gives(&hex(&wrap(write, &message)), "911E");
}

#[test]
fn an_empty_data_part_goes_on_to_the_own_checks() {
    let mut desk = Desk::application();
    for (ins, header, status) in [
        (Native::WriteData, "03000000000000", "919E"),
        (Native::WriteData, "03000000010000", "917E"),
    ] {
        desk.authenticate(3);
        assert_eq!(desk.closed(Mode::Full, ins, header, ""), status);
    }
    for (ins, header) in [
        (Native::ChangeFileSettings, "02"),
        (Native::ChangeKey, "01"),
    ] {
        desk.authenticate(0);
        assert_eq!(desk.closed(Mode::Full, ins, header, ""), "917E");
    }
}

#[test]
fn writes() {
    let mut desk = Desk::application();
    for (command, reply) in [
        ("908D00000802000000010000AA00", "9100"),
        ("908D0000070200000000000000", "919E"),
        ("908D00000802000000000000AA00", "919E"),
        ("908D00000702FF000001000000", "917E"),
        ("908D00000902FF0000010000AABB00", "917E"),
        ("908D00000802FF0000010000AA00", "9100"),
        ("908D00000802000100010000AA00", "91BE"),
        ("908D00000902FF0000020000AABB00", "91BE"),
        ("908D00000802FFFFFF010000AA00", "91BE"),
        ("908D00000801000000010000AA00", "91AE"),
        ("90AD00000702FF000000000000", "AA9100"),
    ] {
        desk.gives(command, reply);
    }
}

#[test]
fn reads_that_fit_a_reply() {
    let read = Native::ReadData;
    for (option, mode, fits, over) in [("01", Mode::Mac, 248, 249), ("03", Mode::Full, 239, 240)] {
        let mut desk = Desk::application();
        desk.change(2, &format!("{option}0000"));
        for (length, status) in [(fits, "9100"), (over, "917E")] {
            desk.authenticate(0);
            let header = format!("02000000{length:02X}0000");
            assert_eq!(desk.closed(mode, read, &header, ""), status);
        }
        desk.authenticate(0);
        assert_eq!(desk.closed(mode, read, "02000000000000", ""), "917E");
    }
}

#[test]
fn a_key_beats_e() {
    let mut desk = Desk::application();
    desk.change(2, "03100E");
    desk.gives("00A4000C02E104", "9000");
    desk.authenticate(1);
    desk.gives("00B0000001", "6982");
    desk.change(2, "0310E0");
    desk.authenticate(1);
    assert_eq!(
        desk.closed(Mode::Full, Native::ReadData, "02000000010000", ""),
        "9100"
    );
    assert_eq!(
        desk.closed(Mode::Plain, Native::ReadData, "02000000010000", ""),
        "917E"
    );
    desk.authenticate(2);
    assert_eq!(
        desk.closed(Mode::Plain, Native::ReadData, "02000000010000", ""),
        "9100"
    );
    desk.gives("00A4000C02E104", "9000");
    desk.gives("00B0000001", "009000");
    assert_eq!(desk.tag.session().map(|session| session.ctr), Some(2));
    desk.authenticate(1);
    desk.gives("00B0000001", "6982");
    assert!(desk.tag.session().is_none());
}

#[test]
fn iso_in_session_by_key_in_plain() {
    let mut desk = Desk::application();
    desk.change(2, "00F011");
    desk.gives("00A4000C02E104", "9000");
    desk.gives("00B0000001", "6982");
    desk.gives(READ_2, "91AE");
    desk.authenticate(1);
    desk.gives("00D6000001AA", "9000");
    desk.gives("00B0000001", "AA9000");
    assert_eq!(desk.tag.session().map(|session| session.ctr), Some(2));
}

#[test]
fn conditions_that_are_all_f() {
    let mut desk = Desk::application();
    desk.change(2, "00F0FF");
    desk.gives(READ_2, "919D");
    desk.gives("908D00000802000000010000AA00", "919D");
    desk.gives("90F60000010200", "919D");
    desk.change(2, "40F0FF01FFFF");
    desk.gives(READ_2, "919D");
    desk.gives("90F60000010200", "919D");
    desk.change(2, "40F0FF01F1F0000000000000");
    desk.gives("90F60000010200", "91AE");
    assert!(desk.send(READ_2).ends_with("9100"));
    desk.authenticate(0);
    assert_eq!(
        desk.closed(Mode::Plain, Native::ReadData, "02000000000000", ""),
        "91AE"
    );
    desk.authenticate(1);
    assert_eq!(
        desk.closed(Mode::Full, Native::GetFileCounters, "02", ""),
        "9100"
    );
    desk.change(2, "40FFFF01FEFF");
    desk.gives("90F60000010200", "01000000009100");
    desk.gives("905F000004020000E000", "919D");
}

#[test]
fn settings_free_to_change() {
    let mut desk = Desk::application();
    desk.change(3, "00EE0E");
    desk.gives("905F000004030000EE00", "9100");
    desk.gives("90F50000010300", "000000EE8000009100");
    desk.change(3, "00EE0E");
    desk.authenticate(1);
    assert_eq!(
        desk.closed(Mode::Plain, Native::ChangeFileSettings, "03", "02EEEE"),
        "9100"
    );
    assert_eq!(desk.tag.session().map(|session| session.ctr), Some(1));
    assert_eq!(desk.tag.settings(FileNo::Three).mode, Mode::Plain);
}

#[test]
fn iso_reads_and_updates() {
    let mut desk = Desk::application();
    desk.gives("00A4000C02E103", "9000");
    desk.gives(
        "00B0000000",
        "001720010000FF0406E104010000000506E105008082830000000000000000009000",
    );
    for (command, reply) in [
        ("00B0000021", "6C20"),
        ("00B0001F02", "6C01"),
        ("00B0001F01", "009000"),
        ("00B0002000", "6A86"),
        ("00B0002001", "6A86"),
        ("00B0800001", "6A86"),
        ("00B00000", "6700"),
        ("00B0000001AA", "6700"),
        ("00B0000001AA01", "6700"),
        ("00D60000", "6700"),
        ("00D6000001", "6700"),
        ("00D6000001AA00", "6700"),
        ("00D6000001AA", "6982"),
        ("00D6FF0001AA", "6A86"),
        ("00A4000C02E104", "9000"),
        ("00D600FF01AA", "9000"),
        ("00D600FF02AABB", "6A87"),
        ("00D6010001AA", "6A86"),
        ("00B000FF00", "AA9000"),
        ("00D6000001AA00", "6700"),
    ] {
        desk.gives(command, reply);
    }
}

#[test]
fn change_key() {
    let mut desk = Desk::application();
    let new = "00112233445566778899AABBCCDDEEFF";
    let sum = hex(&peer::crypto::crc(&unhex(new).unwrap()));
    for (key, data, status) in [
        ("01", format!("{new}07{sum}"), "9100"),
        ("02", format!("{new}07FFFFFFFF"), "911E"),
        ("02", format!("{new}07"), "917E"),
        ("02", format!("{new}07{sum}00"), "917E"),
        ("00", format!("{new}07{sum}"), "917E"),
        ("00", new.to_string(), "917E"),
    ] {
        desk.authenticate(0);
        let got = desk.closed(Mode::Full, Native::ChangeKey, key, &data);
        assert_eq!(got, status, "{key} {data}");
        assert_eq!(desk.tag.session().is_some(), status == "9100");
    }
    desk.gives("90640000010100", "079100");
    desk.authenticate(0);
    let session = desk.tag.session().expect("a session");
    let data = unhex(format!("{new}09")).unwrap();
    let message = session.close_command(Mode::Full, Native::ChangeKey, &[0], &data);
    desk.gives(&hex(&wrap(Native::ChangeKey, &message)), "9100");
    assert!(desk.tag.session().is_none());
    desk.gives("90640000010000", "099100");
    desk.authenticate(1);
    desk.authenticate(0);
    desk.authenticate(2);
    let got = desk.closed(
        Mode::Full,
        Native::ChangeKey,
        "01",
        &format!("{new}07{sum}"),
    );
    assert_eq!(got, "91AE");
}

/// Taps: which reads start one.
#[test]
fn taps_that_start_and_go_on() {
    let mut desk = Desk::application();
    desk.change(2, "4000E0C1F121200000430000430000");
    desk.gives("00A4000C02E104", "9000");
    for (command, counter) in [
        (READ_2, 1),
        ("90AD0000070210000005000000", 1),
        (ISO_READ, 2),
        ("00B000FE02", 2),
        (READ_2, 3),
        ("90AD0000070200010000000000", 3),
        (READ_2, 4),
        ("90AD0000070100000000000000", 4),
        (READ_2, 5),
        ("90F50000010200", 5),
        (READ_2, 6),
        ("9051000000", 6),
        ("00A4000C02E104", 6),
        (ISO_READ, 7),
        ("00B000FF02", 7),
        (ISO_READ, 8),
        ("00", 8),
        (ISO_READ, 9),
    ] {
        desk.send(command);
        assert_eq!(desk.tag.counter(), counter, "{command}");
    }
    desk.change(2, "4000E0C1F121200000430000430000");
    assert_eq!(desk.tag.counter(), 9);
    desk.change(2, "0000E0");
    assert_eq!(desk.tag.counter(), 9);
    desk.change(2, "4000E0C1F121200000430000430000");
    assert_eq!(desk.tag.counter(), 0);
}

/// 02, request 3: a tap's padding is drawn when it starts and used until it ends. The reads are cut
/// inside PICCData, for UID and counter, UID alone, counter alone.
#[test]
fn padding_of_one_tap() {
    for options in ["C1", "81", "41"] {
        let mut desk = Desk::application();
        desk.change(2, &format!("4000E0{options}F121200000430000430000"));
        desk.gives("00A4000C02E104", "9000");
        let data = |reply: String| reply[..reply.len() - 4].to_string();
        let whole = data(desk.send_with(READ_2, &[1; 20]));
        let front = data(desk.send_with("90AD0000070200000030000000", &[2; 20]));
        let back = data(desk.send_with("90AD0000070230000000000000", &[3; 20]));
        assert_eq!(front + &back, whole);
        let other = data(desk.send_with(ISO_READ, &[5; 20]));
        assert_ne!(other, whole);
        let again = data(desk.send_with("00B0002800", &[4; 20]));
        assert_eq!(again, other[80..]);
        // the same counter and another padding: only PICCData and the code differ
        let mut twin = Desk::application();
        twin.change(2, &format!("4000E0{options}F121200000430000430000"));
        let drawn = data(twin.send_with(READ_2, &[9; 20]));
        assert_eq!(drawn[..64], whole[..64]);
        assert_ne!(drawn[64..128], whole[64..128]);
    }
}

#[test]
fn limits() {
    let mut desk = Desk::application();
    desk.change(2, "4000E0E1F121200000430000430000010000");
    desk.gives("00A4000C02E104", "9000");
    assert!(desk.send(READ_2).ends_with("9100"));
    assert!(desk.send(READ_2).ends_with("9100"));
    desk.gives("90AD0000070200010000000000", "919E");
    desk.gives(READ_2, "919D");
    desk.gives(ISO_READ, "6982");
    desk.gives("00B0010000", "6A86");
    desk.gives("00B000FF02", "6C01");
    assert_eq!(desk.tag.counter(), 1);
    desk.change(2, "4000E021FFFF000000");
    desk.gives(READ_2, "919D");
    desk.authenticate(1);
    assert_eq!(
        desk.closed(Mode::Plain, Native::ReadData, "02000000000000", ""),
        "9100"
    );
}

#[test]
fn mirrors_with_file_read_f() {
    let mut desk = Desk::application();
    desk.change(2, "40E0EEC1FFEF000000100000");
    let reply = desk.send("90AD0000070200000020000000");
    let text = unhex(&reply).unwrap();
    assert_eq!(&text[..14], b"04DE5F1EACC040");
    assert_eq!(
        &text[14..],
        &[&[0, 0][..], b"000001", &[0; 10], &[0x91, 0x00]].concat()
    );
    assert_eq!(desk.tag.counter(), 1);
}
