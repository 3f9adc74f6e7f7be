//! Settings strings of file 2 with the blocks of a tap (02, request 10): lines of counts.txt.

use super::strings;
use crate::bytes::hex;
use crate::command::{Iso, Native};
use crate::reader::{iso, part_two, wrap};
use crate::rng::Rng;
use crate::settings::{FileNo, Mode, Settings};
use crate::tag::Tag;

const UID: [u8; 7] = [0x04, 0x95, 0x8c, 0xaa, 0x5c, 0x5e, 0x80];

/// One line, `STRING BLOCKS`: a string in normal form with SDM on under which a tag can be tapped,
/// and what the first tap takes.
pub fn line(rng: &mut Rng) -> Option<String> {
    loop {
        let string = strings::good(rng, FileNo::Two, 0);
        let settings = Settings::parse(FileNo::Two, &string).ok()?;
        if settings.sdm.is_none() {
            continue;
        }
        let string = settings.string();
        if let Some(blocks) = tapped(&tag_with(&string)?, rng) {
            return Some(format!("{} {blocks}", hex(&string)));
        }
    }
}

/// A tag that holds this settings string of file 2, which is selected; no session.
pub fn tag_with(string: &[u8]) -> Option<Tag> {
    let mut tag = Tag::fresh(&UID)?;
    let select = |id: u16| iso(Iso::SelectFile, [0, 0x0c], &id.to_be_bytes(), None);
    let send = |tag: &mut Tag, command: Vec<u8>| tag.exchange(&command, &[0; 20]);
    send(&mut tag, select(0xe110));
    send(&mut tag, wrap(Native::AuthenticateEv2First, &[0, 0]));
    let data = part_two(&tag, &[0; 16])?;
    send(&mut tag, wrap(Native::PartTwo, &data));
    let change = Native::ChangeFileSettings;
    let message = tag
        .session()?
        .close_command(Mode::Full, change, &[2], string);
    send(&mut tag, wrap(change, &message));
    send(&mut tag, select(0xe110));
    send(&mut tag, select(0xe104));
    (tag.settings(FileNo::Two).string() == string).then_some(tag)
}

/// The blocks of one ISOReadBinary of the selected file; none where it is refused or no tap.
pub fn tapped(tag: &Tag, rng: &mut Rng) -> Option<usize> {
    let mut tag = tag.clone();
    let read = iso(Iso::ReadBinary, [0, 0], &[], Some(0));
    let explained = tag.explained(&read, &rng.array());
    tag.tap().map(|_| explained.blocks)
}
