//! Secure messaging, rightly and wrongly.

use super::Talk;
use crate::command::Native;
use crate::crypto::pad;
use crate::reader::wrap;
use crate::settings::Mode;

/// What goes wrong when a message is closed.
#[derive(Clone, Copy)]
enum Slip {
    Mac,
    CmdCtr,
    Ti,
    Padding,
    NoMac,
    OneMore,
    NoBlock,
    OtherMode,
}

const SLIPS: [(usize, Slip); 8] = [
    (2, Slip::Mac),
    (2, Slip::CmdCtr),
    (1, Slip::Ti),
    (4, Slip::Padding),
    (1, Slip::NoMac),
    (1, Slip::OneMore),
    (1, Slip::NoBlock),
    (1, Slip::OtherMode),
];

impl Talk {
    /// A command closed in the mode that the tag will ask for, or with a slip.
    pub(super) fn close(&mut self, ins: Native, header: &[u8], data: &[u8]) -> Vec<u8> {
        let any = self.rng.pick(&[Mode::Plain, Mode::Mac, Mode::Full]);
        let mode = self.tag.mode_of(ins, header).unwrap_or(any);
        let badly = self.closes_badly();
        let message = match self.tag.session() {
            _ if badly => self.close_badly(mode, ins, header, data),
            Some(session) => session.close_command(mode, ins, header, data),
            None => [header, data].concat(),
        };
        wrap(ins, &message[..message.len().min(255)])
    }

    /// In session a little more often than other slips.
    fn closes_badly(&mut self) -> bool {
        let extra = match (self.wear, self.tag.session()) {
            (None, Some(_)) => 7,
            _ => 0,
        };
        self.rng.chance(extra) || self.slip() && self.rng.chance(50)
    }

    fn close_badly(&mut self, mode: Mode, ins: Native, header: &[u8], data: &[u8]) -> Vec<u8> {
        let slip = self.rng.weighted(&SLIPS);
        let other = self.rng.pick(&[Mode::Plain, Mode::Mac, Mode::Full]);
        let bad = self.badly_padded(data);
        let flip = 1 << self.rng.below(8);
        let step = self.rng.pick(&[1, u16::MAX, 256]);
        let Some(mut session) = self.tag.session().cloned() else {
            return self.sized_badly(header, data);
        };
        match slip {
            Slip::CmdCtr => session.ctr = session.ctr.wrapping_add(step),
            Slip::Ti => session.ti[self.rng.below(4)] ^= flip,
            _ => (),
        }
        match slip {
            Slip::Padding => session.close_padded(mode, ins, header, bad),
            Slip::NoBlock => session.close_padded(mode, ins, header, Vec::new()),
            Slip::OneMore => session.close_padded(mode, ins, header, [data, &[flip]].concat()),
            Slip::OtherMode => session.close_command(other, ins, header, data),
            Slip::NoMac => [header, data].concat(),
            Slip::CmdCtr | Slip::Ti => session.close_command(mode, ins, header, data),
            Slip::Mac => {
                let mut message = session.close_command(mode, ins, header, data);
                let back = self.rng.between(1, 8).min(message.len());
                let place = message.len() - back;
                message
                    .iter_mut()
                    .skip(place)
                    .take(1)
                    .for_each(|byte| *byte ^= flip);
                message
            }
        }
    }

    /// Without session: a byte too many, or a header cut short.
    fn sized_badly(&mut self, header: &[u8], data: &[u8]) -> Vec<u8> {
        match self.rng.chance(50) {
            true => [header, data, &[0xaa]].concat(),
            false => header[..self.rng.below(header.len())].to_vec(),
        }
    }

    /// Whole blocks whose padding is wrong: no mark, a mark too early, bytes behind it.
    fn badly_padded(&mut self, data: &[u8]) -> Vec<u8> {
        let mut text = data.to_vec();
        pad(&mut text);
        let last = text.len() - 1;
        match self.rng.below(4) {
            0 => text[data.len()] = 0,
            1 => text[data.len()] = 0x81,
            2 => text[last] ^= 1,
            _ => text.extend([0; 16]),
        }
        text
    }
}
