//! Authentication arithmetic and secure messaging (9.1), for the tag and for a reader.

use crate::aes::{Aes, Block};
use crate::command::Native;
use crate::crypto::{cbc_decrypt, cbc_encrypt, pad, unpadded, Cmac};
use crate::settings::Mode;
use crate::status::{Answer, Status};

const ENC_LABEL: [u8; 2] = [0xa5, 0x5a];
const MAC_LABEL: [u8; 2] = [0x5a, 0xa5];

/// The length of a MAC behind a message.
pub const MAC: usize = 8;

/// Which part one a pending part two belongs to.
#[derive(Clone)]
pub enum Opening {
    /// 71, with PCDcap2 padded with zeros to six.
    First { pcd_cap: [u8; 6] },
    /// 77, with the TI and CmdCtr that it keeps.
    NonFirst { ti: [u8; 4], ctr: u16 },
}

/// A part two that the tag waits for.
#[derive(Clone)]
pub struct Pending {
    pub key_no: u8,
    pub rnd_b: Block,
    pub opening: Opening,
}

/// The first byte goes to the end.
pub fn rotated(block: &Block) -> Block {
    let mut turned = *block;
    turned.rotate_left(1);
    turned
}

/// A running session.
#[derive(Clone)]
pub struct Session {
    pub key_no: u8,
    pub ti: [u8; 4],
    pub ctr: u16,
    enc: Aes,
    mac: Cmac<Aes>,
}

/// The session vector behind its label; byte 15 of RndA and RndB is the first sent.
fn session_vector(label: [u8; 2], rnd_a: &Block, rnd_b: &Block) -> [u8; 32] {
    let mut vector = [0; 32];
    vector[..6].copy_from_slice(&[label[0], label[1], 0x00, 0x01, 0x00, 0x80]);
    vector[6..14].copy_from_slice(&rnd_a[..8]);
    for (place, byte) in vector[8..14].iter_mut().zip(rnd_b) {
        *place ^= byte;
    }
    vector[14..24].copy_from_slice(&rnd_b[6..]);
    vector[24..].copy_from_slice(&rnd_a[8..]);
    vector
}

impl Session {
    /// A session under Kx, its keys drawn from RndA and RndB.
    pub fn new(
        key_no: u8,
        kx: &Aes,
        rnd_a: &Block,
        rnd_b: &Block,
        ti: [u8; 4],
        ctr: u16,
    ) -> Session {
        let source = Cmac::new(kx.clone());
        let draw = |label| source.of(&[&session_vector(label, rnd_a, rnd_b)]);
        Session::with_keys(key_no, &draw(ENC_LABEL), &draw(MAC_LABEL), ti, ctr)
    }

    /// A session with given session keys.
    pub fn with_keys(key_no: u8, enc: &Block, mac: &Block, ti: [u8; 4], ctr: u16) -> Session {
        Session {
            key_no,
            ti,
            ctr,
            enc: Aes::new(enc),
            mac: Cmac::new(Aes::new(mac)),
        }
    }

    /// The MAC over Cmd or return code, CmdCtr, TI and the parts.
    fn sign(&self, code: u8, header: &[u8], data: &[u8]) -> [u8; MAC] {
        let ctr = self.ctr.to_le_bytes();
        self.mac.short(&[&[code], &ctr, &self.ti, header, data])
    }

    /// The IV under a label for the CmdCtr of now.
    fn iv(&self, label: [u8; 2]) -> Block {
        let mut input = [0; 16];
        input[..2].copy_from_slice(&label);
        input[2..6].copy_from_slice(&self.ti);
        input[6..8].copy_from_slice(&self.ctr.to_le_bytes());
        self.enc.encrypt(&input)
    }

    /// Opens a command: the right length for the mode, then the MAC, then the padding.
    /// Gives the data part in plain.
    pub fn open_command(&self, mode: Mode, ins: Native, message: &[u8]) -> Answer<Vec<u8>> {
        if mode == Mode::Plain {
            return plain_data(ins, message);
        }
        let (header, rest) = message
            .split_at_checked(ins.header())
            .ok_or(Status::LengthError)?;
        let (data, mac) = rest.split_last_chunk::<MAC>().ok_or(Status::LengthError)?;
        if !data_length_fits(mode, ins, data.len()) {
            return Err(Status::LengthError);
        }
        if self.sign(ins.code(), header, data) != *mac {
            return Err(Status::IntegrityError);
        }
        if mode == Mode::Full && ins.has_data() {
            self.decrypt_command(data)
        } else {
            Ok(data.to_vec())
        }
    }

    fn decrypt_command(&self, data: &[u8]) -> Answer<Vec<u8>> {
        let mut text = data.to_vec();
        cbc_decrypt(&self.enc, self.iv(ENC_LABEL), &mut text);
        let length = unpadded(&text).ok_or(Status::IntegrityError)?;
        text.truncate(length);
        Ok(text)
    }

    /// Closes a reply in its mode: Full encrypts what there is, MAC and Full sign it.
    pub fn close_reply(&self, mode: Mode, data: Vec<u8>) -> Vec<u8> {
        if mode == Mode::Plain {
            return data;
        }
        let mut text = data;
        if mode == Mode::Full && !text.is_empty() {
            pad(&mut text);
            cbc_encrypt(&self.enc, self.iv(MAC_LABEL), &mut text);
        }
        let mac = self.sign(0, &[], &text);
        text.extend(mac);
        text
    }

    /// Reader's side: closes a command with padding added where the mode asks for it.
    pub fn close_command(&self, mode: Mode, ins: Native, header: &[u8], data: &[u8]) -> Vec<u8> {
        let mut text = data.to_vec();
        if mode == Mode::Full && ins.has_data() {
            pad(&mut text);
        }
        self.close_padded(mode, ins, header, text)
    }

    /// Reader's side: closes a command whose data part is taken as it is.
    pub fn close_padded(&self, mode: Mode, ins: Native, header: &[u8], data: Vec<u8>) -> Vec<u8> {
        let mut text = data;
        if mode == Mode::Full {
            cbc_encrypt(&self.enc, self.iv(ENC_LABEL), &mut text);
        }
        let mut message = [header, &text].concat();
        if mode != Mode::Plain {
            message.extend(self.sign(ins.code(), header, &text));
        }
        message
    }
}

/// A data part, its MAC apart: any length in MAC, whole blocks and at least one in Full;
/// none where the command has none.
fn data_length_fits(mode: Mode, ins: Native, length: usize) -> bool {
    match (ins.has_data(), mode) {
        (false, _) => length == 0,
        (true, Mode::Full) => length > 0 && length.is_multiple_of(16),
        (true, _) => true,
    }
}

/// The data part of a Plain command.
pub fn plain_data(ins: Native, message: &[u8]) -> Answer<Vec<u8>> {
    match message.split_at_checked(ins.header()) {
        Some((_, data)) if data.is_empty() || ins.has_data() => Ok(data.to_vec()),
        _ => Err(Status::LengthError),
    }
}
