//! AuthenticateEV2First, AuthenticateEV2NonFirst and their part two (9.1.5, 9.1.6, 10.4).

use super::{Call, Phase, Place, Tag};
use crate::aes::{Aes, Block};
use crate::bytes::Cursor;
use crate::crypto::{cbc_decrypt, cbc_encrypt};
use crate::messaging::{rotated, Opening, Pending, Session};
use crate::status::{Answer, Reply, Status};

/// A key byte: over 63 919E, key over 4 9140.
pub(super) fn key_number(byte: u8) -> Answer<u8> {
    match byte {
        0..=4 => Ok(byte),
        5..=63 => Err(Status::NoSuchKey),
        _ => Err(Status::ParameterError),
    }
}

/// The key number and PCDcap2 of 71, in the order of its own checks.
fn first_fields(data: &[u8]) -> Answer<(u8, [u8; 6])> {
    let mut cursor = Cursor::new(data);
    let [key_byte, len_cap] = cursor.take().ok_or(Status::LengthError)?;
    if len_cap > 6 {
        return Err(Status::ParameterError);
    }
    let sent = cursor.rest();
    if sent.len() != usize::from(len_cap) {
        return Err(Status::LengthError);
    }
    let key_no = key_number(key_byte)?;
    let mut pcd_cap = [0; 6];
    pcd_cap[..sent.len()].copy_from_slice(sent);
    if pcd_cap[0] & 0x02 != 0 {
        return Err(Status::PermissionDenied);
    }
    Ok((key_no, pcd_cap))
}

impl Tag {
    pub(super) fn first(&mut self, data: &[u8], call: &Call) -> Answer<Reply> {
        let (key_no, pcd_cap) = first_fields(data)?;
        self.part_one(key_no, Opening::First { pcd_cap }, call)
    }

    /// 77, in order: length, session, key byte.
    pub(super) fn non_first(&mut self, data: &[u8], call: &Call) -> Answer<Reply> {
        let &[key_byte] = data else {
            return Err(Status::LengthError);
        };
        let session = self.session().ok_or(Status::PermissionDenied)?;
        let opening = Opening::NonFirst {
            ti: session.ti,
            ctr: session.ctr,
        };
        self.part_one(key_number(key_byte)?, opening, call)
    }

    /// Gives E(Kx; RndB) and ends the old session. At PICC level there is no such key.
    fn part_one(&mut self, key_no: u8, opening: Opening, call: &Call) -> Answer<Reply> {
        let Place::Application { phase, .. } = &mut self.place else {
            return Err(Status::NoSuchKey);
        };
        let [rnd_b @ .., _, _, _, _] = *call.random;
        *phase = Phase::Pending(Pending {
            key_no,
            rnd_b,
            opening,
        });
        let sealed = self.kx(key_no).encrypt(&rnd_b);
        Ok(Reply::more(sealed.to_vec()))
    }

    /// Checks RndB', starts the session and gives RndA' back.
    pub(super) fn part_two(&mut self, pending: Pending, data: &[u8], call: &Call) -> Answer<Reply> {
        let kx = self.kx(pending.key_no);
        let (rnd_a, turned_b) = open_part_two(&kx, data)?;
        if turned_b != rotated(&pending.rnd_b) {
            return Err(Status::AuthenticationError);
        }
        let turned_a = rotated(&rnd_a);
        let (ti, ctr, mut reply) = match pending.opening {
            Opening::First { pcd_cap } => {
                let [.., a, b, c, d] = *call.random;
                let ti = [a, b, c, d];
                (ti, 0, [&ti[..], &turned_a, &[0; 6], &pcd_cap].concat())
            }
            Opening::NonFirst { ti, ctr } => (ti, ctr, turned_a.to_vec()),
        };
        cbc_encrypt(&kx, [0; 16], &mut reply);
        let session = Session::new(pending.key_no, &kx, &rnd_a, &pending.rnd_b, ti, ctr);
        self.set_phase(Phase::Session(Box::new(session)));
        Ok(Reply::wrapped(reply))
    }

    /// The cipher under an application key.
    pub(super) fn kx(&self, key_no: u8) -> Aes {
        Aes::new(&self.keys[usize::from(key_no)].bytes)
    }
}

/// RndA and RndB' from 32 encrypted bytes.
fn open_part_two(kx: &Aes, data: &[u8]) -> Answer<(Block, Block)> {
    let mut text: [u8; 32] = data.try_into().map_err(|_| Status::LengthError)?;
    cbc_decrypt(kx, [0; 16], &mut text);
    let mut cursor = Cursor::new(&text);
    let halves = cursor.take().zip(cursor.take());
    halves.ok_or(Status::LengthError)
}
