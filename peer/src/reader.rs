//! The reader's side: commands put together.

use crate::aes::Aes;
use crate::command::{Iso, Native};
use crate::crypto::cbc_encrypt;
use crate::messaging::rotated;
use crate::tag::Tag;

/// A wrapped command. Lc is the low byte of the length.
pub fn wrap(ins: Native, data: &[u8]) -> Vec<u8> {
    let mut command = vec![0x90, ins.code(), 0, 0];
    if !data.is_empty() {
        command.push(data.len() as u8);
        command.extend(data);
    }
    command.push(0);
    command
}

/// A CLA 00 command. Lc is the low byte of the length.
pub fn iso(ins: Iso, [p1, p2]: [u8; 2], data: &[u8], le: Option<u8>) -> Vec<u8> {
    let mut command = vec![0x00, ins.code(), p1, p2];
    if !data.is_empty() {
        command.push(data.len() as u8);
        command.extend(data);
    }
    command.extend(le);
    command
}

/// The data of AF that answers the tag's pending part one.
pub fn part_two(tag: &Tag, rnd_a: &[u8; 16]) -> Option<Vec<u8>> {
    let pending = tag.pending()?;
    let key = tag.key(pending.key_no)?;
    Some(seal_part_two(key, rnd_a, &rotated(&pending.rnd_b)))
}

/// E(Kx; RndA, RndB').
pub fn seal_part_two(key: &[u8; 16], rnd_a: &[u8; 16], turned_b: &[u8; 16]) -> Vec<u8> {
    let mut text = [&rnd_a[..], turned_b].concat();
    cbc_encrypt(&Aes::new(key), [0; 16], &mut text);
    text
}
