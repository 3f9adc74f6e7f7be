//! Authentications begun and finished, rightly and wrongly.

use super::Talk;
use crate::command::Native;
use crate::messaging::rotated;
use crate::reader::{part_two, seal_part_two, wrap};
use crate::settings::{Condition, FileNo};

impl Talk {
    /// A key number: 0, one that some file asks for, or any.
    fn key_number(&mut self) -> u8 {
        let file = self.rng.pick(&FileNo::ALL);
        let settings = self.tag.settings(file);
        let rights = settings.rights;
        let mut conditions = vec![rights.read, rights.write, rights.read_write, rights.change];
        conditions.extend(settings.sdm.iter().map(|sdm| sdm.counter_right));
        match (self.rng.below(3), self.rng.pick(&conditions)) {
            (0, _) => 0,
            (1, Condition::Key(key)) => key,
            _ => self.rng.below(5) as u8,
        }
    }

    /// A key byte that is now and then none.
    pub(super) fn key_byte(&mut self) -> u8 {
        match self.slip() && self.rng.chance(30) {
            true => self.rng.pick(&[5, 6, 31, 63, 64, 65, 128, 255]),
            false => self.key_number(),
        }
    }

    pub(super) fn first(&mut self) -> Vec<u8> {
        let cap = self.rng.pick(&[0, 0, 0, 1, 2, 6]);
        let mut data = vec![self.key_byte(), cap as u8];
        data.extend(self.rng.bytes(cap));
        data.iter_mut().skip(2).take(1).for_each(|byte| *byte &= !2);
        if self.slip() && self.rng.chance(40) {
            match self.rng.below(5) {
                0 => data[1] = self.rng.pick(&[1, 6, 7, 8, 255]),
                1 => data.push(self.rng.byte()),
                2 => drop(data.pop()),
                3 => data.iter_mut().skip(2).take(1).for_each(|byte| *byte |= 2),
                _ => data.truncate(1),
            }
        }
        wrap(Native::AuthenticateEv2First, &data)
    }

    pub(super) fn non_first(&mut self) -> Vec<u8> {
        let mut data = vec![self.key_byte()];
        if self.slip() && self.rng.chance(50) {
            let length = self.rng.pick(&[0, 2, 3]);
            data = self.rng.bytes(length);
        }
        wrap(Native::AuthenticateEv2NonFirst, &data)
    }

    /// RndB' right or wrong, or a length other than 32.
    pub(super) fn part_two(&mut self) -> Vec<u8> {
        let rnd_a = self.rng.array();
        let right = part_two(&self.tag, &rnd_a);
        let mut data = right.unwrap_or_else(|| self.rng.bytes(32));
        if self.slip() && self.rng.chance(50) {
            match self.rng.below(6) {
                0 => drop(data.pop()),
                1 => data.push(self.rng.byte()),
                2..=4 => data = self.wrong_part_two(&rnd_a).unwrap_or(data),
                _ => {
                    let place = self.rng.below(32);
                    data[place] ^= 1 << self.rng.below(8);
                }
            }
        }
        wrap(Native::PartTwo, &data)
    }

    /// RndB not turned, turned twice, or sealed under another key.
    fn wrong_part_two(&mut self, rnd_a: &[u8; 16]) -> Option<Vec<u8>> {
        let pending = self.tag.pending()?;
        let turned = rotated(&pending.rnd_b);
        let key_no = pending.key_no;
        let other = (key_no + self.rng.between(1, 4) as u8) % 5;
        let (key_no, sent) = self.rng.pick(&[
            (key_no, pending.rnd_b),
            (key_no, rotated(&turned)),
            (other, turned),
        ]);
        Some(seal_part_two(self.tag.key(key_no)?, rnd_a, &sent))
    }
}
