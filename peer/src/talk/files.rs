//! Keys, settings and files, wrapped.

use super::{strings, Talk};
use crate::bytes::three;
use crate::command::Native;
use crate::crypto::crc;
use crate::settings::{FileNo, Mode};

impl Talk {
    pub(super) fn key_version(&mut self) -> Vec<u8> {
        let key = self.key_byte();
        self.close(Native::GetKeyVersion, &[key], &[])
    }

    /// A file, for preference one that grants the command.
    fn file_for(&mut self, ins: Native) -> FileNo {
        let mut files = FileNo::ALL;
        self.rng.shuffle(&mut files);
        match files.into_iter().find(|file| self.grants(ins, *file)) {
            Some(file) if self.rng.chance(85) => file,
            _ => files[0],
        }
    }

    /// A file byte that is now and then none.
    fn file_byte(&mut self, file: FileNo) -> u8 {
        match self.slip() && self.rng.chance(20) {
            true => self.rng.pick(&[0, 4, 5, 30, 31, 32, 33, 255]),
            false => file.number(),
        }
    }

    pub(super) fn about_file(&mut self, ins: Native) -> Vec<u8> {
        let file = self.file_for(ins);
        let byte = self.file_byte(file);
        self.close(ins, &[byte], &[])
    }

    pub(super) fn change_settings(&mut self) -> Vec<u8> {
        let ins = Native::ChangeFileSettings;
        let file = match self.grants(ins, FileNo::Two) && self.rng.chance(60) {
            true => FileNo::Two,
            false => self.file_for(ins),
        };
        let counter = self.tag.counter();
        let string = match self.slip() || self.rng.chance(20) {
            true => strings::bad(&mut self.rng, file, counter),
            false => strings::good(&mut self.rng, file, counter),
        };
        let byte = self.file_byte(file);
        self.close(ins, &[byte], &string)
    }

    pub(super) fn change_key(&mut self) -> Vec<u8> {
        let number = self.rng.weighted(&[(1, 0), (2, 1), (2, 2), (2, 3), (2, 4)]);
        let new: [u8; 16] = self.rng.array();
        let mut data = new.to_vec();
        if number != 0 {
            let old = self.tag.key(number).copied().unwrap_or_default();
            data.iter_mut()
                .zip(old)
                .for_each(|(byte, old)| *byte ^= old);
        }
        data.push(self.rng.byte());
        if number != 0 {
            data.extend(crc(&new));
        }
        if self.slip() {
            self.spoil_key(&mut data);
        }
        let byte = match self.slip() {
            true => self.key_byte(),
            false => number,
        };
        self.close(Native::ChangeKey, &[byte], &data)
    }

    /// A wrong CRC or a wrong length.
    fn spoil_key(&mut self, data: &mut Vec<u8>) {
        match self.rng.below(4) {
            0 => data.truncate(self.rng.pick(&[0, 15, 16, 17, 20])),
            1 => data.push(self.rng.byte()),
            2 => {
                let last = data.len() - 1;
                data[last] ^= 1 << self.rng.below(8);
            }
            _ => data[..16].rotate_left(1),
        }
    }

    pub(super) fn read(&mut self) -> Vec<u8> {
        let ins = Native::ReadData;
        let file = match self.may_tap() {
            true => FileNo::Two,
            false => self.file_for(ins),
        };
        let mode = self.tag.mode_of(ins, &header(file, 0, 0));
        let longest = longest(mode);
        let (offset, length) = if self.slip() {
            self.bad_range(file.size())
        } else if longest < file.size() && self.rng.chance(20) {
            (0, self.rng.pick(&[0, 239, 240, 247, 248, 249, 255]))
        } else {
            self.good_range(file.size(), longest)
        };
        let mut fields = header(file, offset, length);
        fields[0] = self.file_byte(file);
        self.close(ins, &fields, &[])
    }

    /// Whether a read shall be a tap: SDM on, no session, mostly.
    pub(super) fn may_tap(&mut self) -> bool {
        let on = self.tag.settings(FileNo::Two).sdm.is_some();
        on && self.tag.session().is_none() && self.rng.chance(85)
    }

    /// Offset and length inside the file; length 0 for all that is there.
    pub(super) fn good_range(&mut self, size: usize, longest: usize) -> (usize, usize) {
        if size <= longest && self.rng.chance(35) {
            return (0, 0);
        }
        let offset = self.rng.below(size);
        let there = size - offset;
        let part = self.rng.between(1, there.min(longest));
        let all = if there <= longest { 0 } else { longest };
        (
            offset,
            self.rng.pick(&[part, part, all, there.min(longest)]),
        )
    }

    /// Offset and length about the end of the file, or far past it.
    fn bad_range(&mut self, size: usize) -> (usize, usize) {
        let offset = self.rng.below(size);
        self.rng.pick(&[
            (size, 0),
            (size - 1, 2),
            (size + 1, 1),
            (offset, size - offset + 1),
            (offset, 0xff_ffff),
            (0xff_ffff, 0xff_ffff),
        ])
    }

    pub(super) fn write(&mut self) -> Vec<u8> {
        let ins = Native::WriteData;
        let file = self.file_for(ins);
        let mode = self.tag.mode_of(ins, &header(file, 0, 0));
        let longest = longest_data(mode).min(self.rng.pick(&[16, 64, 256]));
        let (mut offset, mut length) = self.good_range(file.size(), longest);
        length = if length == 0 {
            file.size() - offset
        } else {
            length
        };
        let mut size = length;
        if self.slip() {
            match self.rng.below(6) {
                0 => (length, size) = (0, 0),
                1 => length += 1,
                2 => size = size.saturating_sub(1),
                3 => offset = 0xff_ffff,
                _ => offset = file.size() - length + self.rng.pick(&[1, 2, length]),
            }
        }
        let data = self.rng.bytes(size);
        let mut fields = header(file, offset, length);
        fields[0] = self.file_byte(file);
        self.close(ins, &fields, &data)
    }
}

/// File number, offset and length.
pub(super) fn header(file: FileNo, offset: usize, length: usize) -> [u8; 7] {
    let ([a, b, c], [d, e, f]) = (three(offset), three(length));
    [file.number(), a, b, c, d, e, f]
}

/// The longest read in a mode.
fn longest(mode: Option<Mode>) -> usize {
    match mode {
        Some(Mode::Full) => 239,
        Some(Mode::Mac) => 248,
        _ => 256,
    }
}

/// The longest write in a mode.
fn longest_data(mode: Option<Mode>) -> usize {
    match mode {
        Some(Mode::Full) => 239,
        Some(Mode::Mac) => 240,
        _ => 248,
    }
}
