//! Commands of CLA 00, and noise.

use super::Talk;
use crate::command::{Iso, Native};
use crate::reader::{iso, wrap};
use crate::settings::FileNo;

/// Selects.
impl Talk {
    fn select(&mut self, p1: u8, data: &[u8]) -> Vec<u8> {
        let p2 = self.rng.pick(&[0x00, 0x0c]);
        let le = self.rng.pick(&[None, None, Some(0x00), Some(0x20)]);
        iso(Iso::SelectFile, [p1, p2], data, le)
    }

    fn select_id(&mut self, id: u16) -> Vec<u8> {
        let p1 = self.rng.pick(&[0, 1, 2]);
        self.select(p1, &id.to_be_bytes())
    }

    fn select_name(&mut self, last: u8) -> Vec<u8> {
        self.select(4, &[0xd2, 0x76, 0x00, 0x00, 0x85, 0x01, last])
    }

    pub(super) fn select_application(&mut self) -> Vec<u8> {
        match self.rng.chance(50) {
            true => self.select_id(0xe110),
            false => self.select_name(1),
        }
    }

    pub(super) fn select_picc(&mut self) -> Vec<u8> {
        let p1 = self.rng.pick(&[0, 1, 2]);
        match self.rng.below(3) {
            0 => self.select_id(0x3f00),
            1 => self.select_name(0),
            _ => self.select(p1, &[]),
        }
    }

    pub(super) fn select_file(&mut self) -> Vec<u8> {
        let id = self.rng.weighted(&[(2, 0xe103), (6, 0xe104), (3, 0xe105)]);
        self.select_id(id)
    }

    /// Wrong ids, names, lengths, P1 and P2.
    pub(super) fn select_odd(&mut self) -> Vec<u8> {
        let near = 0xe100 + self.rng.below(0x13) as u16;
        let (p1, p2) = (self.rng.byte(), self.rng.byte());
        let length = self.rng.pick(&[1, 3, 4, 16]);
        let data = self.rng.bytes(length);
        match self.rng.below(6) {
            0 => self.select_id(near),
            1 => self.select_name(p1),
            2 => self.select(4, &data),
            3 => self.select(4, &[]),
            4 => self.select(0, &data),
            _ => iso(
                Iso::SelectFile,
                [p1 & 7, p2 & 15],
                &near.to_be_bytes(),
                None,
            ),
        }
    }
}

/// Reads, updates and noise.
impl Talk {
    /// The selected file, or a select first.
    fn selected_or_select(&mut self) -> Result<FileNo, Vec<u8>> {
        match self.tag.selected() {
            Some(FileNo::Two) => Ok(FileNo::Two),
            Some(_) if self.may_tap() => Err(self.select_id(0xe104)),
            Some(file) => Ok(file),
            None if self.rng.chance(20) => Ok(FileNo::Two),
            None => Err(self.select_file()),
        }
    }

    pub(super) fn iso_read(&mut self) -> Vec<u8> {
        let file = match self.selected_or_select() {
            Ok(file) => file,
            Err(select) => return select,
        };
        if self.slip() {
            return self.iso_read_badly(file);
        }
        let (offset, length) = self.good_range(file.size(), 256);
        let le = if length > 255 { 0 } else { length as u8 };
        iso(Iso::ReadBinary, place(offset), &[], Some(le))
    }

    /// Le too long or missing, data, bit 7 of P1, an offset past the end.
    fn iso_read_badly(&mut self, file: FileNo) -> Vec<u8> {
        let offset = self.rng.below(file.size());
        let there = file.size() - offset;
        let over = (there + 1).min(255) as u8;
        let past = file.size() + self.rng.below(3);
        let le = self.rng.byte();
        let [p1, p2] = place(offset);
        let read = |place, data: &[u8], le| iso(Iso::ReadBinary, place, data, le);
        match self.rng.below(8) {
            0 => read([p1, p2], &[], Some(over)),
            1 => read([p1, p2], &[], Some(0xff)),
            2 => read([p1, p2], &[], None),
            3 => read([p1, p2], &[le], Some(le)),
            4 => read([p1 | 0x80, p2], &[], Some(le)),
            5 => read(place(past), &[], Some(le)),
            6 => read([p1, p2], &[], Some(le)),
            _ => read([le, p2], &[], Some(0)),
        }
    }

    pub(super) fn iso_update(&mut self) -> Vec<u8> {
        let file = match self.selected_or_select() {
            Ok(file) => file,
            Err(select) => return select,
        };
        let most = self.rng.pick(&[8, 32, 255]);
        let offset = self.rng.below(file.size());
        let there = file.size() - offset;
        let length = self.rng.between(1, there.min(most));
        let data = self.rng.bytes(length);
        if self.slip() || self.rng.chance(8) {
            return self.iso_update_badly(file, offset, &data);
        }
        iso(Iso::UpdateBinary, place(offset), &data, None)
    }

    /// Le, no data, bit 7 of P1, past the end.
    fn iso_update_badly(&mut self, file: FileNo, offset: usize, data: &[u8]) -> Vec<u8> {
        let [p1, p2] = place(offset);
        let past = file.size() + self.rng.below(3);
        let over = file.size() - data.len() + 1;
        let update = |place, data: &[u8], le| iso(Iso::UpdateBinary, place, data, le);
        match self.rng.below(8) {
            0 => update([p1, p2], data, Some(0)),
            1 => update([p1, p2], &[], None),
            2 => update([p1, p2], &[], Some(1)),
            3 => update([p1 | 0x80, p2], data, None),
            4 => update(place(past), data, None),
            _ => update(place(over), data, None),
        }
    }

    /// Random bytes, or a known instruction with random data.
    pub(super) fn noise(&mut self) -> Vec<u8> {
        let most = self.rng.weighted(&[(9, 20), (1, 264)]);
        let length = self.rng.between(1, most);
        let mut bytes = self.rng.bytes(length);
        let ins = self.rng.pick(&Native::ALL);
        match self.rng.below(4) {
            0 => bytes,
            1 => {
                bytes[0] = self.rng.pick(&[0x00, 0x90]);
                bytes
            }
            2 => {
                let ins = self.rng.pick(&Iso::ALL);
                let p1p2 = self.rng.array();
                iso(ins, p1p2, &bytes[..length.min(255)], None)
            }
            _ => wrap(ins, &bytes[..length.min(255)]),
        }
    }
}

/// An offset as P1 P2.
fn place(offset: usize) -> [u8; 2] {
    (offset as u16).to_be_bytes()
}
