//! Reading a file, and the tap: counter and mirrors of Secure Dynamic Messaging (9.3).

use std::ops::Range;

use super::{Call, Padding, Phase, Random, ReadKind, Tag, Tap, LAST_COUNTER};
use crate::aes::Aes;
use crate::bytes::{hex_bytes, three};
use crate::crypto::{cbc_encrypt, Cmac};
use crate::settings::{FileNo, FileRead, Meta, Sdm, Span};

/// Why a tap doesn't start.
pub(super) enum TapRefusal {
    Limit,
    Overflow,
}

const ENC_LABEL: [u8; 6] = [0xc3, 0x3c, 0x00, 0x01, 0x00, 0x80];
const MAC_LABEL: [u8; 6] = [0x3c, 0xc3, 0x00, 0x01, 0x00, 0x80];

impl Tag {
    /// The bytes of a file in a range that lies in it. Without session an SDM-enabled file
    /// is read with its mirrors, and a tap runs from there on.
    pub(super) fn read(
        &mut self,
        file: FileNo,
        range: Range<usize>,
        kind: ReadKind,
        call: &Call,
    ) -> Result<Vec<u8>, TapRefusal> {
        if self.session().is_some() || self.settings(file).sdm.is_none() {
            return Ok(self.file(file).bytes[range].to_vec());
        }
        let tap = match call.tap.filter(|tap| tap.kind == kind) {
            Some(tap) => tap,
            None => self.start_tap(file, kind, call.random)?,
        };
        self.set_phase(Phase::Tap(tap));
        let mut text = self.mirrored(file, &tap.padding);
        text.truncate(range.end);
        text.drain(..range.start);
        Ok(text)
    }

    /// The limit, then the overflow, else one more; the padding is drawn.
    fn start_tap(
        &mut self,
        file: FileNo,
        kind: ReadKind,
        random: &Random,
    ) -> Result<Tap, TapRefusal> {
        let limit = self.settings(file).sdm.as_ref().and_then(|sdm| sdm.limit);
        if limit.is_some_and(|limit| self.counter >= limit) {
            return Err(TapRefusal::Limit);
        }
        if self.counter == LAST_COUNTER {
            return Err(TapRefusal::Overflow);
        }
        self.counter += 1;
        let [padding @ .., _, _, _, _, _, _, _, _] = *random;
        Ok(Tap { kind, padding })
    }

    /// The file with its mirrors laid over it.
    fn mirrored(&self, file: FileNo, padding: &Padding) -> Vec<u8> {
        let mut text = self.file(file).bytes.clone();
        if let Some(sdm) = &self.settings(file).sdm {
            self.mirror_meta(&sdm.meta, padding, &mut text);
            if let Some(read) = &sdm.file_read {
                self.mirror_file_read(sdm, read, &mut text);
            }
        }
        text
    }

    /// UID and counter in plain, high byte first, or the block of PICCData.
    fn mirror_meta(&self, meta: &Meta, padding: &Padding, text: &mut [u8]) {
        match meta {
            Meta::Off => (),
            Meta::Plain { uid, counter } => {
                let mut number = three(self.counter);
                number.reverse();
                uid.iter().for_each(|at| lay(text, *at, &self.uid));
                counter.iter().for_each(|at| lay(text, *at, &number));
            }
            Meta::Encrypted { key, offset, .. } => {
                let block = self.picc_data(meta, padding);
                lay(text, *offset, &self.kx(*key).encrypt(&block));
            }
        }
    }

    /// PICCDataTag, what is mirrored, and the front of the padding.
    fn picc_data(&self, meta: &Meta, padding: &Padding) -> [u8; 16] {
        let mut tag = 0;
        if meta.mirrors_uid() {
            tag |= 0x80 | 7;
        }
        if meta.mirrors_counter() {
            tag |= 0x40;
        }
        fill(&[&[tag], &self.mirrored_names(meta), padding])
    }

    /// UID and counter, low byte first, where each is mirrored.
    fn mirrored_names(&self, meta: &Meta) -> Vec<u8> {
        let mut names = Vec::with_capacity(10);
        if meta.mirrors_uid() {
            names.extend(self.uid);
        }
        if meta.mirrors_counter() {
            names.extend(three(self.counter));
        }
        names
    }

    /// ENC, then the MAC over the mirrored file from input start to before the MAC.
    fn mirror_file_read(&self, sdm: &Sdm, read: &FileRead, text: &mut [u8]) {
        let names = self.mirrored_names(&sdm.meta);
        let source = Cmac::new(self.kx(read.key));
        let draw = |label: [u8; 6]| Aes::new(&source.of(&[&fill(&[&label, &names])]));
        if let Some(enc) = &read.enc {
            self.mirror_enc(&draw(ENC_LABEL), enc, text);
        }
        let mac = Cmac::new(draw(MAC_LABEL)).short(&[&text[read.mac_input..read.mac]]);
        lay(text, read.mac, &mac);
    }

    /// The first half of the span, encrypted, over the whole span.
    fn mirror_enc(&self, key: &Aes, span: &Span, text: &mut [u8]) {
        let iv = key.encrypt(&fill(&[&three(self.counter)]));
        let mut data = text[span.start..span.start + span.length / 2].to_vec();
        cbc_encrypt(key, iv, &mut data);
        lay(text, span.start, &data);
    }
}

/// Lays bytes over the text as capital hexadecimal.
fn lay(text: &mut [u8], start: usize, bytes: &[u8]) {
    for (place, letter) in text[start..].iter_mut().zip(hex_bytes(bytes)) {
        *place = letter;
    }
}

/// A block from parts one behind the other: zeros to 16, and nothing past 16.
fn fill(parts: &[&[u8]]) -> [u8; 16] {
    let mut block = [0; 16];
    for (place, byte) in block.iter_mut().zip(parts.iter().copied().flatten()) {
        *place = *byte;
    }
    block
}
