//! CBC after SP 800-38A, CMAC after SP 800-38B, and the padding, shortened MAC and CRC
//! that the data sheet builds on them.

use crate::aes::{Aes, Block};

/// Anything that encrypts one block: all that CMAC asks of a cipher.
pub trait BlockCipher {
    fn encrypt_block(&self, plain: &Block) -> Block;
}

impl BlockCipher for Aes {
    fn encrypt_block(&self, plain: &Block) -> Block {
        self.encrypt(plain)
    }
}

fn xor(a: &Block, b: &Block) -> Block {
    (u128::from_ne_bytes(*a) ^ u128::from_ne_bytes(*b)).to_ne_bytes()
}

/// CBC encryption of whole blocks in place; bytes behind the last whole block stay.
pub fn cbc_encrypt(key: &Aes, iv: Block, text: &mut [u8]) {
    let mut chain = iv;
    for block in text.as_chunks_mut::<16>().0 {
        chain = key.encrypt(&xor(block, &chain));
        *block = chain;
    }
}

/// CBC decryption of whole blocks in place; bytes behind the last whole block stay.
pub fn cbc_decrypt(key: &Aes, iv: Block, text: &mut [u8]) {
    let mut chain = iv;
    for block in text.as_chunks_mut::<16>().0 {
        let sealed = *block;
        *block = xor(&key.decrypt(&sealed), &chain);
        chain = sealed;
    }
}

/// CMAC under one key.
#[derive(Clone)]
pub struct Cmac<C> {
    cipher: C,
}

impl<C: BlockCipher> Cmac<C> {
    pub fn new(cipher: C) -> Cmac<C> {
        Cmac { cipher }
    }

    /// The CMAC of the parts, one behind the other. The subkeys are made anew for each message:
    /// their block counts each time (02, request 10).
    pub fn of(&self, parts: &[&[u8]]) -> Block {
        let mut chain = [0; 16];
        let mut filled = 0;
        for byte in parts.iter().copied().flatten() {
            if filled == 16 {
                chain = self.cipher.encrypt_block(&chain);
                filled = 0;
            }
            chain[filled] ^= byte;
            filled += 1;
        }
        let mut subkey = double(&self.cipher.encrypt_block(&[0; 16]));
        if filled < 16 {
            chain[filled] ^= 0x80;
            subkey = double(&subkey);
        }
        self.cipher.encrypt_block(&xor(&chain, &subkey))
    }

    /// The CMAC's second, fourth and every further even place.
    pub fn short(&self, parts: &[&[u8]]) -> [u8; 8] {
        let long = self.of(parts);
        std::array::from_fn(|i| long[2 * i + 1])
    }
}

/// Doubling in the field of 2^128 elements.
fn double(block: &Block) -> Block {
    let number = u128::from_be_bytes(*block);
    let carry = number >> 127;
    ((number << 1) ^ (carry * 0x87)).to_be_bytes()
}

/// Padding: 80 and zeros, always added.
pub fn pad(text: &mut Vec<u8>) {
    text.push(0x80);
    text.resize(text.len().next_multiple_of(16), 0);
}

/// The length of a text that carries right padding, 1 to 16 bytes in all.
pub fn unpadded(text: &[u8]) -> Option<usize> {
    let zeros = text.iter().rev().take_while(|b| **b == 0).count();
    let mark = text.len().checked_sub(zeros + 1)?;
    (zeros < 16 && text[mark] == 0x80).then_some(mark)
}

/// The CRC of ChangeKey: reflected EDB88320h, start FFFFFFFFh, no final complement,
/// low byte first.
pub fn crc(text: &[u8]) -> [u8; 4] {
    let mut sum = u32::MAX;
    for byte in text {
        sum ^= u32::from(*byte);
        for _ in 0..8 {
            sum = (sum >> 1) ^ ((sum & 1) * 0xedb8_8320);
        }
    }
    sum.to_le_bytes()
}
