//! AES-128 after FIPS 197. Every table is computed from the arithmetic of the field. Each block is
//! counted where it is computed (02, request 10).

use std::cell::Cell;

/// One block of sixteen bytes.
pub type Block = [u8; 16];

const ROUNDS: usize = 10;

thread_local! {
    /// The blocks that this thread has computed; a key schedule is none.
    static BLOCKS: Cell<usize> = const { Cell::new(0) };
}

/// What the work gives, and how many blocks it computed.
pub fn counted<T>(work: impl FnOnce() -> T) -> (T, usize) {
    let before = BLOCKS.get();
    let given = work();
    (given, BLOCKS.get() - before)
}

fn count_block() {
    BLOCKS.set(BLOCKS.get() + 1);
}

/// What the rounds look up: SubBytes and its inverse, and the column that MixColumns
/// (after SubBytes) or InvMixColumns makes of one byte in row 0.
struct Tables {
    sub: [u8; 256],
    unsub: [u8; 256],
    mixed: [u32; 256],
    unmixed: [u32; 256],
}

static TABLES: Tables = Tables::compute();

/// The field element times x, modulo x^8 + x^4 + x^3 + x + 1.
const fn times_x(a: u8) -> u8 {
    let carry = a >> 7;
    (a << 1) ^ (carry * 0x1b)
}

/// The product of two field elements.
const fn times(a: u8, b: u8) -> u8 {
    let (mut shifted, mut left, mut sum) = (a, b, 0);
    while left != 0 {
        if left & 1 == 1 {
            sum ^= shifted;
        }
        shifted = times_x(shifted);
        left >>= 1;
    }
    sum
}

/// The affine step of SubBytes.
const fn affine(a: u8) -> u8 {
    a ^ a.rotate_left(1) ^ a.rotate_left(2) ^ a.rotate_left(3) ^ a.rotate_left(4) ^ 0x63
}

impl Tables {
    /// Walks the powers of the generator 3 beside those of its inverse F6, so that each
    /// element meets its own inverse.
    const fn compute() -> Tables {
        let mut tables = Tables {
            sub: [0; 256],
            unsub: [0; 256],
            mixed: [0; 256],
            unmixed: [0; 256],
        };
        let (mut element, mut inverse, mut step) = (1u8, 1u8, 0);
        while step < 255 {
            tables.enter(element, affine(inverse));
            element = times(element, 0x03);
            inverse = times(inverse, 0xf6);
            step += 1;
        }
        tables.enter(0, affine(0));
        tables
    }

    /// Enters one element with what SubBytes makes of it.
    const fn enter(&mut self, element: u8, image: u8) {
        self.sub[element as usize] = image;
        self.unsub[image as usize] = element;
        self.mixed[element as usize] =
            u32::from_be_bytes([times(image, 2), image, image, times(image, 3)]);
        self.unmixed[element as usize] = u32::from_be_bytes([
            times(element, 0x0e),
            times(element, 0x09),
            times(element, 0x0d),
            times(element, 0x0b),
        ]);
    }
}

/// Byte `row` of a column; row 0 stands highest.
fn at(column: u32, row: usize) -> usize {
    (column >> (24 - 8 * row)) as usize & 0xff
}

/// A block as four columns, and back.
fn columns(block: &Block) -> [u32; 4] {
    std::array::from_fn(|c| {
        u32::from_be_bytes([
            block[4 * c],
            block[4 * c + 1],
            block[4 * c + 2],
            block[4 * c + 3],
        ])
    })
}

fn block(columns: [u32; 4]) -> Block {
    std::array::from_fn(|i| at(columns[i / 4], i % 4) as u8)
}

/// A key with its round keys.
#[derive(Clone)]
pub struct Aes {
    round_keys: [[u32; 4]; ROUNDS + 1],
}

impl Aes {
    pub fn new(key: &Block) -> Aes {
        let mut round_keys = [columns(key); ROUNDS + 1];
        let mut constant = 1;
        for round in 1..=ROUNDS {
            round_keys[round] = next_round_key(round_keys[round - 1], constant);
            constant = times_x(constant);
        }
        Aes { round_keys }
    }

    /// The cipher.
    pub fn encrypt(&self, plain: &Block) -> Block {
        count_block();
        let mut state = add(columns(plain), self.round_keys[0]);
        for round in 1..ROUNDS {
            state = add(mixed_round(state), self.round_keys[round]);
        }
        block(add(last_round(state), self.round_keys[ROUNDS]))
    }

    /// The inverse cipher.
    pub fn decrypt(&self, sealed: &Block) -> Block {
        count_block();
        let mut state = add(columns(sealed), self.round_keys[ROUNDS]);
        for round in (1..ROUNDS).rev() {
            state = unmix(add(unshift(state), self.round_keys[round]));
        }
        block(add(unshift(state), self.round_keys[0]))
    }
}

/// KeyExpansion: four words from the four before them.
fn next_round_key(key: [u32; 4], constant: u8) -> [u32; 4] {
    let mut next = key;
    next[0] ^= sub_word(key[3].rotate_left(8)) ^ (u32::from(constant) << 24);
    for c in 1..4 {
        next[c] ^= next[c - 1];
    }
    next
}

fn sub_word(word: u32) -> u32 {
    u32::from_be_bytes(word.to_be_bytes().map(|b| TABLES.sub[b as usize]))
}

/// AddRoundKey.
fn add(state: [u32; 4], key: [u32; 4]) -> [u32; 4] {
    std::array::from_fn(|c| state[c] ^ key[c])
}

/// SubBytes, ShiftRows and MixColumns at once.
fn mixed_round(state: [u32; 4]) -> [u32; 4] {
    std::array::from_fn(|c| {
        TABLES.mixed[at(state[c], 0)]
            ^ TABLES.mixed[at(state[(c + 1) % 4], 1)].rotate_right(8)
            ^ TABLES.mixed[at(state[(c + 2) % 4], 2)].rotate_right(16)
            ^ TABLES.mixed[at(state[(c + 3) % 4], 3)].rotate_right(24)
    })
}

/// SubBytes and ShiftRows.
fn last_round(state: [u32; 4]) -> [u32; 4] {
    std::array::from_fn(|c| {
        u32::from_be_bytes(std::array::from_fn(|row| {
            TABLES.sub[at(state[(c + row) % 4], row)]
        }))
    })
}

/// InvShiftRows and InvSubBytes.
fn unshift(state: [u32; 4]) -> [u32; 4] {
    std::array::from_fn(|c| {
        u32::from_be_bytes(std::array::from_fn(|row| {
            TABLES.unsub[at(state[(c + 4 - row) % 4], row)]
        }))
    })
}

/// InvMixColumns.
fn unmix(state: [u32; 4]) -> [u32; 4] {
    state.map(|column| {
        TABLES.unmixed[at(column, 0)]
            ^ TABLES.unmixed[at(column, 1)].rotate_right(8)
            ^ TABLES.unmixed[at(column, 2)].rotate_right(16)
            ^ TABLES.unmixed[at(column, 3)].rotate_right(24)
    })
}

#[cfg(test)]
mod tests {
    use super::*;

    #[test]
    fn sub_bytes_is_the_affine_step_of_the_inverse() {
        for a in 0..=255u8 {
            let inverse = (0..=255).find(|&b| times(a, b) == 1).unwrap_or(0);
            assert_eq!(TABLES.sub[a as usize], affine(inverse));
            assert_eq!(TABLES.unsub[TABLES.sub[a as usize] as usize], a);
        }
    }

    #[test]
    fn the_example_of_fips_197() {
        let key: Block = std::array::from_fn(|i| i as u8);
        let plain: Block = std::array::from_fn(|i| 0x11 * i as u8);
        let sealed: Block = 0x69c4e0d86a7b0430d8cdb78070b4c55au128.to_be_bytes();
        assert_eq!(Aes::new(&key).encrypt(&plain), sealed);
        assert_eq!(Aes::new(&key).decrypt(&sealed), plain);
    }

    #[test]
    fn blocks_count_both_ways_and_key_schedules_do_not() {
        let (key, schedule) = counted(|| Aes::new(&[7; 16]));
        assert_eq!(schedule, 0);
        assert_eq!(counted(|| key.encrypt(&[1; 16])).1, 1);
        assert_eq!(counted(|| key.decrypt(&key.encrypt(&[1; 16]))).1, 2);
    }
}
