//! Byte strings: reading them from front to back, small numbers, hexadecimal.

/// A place in a byte string.
pub struct Cursor<'a> {
    rest: &'a [u8],
}

impl<'a> Cursor<'a> {
    pub fn new(bytes: &'a [u8]) -> Cursor<'a> {
        Cursor { rest: bytes }
    }

    /// The bytes not read yet.
    pub fn rest(&self) -> &'a [u8] {
        self.rest
    }

    /// The next `N` bytes, if they are there whole.
    pub fn take<const N: usize>(&mut self) -> Option<[u8; N]> {
        let (taken, rest) = self.rest.split_first_chunk::<N>()?;
        self.rest = rest;
        Some(*taken)
    }

    pub fn byte(&mut self) -> Option<u8> {
        self.take::<1>().map(|[b]| b)
    }

    /// A number of three bytes, low first.
    pub fn number(&mut self) -> Option<usize> {
        self.take::<3>()
            .map(|[a, b, c]| u32::from_le_bytes([a, b, c, 0]) as usize)
    }
}

/// A number as three bytes, low first.
pub fn three(number: usize) -> [u8; 3] {
    let [a, b, c, ..] = number.to_le_bytes();
    [a, b, c]
}

const DIGITS: &[u8; 16] = b"0123456789ABCDEF";

/// Capital hexadecimal as text bytes.
pub fn hex_bytes(bytes: &[u8]) -> impl Iterator<Item = u8> + '_ {
    bytes
        .iter()
        .flat_map(|b| [DIGITS[usize::from(b >> 4)], DIGITS[usize::from(b & 15)]])
}

/// Capital hexadecimal as text.
pub fn hex(bytes: &[u8]) -> String {
    hex_bytes(bytes).map(char::from).collect()
}

/// The bytes of capital hexadecimal, if it is just that.
pub fn unhex(text: impl AsRef<[u8]>) -> Option<Vec<u8>> {
    let digits: Option<Vec<u8>> = text.as_ref().iter().map(digit).collect();
    let digits = digits?;
    if digits.len() % 2 != 0 {
        return None;
    }
    Some(
        digits
            .chunks_exact(2)
            .map(|pair| pair[0] << 4 | pair[1])
            .collect(),
    )
}

fn digit(letter: &u8) -> Option<u8> {
    match letter {
        b'0'..=b'9' => Some(letter - b'0'),
        b'A'..=b'F' => Some(letter - b'A' + 10),
        _ => None,
    }
}
