//! Decimal digits, for what the crate of this name does in the proved code.

/// The most digits that a number has.
const MOST_DIGITS: usize = 20;

/// The two digits of each number below 100.
const PAIRS: [[u8; 2]; 100] = {
    let mut pairs = [[b'0'; 2]; 100];
    let mut number = 0;
    while number < pairs.len() {
        pairs[number] = [b'0' + (number / 10) as u8, b'0' + (number % 10) as u8];
        number += 1;
    }
    pairs
};

/// Room for the digits of a number.
pub struct Buffer([u8; MOST_DIGITS]);

impl Buffer {
    pub fn new() -> Self {
        Buffer([0; MOST_DIGITS])
    }

    /// Returns the digits of a number.
    #[inline]
    pub fn format(&mut self, number: usize) -> &str {
        let mut start = MOST_DIGITS;
        let mut rest = number;
        while rest >= 10 {
            start -= 2;
            self.0[start..start + 2].copy_from_slice(&PAIRS[rest % 100]);
            rest /= 100;
        }
        if rest > 0 || start == MOST_DIGITS {
            start -= 1;
            self.0[start] = b'0' + rest as u8;
        }
        // SAFETY: these bytes are digits.
        unsafe { core::str::from_utf8_unchecked(&self.0[start..]) }
    }
}
