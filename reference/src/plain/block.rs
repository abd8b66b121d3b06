//! Blocks, the diagonal and the Gray step.

use super::codeword::codeword;

/// The shape of a block.
pub struct Block {
    /// Codewords in the block, N.
    pub n: usize,
    pub cr: u8,
    /// Symbol numbers are 4 x value: whenever N is SF - 2.
    four_wide: bool,
}

impl Block {
    /// Block 0.
    pub fn first(sf: u8) -> Block {
        Block {
            n: usize::from(sf) - 2,
            cr: 4,
            four_wide: true,
        }
    }

    /// Any later block.
    pub fn later(sf: u8, low: bool, cr: u8) -> Block {
        let n = if low {
            usize::from(sf) - 2
        } else {
            usize::from(sf)
        };
        Block {
            n,
            cr,
            four_wide: low,
        }
    }

    /// Symbols in the block.
    pub fn width(&self) -> usize {
        usize::from(self.cr) + 4
    }

    /// The symbols of up to N nibbles, the places left over taking whole words
    /// from `filler`.
    pub fn code(&self, nibbles: &[u8], filler: &mut dyn FnMut() -> u8) -> Vec<u16> {
        let mut rows: Vec<u8> = nibbles
            .iter()
            .map(|&nibble| codeword(nibble, self.cr))
            .collect();
        while rows.len() < self.n {
            rows.push(filler());
        }
        (0..self.width())
            .map(|j| self.number(self.column(&rows, j)))
            .collect()
    }

    /// The N words that the block's symbols carry, read or not.
    pub fn words(&self, symbols: &[u16]) -> Vec<u8> {
        let mut rows = vec![0; self.n];
        for (j, &symbol) in symbols.iter().enumerate() {
            let word = self.word(symbol);
            for k in 0..self.n {
                rows[(j + k) % self.n] |= ((word >> k & 1) as u8) << j;
            }
        }
        rows
    }

    fn column(&self, rows: &[u8], j: usize) -> u16 {
        (0..self.n)
            .map(|k| u16::from(rows[(j + k) % self.n] >> j & 1) << k)
            .sum()
    }

    fn number(&self, word: u16) -> u16 {
        if self.four_wide {
            4 * value(word)
        } else {
            value(word)
        }
    }

    fn word(&self, symbol: u16) -> u16 {
        let value = if self.four_wide {
            self.value_read(symbol)
        } else {
            symbol
        };
        value ^ (value / 2)
    }

    /// The value that a number is read as at the four-wide spacing (document 02,
    /// Ask 2). There N is SF - 2, so the values are those below 2^N.
    fn value_read(&self, symbol: u16) -> u16 {
        (symbol + 2) / 4 % (1 << self.n)
    }

    /// The drift of a number at the four-wide spacing: its signed distance from
    /// its mark, 4 x the value read from it, round the circle of 2^SF numbers.
    pub fn drift(&self, symbol: u16) -> i8 {
        let circle = 4 << self.n;
        let mark = 4 * self.value_read(symbol);
        let mut distance = i32::from(symbol) - i32::from(mark);
        // The last two numbers have the mark 0, which comes right after them.
        if distance > circle / 2 {
            distance -= circle;
        }
        distance as i8
    }
}

/// The symbol value of a word: at each bit the XOR of the word's bits at that
/// place and all above it.
pub fn value(word: u16) -> u16 {
    (0..16).fold(0, |sum, shift| sum ^ word >> shift)
}

#[cfg(test)]
mod tests {
    use super::*;

    /// Going from the mark by the drift, round the circle, leads to the number.
    #[test]
    fn mark_and_drift_make_the_number() {
        for sf in 7..=12 {
            let first = Block::first(sf);
            let circle = 1 << sf;
            for symbol in 0..circle {
                let mark = 4 * i32::from(first.value_read(symbol as u16));
                let drift = i32::from(first.drift(symbol as u16));
                assert!((0..circle).contains(&mark), "SF {sf}: {symbol}");
                assert!((-2..=1).contains(&drift), "SF {sf}: {symbol}");
                assert_eq!((mark + drift).rem_euclid(circle), symbol, "SF {sf}");
            }
        }
    }
}
