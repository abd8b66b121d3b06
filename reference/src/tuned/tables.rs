//! The tables, worked out by the compiler.

use crate::MOST_BYTES;

/// In `READING` for a word that can't be read; all others are nibbles.
pub const UNREADABLE: u8 = 0x80;

/// Codewords by CR - 1 and nibble.
const CODEWORDS: [[u8; 16]; 4] = codewords();
/// Codewords with bit j moved to the bottom of lane j.
pub const SPREAD: [[u128; 16]; 4] = spread();
/// What a word reads as, by CR - 1.
pub const READING: [[u8; 256]; 4] = reading();
/// A one in byte j where bit j of a word has to be repaired, by CR - 1.
pub const HURTS: [[u64; 256]; 4] = hurts();
pub const WHITENING: [u8; MOST_BYTES] = whitening();
/// Remainders of t * x^16.
pub const REMAINDERS: [u16; 256] = remainders();
/// Check bits c4 to c0 by the twelve bits of length, CR and flag, as
/// length * 16 + CR * 2 + flag.
pub const CHECKS: [u8; 4096] = checks();

const fn parity(masked: u16) -> u8 {
    (masked.count_ones() & 1) as u8
}

const fn codewords() -> [[u8; 16]; 4] {
    // The nibble bits behind each parity bit, p0 first.
    const PARITIES: [[u16; 4]; 4] = [
        [0b1111, 0, 0, 0],
        [0b0111, 0b1110, 0, 0],
        [0b0111, 0b1110, 0b1011, 0],
        [0b0111, 0b1110, 0b1011, 0b1101],
    ];
    let mut table = [[0; 16]; 4];
    let mut at = 0;
    while at < 4 * 16 * 4 {
        let (rate, nibble, bit) = (at / 64, at / 4 % 16, at % 4);
        if bit == 0 {
            table[rate][nibble] = nibble as u8;
        }
        table[rate][nibble] |= parity(nibble as u16 & PARITIES[rate][bit]) << (4 + bit);
        at += 1;
    }
    table
}

const fn spread() -> [[u128; 16]; 4] {
    let mut table = [[0; 16]; 4];
    let mut at = 0;
    while at < 4 * 16 * 8 {
        let (rate, nibble, bit) = (at / 128, at / 8 % 16, at % 8);
        let set = CODEWORDS[rate][nibble] >> bit & 1;
        table[rate][nibble] |= (set as u128) << (16 * bit);
        at += 1;
    }
    table
}

const fn reading() -> [[u8; 256]; 4] {
    let mut table = [[UNREADABLE; 256]; 4];
    let mut at = 0;
    while at < 4 * 256 * 16 {
        let (rate, word, nibble) = (at / 4096, at / 16 % 256, at % 16);
        let distance = (CODEWORDS[rate][nibble] ^ word as u8).count_ones();
        if distance == 0 || distance == 1 && rate >= 2 {
            table[rate][word] = nibble as u8;
        }
        at += 1;
    }
    table
}

const fn hurts() -> [[u64; 256]; 4] {
    let mut table = [[0; 256]; 4];
    let mut at = 2 * 16 * 8;
    while at < 4 * 16 * 8 {
        let (rate, nibble, bit) = (at / 128, at / 8 % 16, at % 8);
        // A word at 4/7 has no bit 7.
        if bit < rate + 5 {
            table[rate][(CODEWORDS[rate][nibble] ^ 1 << bit) as usize] = 1 << (8 * bit);
        }
        at += 1;
    }
    table
}

const fn whitening() -> [u8; MOST_BYTES] {
    let mut table = [0xFF; MOST_BYTES];
    let mut at = 1;
    while at < MOST_BYTES {
        let last = table[at - 1];
        table[at] = last << 1 | parity(last as u16 & 0b1011_1000);
        at += 1;
    }
    table
}

const fn remainders() -> [u16; 256] {
    let mut table = [0; 256];
    let mut at = 0;
    while at < 256 {
        let mut remainder = (at as u16) << 8;
        let mut step = 0;
        while step < 8 {
            let carry = remainder >> 15;
            remainder = remainder << 1 ^ (carry * 0x1021);
            step += 1;
        }
        table[at] = remainder;
        at += 1;
    }
    table
}

const fn checks() -> [u8; 4096] {
    // The header bits behind c0 to c4: a3 is bit 11, b3 bit 7, e3 bit 3.
    const SUMS: [u16; 5] = [
        0b0001_0011_1111,
        0b0010_0101_0111,
        0b0100_1001_1010,
        0b1000_1110_0001,
        0b1111_0000_0000,
    ];
    let mut table = [0; 4096];
    let mut at = 0;
    while at < 4096 * 5 {
        table[at / 5] |= parity((at / 5) as u16 & SUMS[at % 5]) << (at % 5);
        at += 1;
    }
    table
}
