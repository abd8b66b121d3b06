//! Whitening and the payload checksum.

use crate::MOST_BYTES;

/// The whitening bytes w0 to w254.
pub fn whitening() -> [u8; MOST_BYTES] {
    let mut bytes = [0xFF; MOST_BYTES];
    for i in 1..MOST_BYTES {
        let last = bytes[i - 1];
        let parity = (last >> 7 ^ last >> 5 ^ last >> 4 ^ last >> 3) & 1;
        bytes[i] = (last << 1) + parity;
    }
    bytes
}

/// Payload XOR whitening, which undoes itself.
pub fn whitened(payload: &[u8]) -> Vec<u8> {
    payload
        .iter()
        .zip(whitening())
        .map(|(byte, w)| byte ^ w)
        .collect()
}

/// The remainder of the payload by x^16 + x^12 + x^5 + 1, first byte highest,
/// with no multiplication by x^16 first.
pub fn checksum(payload: &[u8]) -> u16 {
    let mut remainder: u32 = 0;
    for byte in payload {
        for bit in (0..8).rev() {
            remainder = remainder << 1 | u32::from(byte >> bit & 1);
            if remainder >= 0x1_0000 {
                remainder ^= 0x1_1021;
            }
        }
    }
    remainder as u16
}
