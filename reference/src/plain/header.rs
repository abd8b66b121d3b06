//! The header's five nibbles.

use crate::types::{refuse, Header, Refusal};

/// The check bits c4 to c0 of the first three nibbles, c4 first.
fn check_bits(a: u8, b: u8, e: u8) -> [u8; 5] {
    let bit = |nibble: u8, place: u8| nibble >> place & 1;
    let (a0, a1, a2, a3) = (bit(a, 0), bit(a, 1), bit(a, 2), bit(a, 3));
    let (b0, b1, b2, b3) = (bit(b, 0), bit(b, 1), bit(b, 2), bit(b, 3));
    let (e0, e1, e2, e3) = (bit(e, 0), bit(e, 1), bit(e, 2), bit(e, 3));
    [
        a3 ^ a2 ^ a1 ^ a0,
        a3 ^ b3 ^ b2 ^ b1 ^ e0,
        a2 ^ b3 ^ b0 ^ e3 ^ e1,
        a1 ^ b2 ^ b0 ^ e2 ^ e1 ^ e0,
        a0 ^ b1 ^ b0 ^ e3 ^ e2 ^ e1 ^ e0,
    ]
}

/// The five nibbles for three given ones: the check bits come behind them.
pub fn with_check_bits(a: u8, b: u8, e: u8) -> [u8; 5] {
    let [c4, c3, c2, c1, c0] = check_bits(a, b, e);
    [a, b, e, c4, c3 << 3 | c2 << 2 | c1 << 1 | c0]
}

/// The five nibbles of a header.
pub fn nibbles(header: &Header) -> [u8; 5] {
    let length = header.length as u8;
    with_check_bits(
        length >> 4,
        length & 15,
        header.cr << 1 | u8::from(header.checksum),
    )
}

/// The header of five nibbles. Refusals 9, 10 and 11, in this order.
pub fn header(given: [u8; 5]) -> Result<Header, Refusal> {
    let [a, b, e, fourth, fifth] = given;
    let wanted = with_check_bits(a, b, e);
    // 9 looks at the five check bits only; the three bits above c4 are 10's.
    if [fourth & 1, fifth] != [wanted[3], wanted[4]] {
        return refuse(9, 0);
    }
    if fourth >> 1 != 0 {
        return refuse(10, 0);
    }
    let cr = e >> 1;
    if !(1..=4).contains(&cr) {
        return refuse(11, 0);
    }
    Ok(Header {
        length: usize::from(a) << 4 | usize::from(b),
        cr,
        checksum: e & 1 == 1,
    })
}
