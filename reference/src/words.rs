//! What the programs' texts have in common: lines, the mark, words, numbers, hex and
//! the line of a refusal.

use crate::types::Refusal;

/// The input cut at byte 10; an empty piece at the end is no line.
pub fn lines(input: &[u8]) -> Vec<&[u8]> {
    let mut pieces: Vec<&[u8]> = input.split(|byte| *byte == b'\n').collect();
    if pieces.last().is_some_and(|last| last.is_empty()) {
        pieces.pop();
    }
    pieces
}

/// What stands behind the mark `=`, if a line has it as its first byte that is not
/// a space: it says a frame without a header (document 02, Ask 4).
pub fn behind_mark(line: &[u8]) -> Option<&[u8]> {
    let first = line.iter().position(|byte| *byte != b' ')?;
    line[first..].strip_prefix(b"=")
}

/// The words between separators. One or more separators stand between two
/// words, and may stand first and last.
pub fn words(text: &[u8], separator: fn(u8) -> bool) -> impl Iterator<Item = &[u8]> {
    text.split(move |byte| separator(*byte))
        .filter(|word| !word.is_empty())
}

/// A whole number 0 to 65535 of one to five decimal digits.
pub fn number(word: &[u8]) -> Option<u16> {
    if word.is_empty() || word.len() > 5 {
        return None;
    }
    let mut number: u32 = 0;
    for byte in word {
        if !byte.is_ascii_digit() {
            return None;
        }
        number = 10 * number + u32::from(byte - b'0');
    }
    u16::try_from(number).ok()
}

/// A number as the byte that SF and CR are. One beyond a byte is as wrong as
/// 255, and must not be cut down to one that is right.
pub fn byte(number: u16) -> u8 {
    u8::try_from(number).unwrap_or(u8::MAX)
}

/// A payload in capital hex, a hyphen if it is empty.
pub fn hex(payload: &[u8]) -> String {
    if payload.is_empty() {
        return "-".to_string();
    }
    payload.iter().map(|byte| format!("{byte:02X}")).collect()
}

/// The line that a program prints for a refusal.
pub fn refusal_line(Refusal { number, place }: Refusal) -> String {
    format!("no {number} {place}\n")
}
