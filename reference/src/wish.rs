//! The coding program: a line that says what to send in, a line of symbols out.
//!
//! A line is `SF low CR flag payload`, the payload in hex of either case or `-`
//! if empty; only spaces stand between words. The answer is `SF low symbol ..`,
//! as the reading program takes it, or `no NUMBER PLACE`. A line for a frame without
//! a header has the mark `=` and the agreed length before it, and its answer is a
//! capture of such a frame, `= length CR flag SF low symbol ..`.

use crate::types::{refuse, Kind, Refusal, Settings};
use crate::words::{behind_mark, byte, number, refusal_line, words};
use crate::{plain, MOST_SYMBOLS};

/// What a line asks for.
struct Wish {
    settings: Settings,
    payload: Vec<u8>,
}

/// The line that the program prints for this one, which is given without the
/// byte 10 at its end.
pub fn answer_line(line: &[u8]) -> Vec<u8> {
    let answer = match capture(line) {
        Ok(capture) => capture + "\n",
        Err(refusal) => refusal_line(refusal),
    };
    answer.into_bytes()
}

/// The capture of the frame that a line asks for.
fn capture(line: &[u8]) -> Result<String, Refusal> {
    // The whole text is judged before its meaning.
    let Some(Wish { settings, payload }) = wish(line) else {
        return refuse(14, 0);
    };
    let mut symbols = [0; MOST_SYMBOLS];
    let count = plain::code(&settings, &payload, &mut symbols)?;
    let Settings { sf, low, kind } = settings;
    let mut words = match kind {
        Kind::Explicit { .. } => Vec::new(),
        Kind::Agreed {
            length,
            cr,
            checksum,
        } => vec![
            "=".to_string(),
            length.to_string(),
            cr.to_string(),
            u8::from(checksum).to_string(),
        ],
    };
    words.extend([sf, u8::from(low)].map(|number| number.to_string()));
    words.extend(symbols[..count].iter().map(u16::to_string));
    Ok(words.join(" "))
}

fn wish(line: &[u8]) -> Option<Wish> {
    let Some(text) = behind_mark(line) else {
        return with_header(&words_of(line));
    };
    let words = words_of(text);
    let (length, words) = words.split_first()?;
    let length = usize::from(number(length)?);
    let Wish { settings, payload } = with_header(words)?;
    Some(Wish {
        settings: settings.without_header(length),
        payload,
    })
}

fn words_of(text: &[u8]) -> Vec<&[u8]> {
    words(text, |byte| byte == b' ').collect()
}

fn with_header(words: &[&[u8]]) -> Option<Wish> {
    let [sf, low, cr, checksum, payload] = words else {
        return None;
    };
    let settings = Settings {
        sf: byte(number(sf)?),
        low: flag(low)?,
        kind: Kind::Explicit {
            cr: byte(number(cr)?),
            checksum: flag(checksum)?,
        },
    };
    let payload = payload_of(payload)?;
    Some(Wish { settings, payload })
}

fn flag(word: &[u8]) -> Option<bool> {
    match number(word)? {
        0 => Some(false),
        1 => Some(true),
        _ => None,
    }
}

fn payload_of(word: &[u8]) -> Option<Vec<u8>> {
    if word == b"-" {
        return Some(Vec::new());
    }
    word.chunks(2)
        .map(|pair| match pair {
            [high, low] => Some(digit(*high)? << 4 | digit(*low)?),
            _ => None,
        })
        .collect()
}

fn digit(byte: u8) -> Option<u8> {
    char::from(byte).to_digit(16).map(|value| value as u8)
}
