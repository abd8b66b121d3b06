//! The programs that read: text in, one line out. `lora_read` takes document 01's
//! text. The programs that take captures, a line each, take besides the mark `=`,
//! the agreed length, CR and flag of a frame without a header, and then document
//! 01's text.

use crate::types::{refuse, Expected, Received, Refusal};
use crate::words::{behind_mark, byte, hex, number, refusal_line, words};
use crate::{plain, MOST_BYTES, MOST_SYMBOLS};

/// The line that `lora_read` prints for this input.
pub fn answer_line(text: &[u8]) -> Vec<u8> {
    line_of(judged(with_header(text)).and_then(|capture| capture.read()))
}

/// The line that `lora_lines` prints for this capture.
pub fn capture_line(line: &[u8]) -> Vec<u8> {
    line_of(frame(line))
}

fn line_of(frame: Result<Frame, Refusal>) -> Vec<u8> {
    let line = match frame {
        Ok(Frame {
            received, payload, ..
        }) => {
            let Received {
                header,
                symbols,
                repairs,
                // The line keeps its fields (document 02, Ask 2).
                drift: _,
            } = received;
            let flag = u8::from(header.checksum);
            let hex = hex(&payload);
            format!(
                "ok {} {} {flag} {symbols} {repairs} {hex}\n",
                header.length, header.cr
            )
        }
        Err(refusal) => refusal_line(refusal),
    };
    line.into_bytes()
}

/// What reading a text gives: the answer and what it filled of the lent lists.
pub struct Frame {
    pub received: Received,
    pub payload: Vec<u8>,
    pub hurts: Vec<u8>,
}

/// Judges a capture and reads the frame that it says.
pub fn frame(line: &[u8]) -> Result<Frame, Refusal> {
    capture(line)?.read()
}

/// What a text says: what was heard, and with which settings.
pub struct Capture {
    pub sf: u8,
    pub low: bool,
    pub expected: Expected,
    symbols: Vec<u16>,
}

impl Capture {
    pub fn read(&self) -> Result<Frame, Refusal> {
        let mut payload = vec![0; MOST_BYTES];
        let mut hurts = vec![0; MOST_SYMBOLS];
        let received = plain::read(
            self.sf,
            self.low,
            self.expected,
            &self.symbols,
            &mut payload,
            &mut hurts,
        )?;
        payload.truncate(received.header.length);
        hurts.truncate(received.symbols);
        Ok(Frame {
            received,
            payload,
            hurts,
        })
    }
}

/// Judges the whole line, before its meaning.
pub fn capture(line: &[u8]) -> Result<Capture, Refusal> {
    judged(match behind_mark(line) {
        Some(text) => without_header(text),
        None => with_header(line),
    })
}

fn judged(capture: Option<Capture>) -> Result<Capture, Refusal> {
    match capture {
        Some(capture) => Ok(capture),
        None => refuse(14, 0),
    }
}

fn with_header(text: &[u8]) -> Option<Capture> {
    heard(&numbers(text)?, Expected::Explicit)
}

/// The text behind the mark.
fn without_header(text: &[u8]) -> Option<Capture> {
    let numbers = numbers(text)?;
    let [length, cr, flag @ (0 | 1), rest @ ..] = &numbers[..] else {
        return None;
    };
    let expected = Expected::Agreed {
        length: usize::from(*length),
        cr: byte(*cr),
        checksum: *flag == 1,
    };
    heard(rest, expected)
}

/// The numbers of document 01's text.
fn heard(numbers: &[u16], expected: Expected) -> Option<Capture> {
    let [sf, low @ (0 | 1), symbols @ ..] = numbers else {
        return None;
    };
    if symbols.len() > MOST_SYMBOLS {
        return None;
    }
    Some(Capture {
        sf: byte(*sf),
        low: *low == 1,
        expected,
        symbols: symbols.to_vec(),
    })
}

fn numbers(text: &[u8]) -> Option<Vec<u16>> {
    words(text, |byte| byte == b' ' || byte == b'\n')
        .map(number)
        .collect()
}
