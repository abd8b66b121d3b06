//! The program that tells which symbols were hurt (document 02, Ask 3): a capture
//! in, one line out. It is `ok` and, for each symbol with repaired bits,
//! ` INDEX:COUNT`; or the reading program's line of a refusal.

use crate::text;
use crate::words::refusal_line;

/// The line that the program prints for this capture.
pub fn answer_line(capture: &[u8]) -> Vec<u8> {
    let line = match text::frame(capture) {
        Ok(frame) => {
            let hurt = frame
                .hurts
                .iter()
                .enumerate()
                .filter(|(_, &count)| count > 0);
            let words: String = hurt.map(|(i, count)| format!(" {i}:{count}")).collect();
            format!("ok{words}\n")
        }
        Err(refusal) => refusal_line(refusal),
    };
    line.into_bytes()
}
