//! The program that keeps a day: captures in, the day's file out, and on standard
//! error what the file can't hold.

use crate::plain::day::{self, Day, Frame, RefusedFrame, Setting, NUMBERS};
use crate::text::{self, Capture};
use crate::types::Refusal;
use crate::words::{lines, refusal_line};

/// The file of these captures, one a line, and the lines on standard error.
pub fn keep(input: &[u8]) -> (Result<Vec<u8>, Refusal>, String) {
    let mut day = Day::default();
    let mut errors = String::new();
    let mut told = 0;
    for (i, line) in lines(input).into_iter().enumerate() {
        if let Err(refusal) = enter(line, &mut day) {
            errors += &format!("line {}: {}", i + 1, refusal_line(refusal));
            told += 1;
        }
    }
    let file = day::write(&day);
    errors += &match &file {
        Ok(_) => {
            let repaired = day.frames.iter().filter(|frame| frame.repairs > 0).count();
            let (frames, refused) = (day.frames.len(), day.refused.len());
            format!("kept {frames} {repaired} {refused} {told}\n")
        }
        Err(refusal) => refusal_line(*refusal),
    };
    (file, errors)
}

/// Reads a capture and enters what came out, unless the file can't hold it. Both
/// kinds of frames are entered alike.
fn enter(line: &[u8], day: &mut Day) -> Result<(), Refusal> {
    let capture = text::capture(line)?;
    match capture.read() {
        Ok(text::Frame {
            received, payload, ..
        }) => {
            let setting = setting_of(&capture, day);
            day.frames.push(Frame {
                setting,
                cr: received.header.cr,
                flag: received.header.checksum.into(),
                repairs: received.repairs as u16,
                payload,
            });
            Ok(())
        }
        Err(Refusal { number, place }) if NUMBERS.contains(&number) => {
            let setting = setting_of(&capture, day);
            day.refused.push(RefusedFrame {
                setting,
                number,
                place: place as u16,
            });
            Ok(())
        }
        Err(other) => Err(other),
    }
}

/// The index of a capture's setting, which is new at its first use.
fn setting_of(capture: &Capture, day: &mut Day) -> u8 {
    let setting = Setting {
        sf: capture.sf,
        low: capture.low.into(),
    };
    let known = day.settings.iter().position(|earlier| *earlier == setting);
    let index = known.unwrap_or_else(|| {
        day.settings.push(setting);
        day.settings.len() - 1
    });
    index as u8
}
