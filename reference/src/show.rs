//! The program that shows a day's file, a line for each entry.

use crate::plain::day;
use crate::words::{hex, refusal_line};

/// The lines that the program prints for this file.
pub fn show(file: &[u8]) -> Vec<u8> {
    let day = match day::judge(file) {
        Ok(day) => day,
        Err(refusal) => return refusal_line(refusal).into_bytes(),
    };
    let mut lines = Vec::new();
    for (index, setting) in day.settings.iter().enumerate() {
        lines.push(format!("setting {index} {} {}\n", setting.sf, setting.low));
    }
    for frame in &day.frames {
        lines.push(format!(
            "frame {} {} {} {} {} {}\n",
            frame.setting,
            frame.cr,
            frame.flag,
            frame.repairs,
            frame.payload.len(),
            hex(&frame.payload)
        ));
    }
    for refused in &day.refused {
        lines.push(format!(
            "refused {} {} {}\n",
            refused.setting, refused.number, refused.place
        ));
    }
    lines.push(format!("end {} {}\n", day.frames.len(), day.refused.len()));
    lines.concat().into_bytes()
}
