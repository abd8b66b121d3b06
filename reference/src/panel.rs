//! The program that tallies captures (document 02, Ask 6): captures in, one a line;
//! the control room's panel out, and the closing line on standard error.

use crate::plain::tally::Tally;
use crate::text;
use crate::types::Refusal;
use crate::words::lines;

/// The numbers of read in words, as the panel has them.
const WORDS: [(usize, &str); 11] = [
    (1, "SF not 7 to 12"),
    (2, "CR not 1 to 4"),
    (3, "length above 255"),
    (4, "room too short"),
    (5, "too few symbols"),
    (6, "symbol too large"),
    (7, "codeword not readable"),
    (9, "header check wrong"),
    (10, "header bit set"),
    (11, "header CR unknown"),
    (12, "payload checksum wrong"),
];

/// What the program knows of a run.
#[derive(Default)]
pub struct Panel {
    tally: Tally,
    texts: u64,
    /// Texts that are no capture, so that no frame was heard.
    no_capture: u64,
    /// Captures for whose outcome the tally had no room.
    not_counted: u64,
}

impl Panel {
    /// That of captures, one a line.
    pub fn new(input: &[u8]) -> Panel {
        let mut panel = Panel::default();
        panel.add(input);
        panel
    }

    /// That of a run which has come to this tally.
    pub fn after(tally: Tally) -> Panel {
        Panel {
            texts: tally.heard.into(),
            tally,
            ..Panel::default()
        }
    }

    pub fn add(&mut self, input: &[u8]) {
        for line in lines(input) {
            self.texts += 1;
            let outcome = text::frame(line).map(|frame| frame.received);
            match self.tally.hear(&outcome) {
                Ok(()) => {}
                // 14, which is no number of read.
                Err(Refusal { number: 16, .. }) => self.no_capture += 1,
                Err(_) => self.not_counted += 1,
            }
        }
    }

    /// The panel that the program prints.
    pub fn shown(&self) -> String {
        let Tally {
            heard,
            clean,
            repaired,
            refused,
        } = self.tally;
        let mut shown = format!(
            "frames heard: {heard}\naccepted clean: {clean}\naccepted repaired: {repaired}\n"
        );
        for (number, words) in WORDS {
            shown += &format!("refused {number}, {words}: {}\n", refused[number]);
        }
        shown += &format!("no capture, 14: {}\n", self.no_capture);
        shown += &format!("not counted, 17: {}\n", self.not_counted);
        shown
    }

    /// The line that the program, and `lora_lines` and `lora_hurt` too, end a good run
    /// with on standard error.
    pub fn closing(&self) -> String {
        let word = if self.not_counted == 0 { "end" } else { "full" };
        let Tally {
            clean,
            repaired,
            refused,
            ..
        } = self.tally;
        let refused: u64 = refused.into_iter().map(u64::from).sum();
        let refused = refused + self.no_capture;
        format!("{word} {} {clean} {repaired} {refused}\n", self.texts)
    }
}
