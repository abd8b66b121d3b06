//! Captures of frames without a header: clean, damaged, read with other agreed values
//! than the sender's, and badly written.

use crate::spelling::{
    frame_text, frame_words, marked, marked_again, plainly, spelled, Word, AGREED_SF, BAD_FLAGS,
    BAD_LENGTHS, BAD_RATES, BAD_SPREADING,
};
use crate::tally::Outcome::{self, Accepted, Refused, Repaired, Told};
use crate::{frames, tally};
use reference::cases::{self, Fate};
use reference::random::Random;
use reference::text::{self, Capture};
use reference::types::Expected;
use reference::words::behind_mark;
use reference::MOST_BYTES;

/// The refusals of read without a header, and 14. 4 can't occur, since the programs'
/// lists are large enough.
pub const REFUSALS: [Outcome; 8] = [
    Refused(1),
    Refused(2),
    Refused(3),
    Refused(5),
    Refused(6),
    Refused(7),
    Refused(12),
    Refused(14),
];

const CLEAN: [Outcome; 4] = [
    Told("accepted without repairs at 4/5"),
    Told("accepted without repairs at 4/6"),
    Told("accepted without repairs at 4/7"),
    Told("accepted without repairs at 4/8"),
];
/// Acceptances with repairs. Those at 4/5 and 4/6 are of block 0.
pub const HURT: [Outcome; 4] = [
    Told("accepted with repairs at 4/5"),
    Told("accepted with repairs at 4/6"),
    Told("accepted with repairs at 4/7"),
    Told("accepted with repairs at 4/8"),
];
const CHECKSUM: [Outcome; 2] = [
    Told("accepted with the checksum off"),
    Told("accepted with the checksum on"),
];
const LOW: [Outcome; 2] = [
    Told("accepted with low rate off"),
    Told("accepted with low rate on"),
];
const EMPTY: Outcome = Told("accepted, of no bytes");
const FULL: Outcome = Told("accepted, of 255 bytes");

/// What frames must have been accepted.
pub const VALUES: [Outcome; 10] = [
    CLEAN[0],
    CLEAN[1],
    CLEAN[2],
    CLEAN[3],
    CHECKSUM[0],
    CHECKSUM[1],
    LOW[0],
    LOW[1],
    EMPTY,
    FULL,
];

/// A line between the others.
pub const WITH_HEADER: Outcome = Told("a line for a frame with a header");

/// The text of one line, mostly of a frame without a header; every seventh is for one
/// with a header.
pub fn text(line: usize, last: bool, random: &mut Random) -> Vec<u8> {
    if line % 7 == 5 && !last {
        return frames::text(line, last, random);
    }
    capture(line, last, random)
}

/// The text of one line, of a frame without a header.
pub fn capture(line: usize, last: bool, random: &mut Random) -> Vec<u8> {
    let payload = cases::payload(random);
    let settings = cases::settings(line % cases::SETTINGS).without_header(payload.len());
    if last {
        let frame = cases::frame(Fate::Clean, &settings, &payload, random);
        return frame_text(&frame, random);
    }
    let frame = cases::any_frame(&settings, &payload, random);
    let mut words = frame_words(&frame);
    let bad_values: [(usize, &[u16]); 3] = [
        (0, &BAD_LENGTHS),
        (1, &BAD_RATES),
        (AGREED_SF, &BAD_SPREADING),
    ];
    for (place, bad) in bad_values {
        if random.once_in(20) {
            words[place] = Word::Number(random.pick(bad));
        }
    }
    if random.once_in(8) {
        bad_text(&words, random)
    } else {
        marked(&spelled(&words, random), random)
    }
}

/// A text that can't be taken, made from one that can.
fn bad_text(good: &[Word], random: &mut Random) -> Vec<u8> {
    let mut words = plainly(good);
    match random.below(8) {
        0 | 1 => return marked_again(&spelled(good, random), random),
        // The mark behind a number.
        2 => {
            words.insert(1 + random.below(words.len()), "=".to_string());
            return words.join(" ").into_bytes();
        }
        3 => words.truncate(random.below(AGREED_SF + 2)),
        4 => words[2] = random.pick(&BAD_FLAGS).to_string(),
        _ => return marked(&frames::bad_text(good, AGREED_SF, random), random),
    }
    marked(words.join(" ").as_bytes(), random)
}

/// What the answer to a line of the reading program says.
pub fn outcomes(line: &[u8], answer: &[u8]) -> Vec<Outcome> {
    outcomes_of(line, line, tally::outcomes(line, answer))
}

/// These outcomes of a line, and the values of its capture, if that was accepted. Of
/// a line for a frame with a header nothing but that it is one.
pub fn outcomes_of(line: &[u8], capture: &[u8], mut outcomes: Vec<Outcome>) -> Vec<Outcome> {
    if behind_mark(line).is_none() {
        return vec![WITH_HEADER];
    }
    outcomes.extend(values(capture, outcomes[0]));
    outcomes
}

/// The values of a capture of a frame without a header, if it was accepted.
pub fn values(capture: &[u8], outcome: Outcome) -> Vec<Outcome> {
    let rates = match outcome {
        Accepted => CLEAN,
        Repaired => HURT,
        _ => return Vec::new(),
    };
    let Ok(Capture {
        low,
        expected:
            Expected::Agreed {
                length,
                cr,
                checksum,
            },
        ..
    }) = text::capture(capture)
    else {
        return Vec::new();
    };
    let mut values = vec![
        rates[usize::from(cr) - 1],
        CHECKSUM[usize::from(checksum)],
        LOW[usize::from(low)],
    ];
    match length {
        0 => values.push(EMPTY),
        MOST_BYTES => values.push(FULL),
        _ => {}
    }
    values
}
