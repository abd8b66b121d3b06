//! Lines for the reading program: frames clean, damaged and badly written.

use crate::spelling::{
    blank, frame_words, intruded, plainly, spelled, Word, BAD_FLAGS, BAD_NUMBERS, BAD_SPREADING,
};
use crate::tally::Outcome::{self, Refused, Repaired};
use reference::cases::{self, Fate};
use reference::random::Random;

/// The refusals that the reading program can give, and repairs. 4 can't occur,
/// since the program's buffer is large enough.
pub const WANTED: [Outcome; 10] = [
    Refused(1),
    Refused(5),
    Refused(6),
    Refused(7),
    Refused(9),
    Refused(10),
    Refused(11),
    Refused(12),
    Refused(14),
    Repaired,
];

/// The text of one line.
pub fn text(line: usize, last: bool, random: &mut Random) -> Vec<u8> {
    let settings = cases::settings(line % cases::SETTINGS);
    let fate = if last {
        Fate::Clean
    } else {
        random.pick(&cases::FATES)
    };
    let payload = cases::payload(random);
    let frame = cases::frame(fate, &settings, &payload, random);
    let mut words = frame_words(&frame);
    if last {
        return spelled(&words, random);
    }
    match random.below(40) {
        0 => {
            words[0] = Word::Number(random.pick(&BAD_SPREADING));
            spelled(&words, random)
        }
        1..=6 => bad_text(&words, 0, random),
        _ => spelled(&words, random),
    }
}

/// A text that can't be taken, made from one that can, in which the SF has this
/// index. The low-rate flag and the symbols are behind it.
pub fn bad_text(good: &[Word], sf: usize, random: &mut Random) -> Vec<u8> {
    let mut words = plainly(good);
    let low = sf + 1;
    match random.below(16) {
        0 => words.clear(),
        1 => return blank(random).into_bytes(),
        2 => words.truncate(low),
        3 => words[low] = random.pick(&BAD_FLAGS).to_string(),
        // The text is judged before its meaning.
        4 => {
            words[sf] = "6".to_string();
            words[low] = "2".to_string();
        }
        5 => words.resize(low + 1 + 833, "0".to_string()),
        6 => words.resize(low + 1 + 834 + random.below(600), "1".to_string()),
        7 => words.push("70000".to_string()),
        8 | 9 => {
            let place = random.below(words.len());
            words[place] = random.pick(&BAD_NUMBERS).to_string();
        }
        10 => {
            let place = random.below(words.len());
            words[place].insert(0, '-');
        }
        11 => words.last_mut().unwrap().push('\r'),
        _ => return intruded(good, random),
    }
    words.join(" ").into_bytes()
}
