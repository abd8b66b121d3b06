//! Lines for the coding program: payloads and settings good and bad, well and
//! badly written.

use crate::spelling::{
    blank, intruded, marked, marked_again, plainly, spelled, Word, BAD_FLAGS, BAD_LENGTHS,
    BAD_NUMBERS, BAD_RATES, BAD_SPREADING, MANY_SPACES,
};
use crate::tally::Outcome::{self, Accepted, Refused};
use crate::{agreed, tally};
use reference::random::Random;
use reference::types::Settings;
use reference::words::hex;
use reference::{cases, MOST_BYTES};

/// The refusals that the coding program can give. 4 can't occur, since the
/// program's list is large enough.
pub const WANTED: [Outcome; 5] = [Refused(1), Refused(2), Refused(3), Refused(14), Accepted];

/// Lengths around the most bytes, and some that would be short if cut to a byte.
const EDGES: [usize; 12] = [0, 1, 2, 253, 254, 255, 256, 257, 261, 511, 512, 600];

/// Lengths far beyond; the last two would be short if cut to 16 bits.
const LONG: [usize; 5] = [5_000, 10_000, 20_000, 65_536, 65_541];

/// Neighbours of the hex digits and other bytes that are none.
const NO_DIGITS: [char; 11] = ['/', ':', '@', 'G', '`', 'g', 'x', 'h', 'O', '-', '\u{7F}'];

/// Payload words with a hyphen that is not alone, a digit that is, or a mark of
/// hex before them.
const BAD_PAYLOADS: [&str; 13] = [
    "--", "---", "-00", "00-", "-0", "0-", "0-0", "-00-", "0", "F", "0x", "0x00", "x0",
];

/// Words that are one too many at the end.
const FURTHER: [&str; 4] = ["0", "-", "00", "x"];

/// The text of one line.
pub fn text(line: usize, last: bool, random: &mut Random) -> Vec<u8> {
    let payload = payload(random);
    let words = wish(line, &payload, random);
    if last {
        return spelled(&words, random);
    }
    written(words, random)
}

/// The text of one line, mostly for a frame without a header. Every seventh is one
/// for a frame with a header.
pub fn agreed_text(line: usize, last: bool, random: &mut Random) -> Vec<u8> {
    if line % 7 == 5 && !last {
        return text(line, last, random);
    }
    let payload = payload(random);
    // A length of more than 16 bits is cut down, and then not the payload's.
    let mut length = payload.len() as u16;
    if !last && random.once_in(6) {
        length = other_length(length, random);
    }
    let mut words = vec![Word::Number(length)];
    words.extend(wish(line, &payload, random));
    if last {
        return marked(&spelled(&words, random), random);
    }
    if random.once_in(40) {
        return marked_again(&spelled(&words, random), random);
    }
    marked(&written(words, random), random)
}

/// What the answer to a line for a frame without a header says: a capture, if it is
/// made.
pub fn agreed_outcomes(line: &[u8], answer: &[u8]) -> Vec<Outcome> {
    let capture = answer.strip_suffix(b"\n").expect("a line");
    agreed::outcomes_of(line, capture, tally::outcomes(line, answer))
}

/// Another length than this one, in range or not.
fn other_length(length: u16, random: &mut Random) -> u16 {
    match random.below(4) {
        0 => length.wrapping_add(1),
        1 => length.wrapping_sub(1),
        2 => random.pick(&BAD_LENGTHS),
        // Would come out right if cut to a byte.
        _ => length.wrapping_add(256),
    }
}

/// The words of a wish, in a text that is good or bad. SF and CR are out of range at
/// times.
fn written(mut words: Vec<Word>, random: &mut Random) -> Vec<u8> {
    let sf = words.len() - 5;
    if random.once_in(16) {
        words[sf] = Word::Number(random.pick(&BAD_SPREADING));
    }
    if random.once_in(16) {
        words[sf + 2] = Word::Number(random.pick(&BAD_RATES));
    }
    match random.below(80) {
        0 => far_apart(&words, random).into_bytes(),
        1..=24 => bad_text(&words, random),
        _ => spelled(&words, random),
    }
}

/// The words of a wish with the settings of this line.
fn wish(line: usize, payload: &[u8], random: &mut Random) -> Vec<Word> {
    let Settings { sf, low, kind } = cases::settings(line % cases::SETTINGS);
    vec![
        Word::Number(sf.into()),
        Word::Number(low.into()),
        Word::Number(kind.cr().into()),
        Word::Number(kind.checksum().into()),
        Word::Exact(digits(payload, random)),
    ]
}

/// A payload, mostly short, at times too long.
fn payload(random: &mut Random) -> Vec<u8> {
    let length = length(random);
    random.bytes(length)
}

fn length(random: &mut Random) -> usize {
    match random.below(200) {
        0 => random.pick(&LONG),
        1..=5 => MOST_BYTES + 1 + random.below(400),
        6..=35 => random.pick(&EDGES),
        36..=75 => random.below(MOST_BYTES + 1),
        _ => random.below(32),
    }
}

/// The payload in hex: capital, small or both.
fn digits(payload: &[u8], random: &mut Random) -> String {
    let capital = hex(payload);
    match random.below(3) {
        0 => capital,
        1 => capital.to_ascii_lowercase(),
        _ => capital
            .chars()
            .map(|digit| {
                if random.flag() {
                    digit.to_ascii_lowercase()
                } else {
                    digit
                }
            })
            .collect(),
    }
}

/// The words with many spaces between two of them.
fn far_apart(words: &[Word], random: &mut Random) -> String {
    let (front, back) = words.split_at(1 + random.below(words.len() - 1));
    let spaces = " ".repeat(MANY_SPACES);
    plainly(front).join(" ") + &spaces + &plainly(back).join(" ")
}

/// A text that can't be taken, made from one that can. The text is judged before
/// its meaning, so it does not matter that settings and length may be bad too.
fn bad_text(good: &[Word], random: &mut Random) -> Vec<u8> {
    let mut words = plainly(good);
    let payload = words.len() - 1;
    let (low, flag) = (payload - 3, payload - 1);
    let number = random.below(payload);
    match random.below(20) {
        0 => words.clear(),
        1 => return blank(random).into_bytes(),
        2 => words.truncate(1 + number),
        3 => {
            words.remove(number);
        }
        4 => words.push(random.pick(&FURTHER).to_string()),
        5 => words[low] = random.pick(&BAD_FLAGS).to_string(),
        6 => words[flag] = random.pick(&BAD_FLAGS).to_string(),
        7 => words[number] = random.pick(&BAD_NUMBERS).to_string(),
        8 => words[number] = "-".to_string(),
        9 => words[number].insert(0, '-'),
        10 => words[number].insert(0, random.pick(&['A', 'f'])),
        11 | 12 => words[payload] = random.pick(&BAD_PAYLOADS).to_string(),
        13 => words[payload] = one_digit_less(&words[payload]),
        14 => words[payload].push('0'),
        15 | 16 => words[payload] = spoiled(&words[payload], random),
        17 => words[payload].push('\r'),
        _ => return intruded(good, random),
    }
    words.join(" ").into_bytes()
}

/// An odd number of digits.
fn one_digit_less(payload: &str) -> String {
    match payload.split_at(payload.len() - 1) {
        // A hyphen has none to lose.
        ("", _) => "0".to_string(),
        (rest, _) => rest.to_string(),
    }
}

/// As many characters, one of them no digit: the last one at times, which comes
/// to light only when all others have been taken.
fn spoiled(payload: &str, random: &mut Random) -> String {
    let mut characters: Vec<char> = payload.chars().collect();
    if characters.len() < 2 {
        characters = vec!['0'; 2];
    }
    let last = characters.len() - 1;
    let place = if random.flag() {
        last
    } else {
        random.below(characters.len())
    };
    characters[place] = random.pick(&NO_DIGITS);
    characters.into_iter().collect()
}
