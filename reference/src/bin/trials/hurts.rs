//! Lines for the program that tells which symbols were hurt: frames that are hurt
//! and can be read all the same, and lines of the reading program.

use crate::spelling::frame_text;
use crate::tally::Outcome::{self, Accepted, Refused, Repaired, Told};
use crate::{agreed, frames};
use reference::cases::hurts::{self, Way};
use reference::random::Random;
use reference::types::{Kind, Settings};
use reference::{cases, hurt, MOST_BYTES, MOST_SYMBOLS};

const TWICE: Outcome = Told("a symbol hurt more than once");
const TEN_TIMES: Outcome = Told("a symbol hurt ten times or more");
const BEHIND: Outcome = Told("a symbol hurt behind block 0");
const LAST: Outcome = Told("the last symbol of the largest frame hurt");
const MOST: Outcome = Told("as many symbols hurt as can be");

/// What hurts there can be, and none. The refusals are the reading program's.
pub const WANTED: [Outcome; 6] = [Accepted, TWICE, TEN_TIMES, BEHIND, LAST, MOST];

/// The settings of the largest frame.
const LARGEST: Settings = Settings {
    sf: 7,
    low: true,
    kind: Kind::Explicit {
        cr: 4,
        checksum: true,
    },
};

/// The most data codewords: those of 255 bytes and their checksum. With those of a
/// header these are the most that are read, and no more symbols can be hurt.
const MOST_DATA: usize = 2 * MOST_BYTES + 4;

/// Symbols of the largest frame without a header: one block of eight less.
const MOST_AGREED: usize = MOST_SYMBOLS - 8;

/// The text of one line. Every fifth is a line of the reading program, good or bad;
/// every fiftieth is of the largest frame.
pub fn text(line: usize, last: bool, random: &mut Random) -> Vec<u8> {
    let settings = cases::settings(line % cases::SETTINGS);
    match line % 50 {
        49 => largest_text(&LARGEST, random),
        place if place % 5 == 3 && !last => frames::text(line, last, random),
        _ => {
            let payload = cases::payload(random);
            let ways = random.pick(&hurts::WAYS);
            hurt_text(&settings, payload, ways, random)
        }
    }
}

/// The text of one line, mostly of a frame without a header. Every seventh is for a
/// frame with one; of the others every fifth is any capture, good or bad, and every
/// 25th is of the largest frame.
pub fn agreed_text(line: usize, last: bool, random: &mut Random) -> Vec<u8> {
    if line % 7 == 5 && !last {
        return text(line, last, random);
    }
    match line % 25 {
        24 => largest_text(&LARGEST.without_header(MOST_BYTES), random),
        place if place % 5 == 3 && !last => agreed::capture(line, last, random),
        _ => {
            let payload = cases::payload(random);
            let settings = cases::settings(line % cases::SETTINGS).without_header(payload.len());
            hurt_text(&settings, payload, random.pick(&hurts::WAYS), random)
        }
    }
}

fn largest_text(settings: &Settings, random: &mut Random) -> Vec<u8> {
    let payload = random.bytes(MOST_BYTES);
    let ways = random.pick(&[[Way::Symbol], [Way::Whole], [Way::Apart]]);
    hurt_text(settings, payload, &ways, random)
}

/// The text of a hurt frame, whose answer is known from how it was hurt.
fn hurt_text(settings: &Settings, payload: Vec<u8>, ways: &[Way], random: &mut Random) -> Vec<u8> {
    let hurts::Hurt { frame, hurts, .. } = hurts::frame(settings, payload, ways, random);
    let text = frame_text(&frame, random);
    assert_eq!(
        hurts_of(&hurt::answer_line(&text)),
        Ok(hurt_symbols(&hurts))
    );
    text
}

fn hurt_symbols(hurts: &[u8]) -> Vec<(usize, u8)> {
    let cells = hurts.iter().copied().enumerate();
    cells.filter(|(_, count)| *count > 0).collect()
}

/// The symbols and counts that a line tells, or the number of its refusal.
fn hurts_of(answer: &[u8]) -> Result<Vec<(usize, u8)>, u8> {
    let line = String::from_utf8_lossy(answer);
    let fields: Vec<&str> = line.split_ascii_whitespace().collect();
    match &fields[..] {
        ["no", number, _] => Err(number.parse().unwrap()),
        ["ok", hurts @ ..] => Ok(hurts.iter().map(|pair| symbol_and_count(pair)).collect()),
        _ => panic!("{line}"),
    }
}

fn symbol_and_count(pair: &str) -> (usize, u8) {
    let (symbol, count) = pair.split_once(':').unwrap();
    (symbol.parse().unwrap(), count.parse().unwrap())
}

/// What an answer's line says.
pub fn outcomes(_line: &[u8], answer: &[u8]) -> Vec<Outcome> {
    extents(answer, MOST_SYMBOLS, 5 + MOST_DATA)
}

/// What it says of a frame without a header.
pub fn agreed_outcomes(line: &[u8], answer: &[u8]) -> Vec<Outcome> {
    agreed::outcomes_of(line, line, extents(answer, MOST_AGREED, MOST_DATA))
}

/// What an answer's line says, the largest frame having so many symbols and codewords
/// that are read.
fn extents(answer: &[u8], symbols: usize, codewords: usize) -> Vec<Outcome> {
    let hurts = match hurts_of(answer) {
        Err(number) => return vec![Refused(number)],
        Ok(hurts) if hurts.is_empty() => return vec![Accepted],
        Ok(hurts) => hurts,
    };
    let most = hurts.iter().map(|(_, count)| *count).max().unwrap();
    let last = hurts.last().unwrap().0;
    let says = [
        (Repaired, true),
        (TWICE, most > 1),
        (TEN_TIMES, most >= 10),
        (BEHIND, last >= 8),
        (LAST, last == symbols - 1),
        (MOST, hurts.len() == codewords),
    ];
    says.into_iter()
        .filter_map(|(outcome, said)| said.then_some(outcome))
        .collect()
}
