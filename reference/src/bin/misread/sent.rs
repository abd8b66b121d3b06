//! A frame that was sent, and what became of it.

use reference::cases::any_symbol;
use reference::random::Random;
use reference::types::{Expected, Settings};
use reference::{product, MOST_BYTES, MOST_SYMBOLS};
use std::fmt;

/// A frame as it was sent.
pub struct Sent {
    payload: Vec<u8>,
    pub symbols: Vec<u16>,
}

impl Sent {
    /// A frame with a random payload of so many bytes.
    pub fn new(settings: &Settings, length: usize, random: &mut Random) -> Sent {
        let payload = random.bytes(length);
        let mut symbols = vec![0; MOST_SYMBOLS];
        let count = product::code(settings, &payload, &mut symbols).expect("a good frame");
        symbols.truncate(count);
        Sent { payload, symbols }
    }

    /// The symbols, and so many random ones behind them.
    pub fn followed(&self, further: usize, sf: u8, random: &mut Random) -> Vec<u16> {
        let behind = (0..further).map(|_| any_symbol(sf, random));
        self.symbols.iter().copied().chain(behind).collect()
    }

    /// What comes of reading these symbols for the sent ones.
    pub fn read_as(&self, sf: u8, low: bool, expected: Expected, symbols: &[u16]) -> Outcome {
        let (mut out, mut hurts) = ([0; MOST_BYTES], [0; MOST_SYMBOLS]);
        match product::read(sf, low, expected, symbols, &mut out, &mut hurts) {
            Err(_) => Outcome::Refused,
            Ok(received) if out[..received.header.length] == self.payload => Outcome::Right,
            Ok(received) => Outcome::Wrong {
                repairs: received.repairs,
            },
        }
    }
}

pub enum Outcome {
    Right,
    Refused,
    /// Accepted, and the payload is not the sent one.
    Wrong {
        repairs: usize,
    },
}

/// How often each outcome came.
#[derive(Default)]
pub struct Tally {
    right: usize,
    refused: usize,
    wrong: usize,
    /// The fewest repairs of a wrong one.
    pub fewest: Option<usize>,
}

impl Tally {
    pub fn add(&mut self, outcome: Outcome) {
        match outcome {
            Outcome::Right => self.right += 1,
            Outcome::Refused => self.refused += 1,
            Outcome::Wrong { repairs } => {
                self.wrong += 1;
                let fewest = self.fewest.map_or(repairs, |fewest| fewest.min(repairs));
                self.fewest = Some(fewest);
            }
        }
    }
}

impl fmt::Display for Tally {
    fn fmt(&self, f: &mut fmt::Formatter) -> fmt::Result {
        write!(f, "{} / {} / {}", self.right, self.refused, self.wrong)
    }
}

/// Code rate and checksum as tables show them.
pub fn rate_cells(cr: u8, checksum: bool) -> String {
    let checksum = if checksum { "on" } else { "off" };
    format!("4/{} | {checksum}", cr + 4)
}
