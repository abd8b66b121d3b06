//! One input to one of the five operations.

use reference::cases::{self, hurts};
use reference::plain;
use reference::random::Random;
use reference::types::{Expected, Kind, Settings};
use reference::{MOST_BYTES, MOST_SYMBOLS};

#[derive(Clone, Copy, Debug)]
pub enum Operation {
    Code,
    Read,
    Head,
    Count,
    Airtime,
}

/// All that the operations take; each looks at its own share.
#[derive(Debug)]
pub struct Case {
    pub operation: Operation,
    /// The sender's, or what a reader takes for the sender's.
    pub settings: Settings,
    /// The flags as bytes: 0 is off, any other byte is on.
    pub low: u8,
    pub checksum: u8,
    pub length: usize,
    pub khz: u16,
    pub preamble: u16,
    pub payload: Vec<u8>,
    pub symbols: Vec<u16>,
    /// Cells lent for symbols or bytes.
    pub out_len: usize,
    /// Cells lent for the hurts of symbols.
    pub hurts_len: usize,
    pub answer_len: usize,
}

impl Case {
    pub fn new(random: &mut Random) -> Case {
        use Operation::*;
        let operation = random.pick(&[Code, Code, Read, Read, Read, Read, Head, Count, Airtime]);
        let payload = payload(operation, random);
        let length = match operation {
            Count | Airtime => length(random),
            _ => payload.len(),
        };
        let mut settings = cases::settings(random.below(cases::SETTINGS));
        // Head takes frames with a header only.
        if !matches!(operation, Head) && random.flag() {
            settings = settings.without_header(length);
        }
        let mut symbols = Vec::new();
        let (mut out_len, mut hurts_len) = (0, 0);
        match operation {
            Code => {
                let needed = plain::count(&settings, length).unwrap_or(MOST_SYMBOLS);
                out_len = cells_around(needed, random);
            }
            Read | Head => {
                let frame = frame(&settings, &payload, random);
                let length = read_as(&frame, &mut settings).unwrap_or(length);
                symbols = frame.symbols;
                if random.once_in(16) {
                    symbols.truncate(random.below(12));
                }
                out_len = cells_around(length, random);
                hurts_len = if random.flag() {
                    MOST_SYMBOLS
                } else {
                    // The frame may be cut, and followed by others.
                    cells_around(plain::count(&settings, length).unwrap(), random)
                };
            }
            Count | Airtime => {}
        }
        spoil(&mut settings, random);
        Case {
            operation,
            settings,
            low: flag_byte(settings.low, random),
            checksum: flag_byte(settings.kind.checksum(), random),
            length,
            khz: khz(random),
            preamble: if random.flag() {
                random.below(20) as u16
            } else {
                random.number() as u16
            },
            payload,
            symbols,
            out_len,
            hurts_len,
            answer_len: if random.once_in(4) {
                random.below(9)
            } else {
                6 + random.below(3)
            },
        }
    }
}

/// A payload; to be coded, at times one about as long as can be, or longer.
fn payload(operation: Operation, random: &mut Random) -> Vec<u8> {
    if matches!(operation, Operation::Code) && random.once_in(16) {
        let length = MOST_BYTES - 2 + random.below(8);
        return random.bytes(length);
    }
    cases::payload(random)
}

/// A frame with any fate, every third one hurt so that it can be read.
fn frame(settings: &Settings, payload: &[u8], random: &mut Random) -> cases::Frame {
    if random.once_in(3) {
        let ways = random.pick(&hurts::WAYS);
        return hurts::frame(settings, payload.to_vec(), ways, random).frame;
    }
    cases::any_frame(settings, payload, random)
}

/// Makes the sender's settings the reader's. Answers the length that the reader
/// expects, if any.
fn read_as(frame: &cases::Frame, settings: &mut Settings) -> Option<usize> {
    (settings.sf, settings.low) = (frame.sf, frame.low);
    let Expected::Agreed {
        length,
        cr,
        checksum,
    } = frame.expected
    else {
        return None;
    };
    settings.kind = Kind::Agreed {
        length,
        cr,
        checksum,
    };
    Some(length)
}

/// Takes SF and CR out of range at times, and the agreed length, which may stay in
/// range and be another.
fn spoil(settings: &mut Settings, random: &mut Random) {
    if random.once_in(16) {
        settings.sf = if random.flag() {
            random.byte()
        } else {
            random.pick(&[0, 6, 13, 255])
        };
    }
    let (Kind::Explicit { cr, .. } | Kind::Agreed { cr, .. }) = &mut settings.kind;
    if random.once_in(16) {
        *cr = if random.flag() {
            random.byte()
        } else {
            random.pick(&[0, 5, 9, 255])
        };
    }
    if let Kind::Agreed { length: agreed, .. } = &mut settings.kind {
        if random.once_in(8) {
            *agreed = match random.below(4) {
                0 => agreed.wrapping_add(1),
                1 => agreed.wrapping_sub(1),
                // Would come out right if cut to a byte or to 16 bits.
                2 => agreed.wrapping_add(random.pick(&[256, 65_536, 1 << 32])),
                _ => length(random),
            };
        }
    }
}

fn flag_byte(flag: bool, random: &mut Random) -> u8 {
    match flag {
        false => 0,
        true if random.flag() => 1,
        true => 1 + random.below(255) as u8,
    }
}

/// Few cells, just enough, one too few or some to spare.
pub fn cells_around(needed: usize, random: &mut Random) -> usize {
    match random.below(8) {
        0 => random.below(needed + 1),
        1 => needed.saturating_sub(1),
        2 => random.below(4),
        3 | 4 => needed,
        _ => needed + random.below(40),
    }
}

fn length(random: &mut Random) -> usize {
    match random.below(8) {
        0 => random.number() as usize,
        1 => random.pick(&[
            255,
            256,
            257,
            511,
            65_536,
            65_541,
            usize::MAX,
            usize::MAX / 2 + 1,
        ]),
        _ => random.below(261),
    }
}

fn khz(random: &mut Random) -> u16 {
    match random.below(8) {
        0 => random.number() as u16,
        1 => random.pick(&[0, 1, 62, 124, 126, 249, 251, 381, 499, 501, 1000, u16::MAX]),
        _ => random.pick(&[125, 250, 500]),
    }
}
