//! Frames to try: clean, drifted, damaged, foreign and made up.

pub mod days;
pub mod hurts;

use crate::plain::{self, header};
use crate::random::Random;
use crate::types::{Expected, Kind, Settings};
use crate::{MOST_BYTES, MOST_SYMBOLS};

/// All 96 settings of frames with a header that are in range.
pub const SETTINGS: usize = 6 * 2 * 4 * 2;

/// The settings with this number below `SETTINGS`.
pub fn settings(number: usize) -> Settings {
    Settings {
        sf: 7 + (number % 6) as u8,
        low: number / 6 % 2 == 1,
        kind: Kind::Explicit {
            cr: 1 + (number / 12 % 4) as u8,
            checksum: number / 48 == 1,
        },
    }
}

/// A payload, mostly short, at times of full length.
pub fn payload(random: &mut Random) -> Vec<u8> {
    let length = match random.below(10) {
        0 => MOST_BYTES,
        1 | 2 => random.below(MOST_BYTES + 1),
        3 => random.below(3),
        _ => random.below(32),
    };
    random.bytes(length)
}

/// The steps from a symbol at the four-wide spacing that leave its value.
const WITHIN: [i8; 4] = [-2, -1, 0, 1];

/// What becomes of a frame.
#[derive(Clone, Copy, Debug)]
pub enum Fate {
    Clean,
    Drifted,
    ChangedSymbols,
    ChangedHeader,
    ChangedData,
    Cut,
    OutOfRange,
    Followed,
    ForeignFillers,
    Misread,
    Noise,
    /// Read with other agreed values than the sender's.
    Disagreed,
}

/// The fates of frames with a header, those with more to find more often.
pub const FATES: [Fate; 16] = [
    Fate::Clean,
    Fate::Drifted,
    Fate::Drifted,
    Fate::ChangedSymbols,
    Fate::ChangedSymbols,
    Fate::ChangedSymbols,
    Fate::ChangedSymbols,
    Fate::ChangedHeader,
    Fate::ChangedHeader,
    Fate::ChangedData,
    Fate::Cut,
    Fate::OutOfRange,
    Fate::Followed,
    Fate::ForeignFillers,
    Fate::Misread,
    Fate::Noise,
];

/// The fates of frames without one.
pub const AGREED_FATES: [Fate; 16] = [
    Fate::Clean,
    Fate::Drifted,
    Fate::Drifted,
    Fate::ChangedSymbols,
    Fate::ChangedSymbols,
    Fate::ChangedSymbols,
    Fate::ChangedSymbols,
    Fate::ChangedData,
    Fate::Cut,
    Fate::OutOfRange,
    Fate::Followed,
    Fate::ForeignFillers,
    Fate::Misread,
    Fate::Noise,
    Fate::Disagreed,
    Fate::Disagreed,
];

/// A frame as it comes to the reader.
#[derive(Clone, Debug)]
pub struct Frame {
    pub sf: u8,
    pub low: bool,
    pub expected: Expected,
    pub symbols: Vec<u16>,
}

/// A frame that has any of the fates that there are for its kind.
pub fn any_frame(settings: &Settings, payload: &[u8], random: &mut Random) -> Frame {
    let fates = match settings.kind {
        Kind::Explicit { .. } => FATES,
        Kind::Agreed { .. } => AGREED_FATES,
    };
    frame(random.pick(&fates), settings, payload, random)
}

/// A frame with this fate, sent with these settings.
pub fn frame(fate: Fate, settings: &Settings, payload: &[u8], random: &mut Random) -> Frame {
    let Settings {
        mut sf,
        mut low,
        kind,
    } = *settings;
    let mut expected = kind.expected();
    let mut head = plain::head_nibbles(kind, payload.len());
    let mut data = plain::data_nibbles(kind.checksum(), payload);
    match fate {
        Fate::ChangedHeader => change_header(&mut head, random),
        Fate::ChangedData => change_one(&mut data, random),
        _ => {}
    }
    let foreign = matches!(fate, Fate::ForeignFillers);
    let mut filler = || if foreign { random.byte() } else { 0 };
    let mut symbols = plain::frame(settings, &head, &data, &mut filler);
    match fate {
        Fate::Drifted => drift(&mut symbols, settings, random),
        Fate::ChangedSymbols => change_symbols(&mut symbols, settings, random),
        Fate::Cut => symbols.truncate(random.below(symbols.len())),
        Fate::OutOfRange => put_out_of_range(&mut symbols, sf, random),
        Fate::Followed => follow(&mut symbols, random),
        Fate::Misread => {
            if random.flag() {
                low = !low;
            } else {
                sf = 7 + random.below(6) as u8;
            }
        }
        Fate::Noise => symbols
            .iter_mut()
            .for_each(|symbol| *symbol = any_symbol(sf, random)),
        Fate::Disagreed => {
            expected = disagreed(expected, random);
            // A frame that is taken for a longer one needs others behind it.
            if random.flag() {
                follow(&mut symbols, random);
            }
        }
        _ => {}
    }
    Frame {
        sf,
        low,
        expected,
        symbols,
    }
}

/// The number so many steps on from a symbol, round the circle of 2^SF numbers.
pub fn moved(symbol: u16, steps: i8, sf: u8) -> u16 {
    (i32::from(symbol) + i32::from(steps)).rem_euclid(1 << sf) as u16
}

/// Any symbol number of this spreading factor.
pub fn any_symbol(sf: u8, random: &mut Random) -> u16 {
    random.below(1 << sf) as u16
}

/// One of the agreed values changed to another that is in range.
fn disagreed(expected: Expected, random: &mut Random) -> Expected {
    let Expected::Agreed {
        mut length,
        mut cr,
        mut checksum,
    } = expected
    else {
        return expected;
    };
    match random.below(4) {
        0 => length = random.below(MOST_BYTES + 1),
        // Near enough for the frame's own symbols, mostly.
        1 => length = (length + random.pick(&[1, 2, 253, 254, 255])) % (MOST_BYTES + 1),
        2 => cr = 1 + (cr + random.below(3) as u8) % 4,
        _ => checksum = !checksum,
    }
    Expected::Agreed {
        length,
        cr,
        checksum,
    }
}

/// Makes a header of good codewords say something wrong, if there is one.
fn change_header(nibbles: &mut [u8], random: &mut Random) {
    let &mut [a, b, e, ..] = nibbles else {
        return;
    };
    match random.below(6) {
        0 => nibbles[random.below(5)] ^= 1 << random.below(4),
        1 => nibbles[3] |= 2 + 2 * random.below(7) as u8,
        2 | 3 => {
            let e = random.pick(&[0, 10, 12, 14]) | e & 1;
            nibbles.copy_from_slice(&header::with_check_bits(a, b, e));
        }
        4 => {
            let a = a ^ random.byte() & 15;
            nibbles.copy_from_slice(&header::with_check_bits(a, b, e));
        }
        _ => {
            for nibble in nibbles {
                *nibble = random.byte() & 15;
            }
        }
    }
}

fn change_one(nibbles: &mut [u8], random: &mut Random) {
    if !nibbles.is_empty() {
        nibbles[random.below(nibbles.len())] ^= 1 + random.below(15) as u8;
    }
}

/// Moves the symbols at the four-wide spacing by -2 to +1 each, or all by the same
/// steps: their values stay. At times one goes a step beyond.
fn drift(symbols: &mut [u16], settings: &Settings, random: &mut Random) {
    let four_wide = if settings.low { symbols.len() } else { 8 };
    let same = random.flag().then(|| random.pick(&WITHIN));
    let beyond = random.flag().then(|| random.below(four_wide));
    for (i, symbol) in symbols[..four_wide].iter_mut().enumerate() {
        let steps = if beyond == Some(i) {
            random.pick(&[-3, 2])
        } else {
            same.unwrap_or_else(|| random.pick(&WITHIN))
        };
        *symbol = moved(*symbol, steps, settings.sf);
    }
}

/// Changes at most 0 to 3 symbols in each block.
fn change_symbols(symbols: &mut [u16], settings: &Settings, random: &mut Random) {
    let most = random.pick(&[0, 1, 1, 1, 2, 3]);
    let cr = settings.kind.cr();
    let width = usize::from(cr) + 4;
    for block in blocks(symbols, cr) {
        for _ in 0..random.below(most + 1) {
            let symbol = &mut block[random.below(width)];
            *symbol = changed(*symbol, settings.sf, random);
        }
    }
}

/// A frame's symbols, block by block.
pub fn blocks(symbols: &mut [u16], cr: u8) -> impl Iterator<Item = &mut [u16]> {
    let (first, later) = symbols.split_at_mut(8);
    std::iter::once(first).chain(later.chunks_mut(usize::from(cr) + 4))
}

fn changed(symbol: u16, sf: u8, random: &mut Random) -> u16 {
    let last = (1 << sf) - 1;
    match random.below(4) {
        // Leaves the value alone where symbols are four apart.
        0 => moved(symbol, random.pick(&[-2, -1, 1]), sf),
        1 => symbol.wrapping_add(random.pick(&[1, 4])) & last,
        2 => symbol.wrapping_sub(random.pick(&[1, 4])) & last,
        _ => any_symbol(sf, random),
    }
}

fn put_out_of_range(symbols: &mut Vec<u16>, sf: u8, random: &mut Random) {
    let limit = 1 << sf;
    // A place behind the frame must not matter.
    follow(symbols, random);
    for _ in 0..1 + random.below(2) {
        let place = match random.below(3) {
            0 => random.below(symbols.len().min(12)),
            1 => random.below(symbols.len()),
            _ => symbols.len() - 1,
        };
        let far = limit + random.below(65_536 - usize::from(limit)) as u16;
        symbols[place] = random.pick(&[limit, limit + 1, symbols[place] | limit, far, u16::MAX]);
    }
}

/// Puts further symbols behind the frame, as far as a text may go.
fn follow(symbols: &mut Vec<u16>, random: &mut Random) {
    let room = MOST_SYMBOLS - symbols.len();
    let further = match random.below(8) {
        0 => room,
        1 => random.below(room + 1),
        _ => random.below(room.min(16) + 1),
    };
    for _ in 0..further {
        symbols.push(random.number() as u16);
    }
}
