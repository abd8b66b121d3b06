//! `code`, `read` and the day's file written for speed: tables and word
//! operations, no grid of bits and no allocation. The tests hold it against
//! `plain`.
//!
//! A block is held as eight lanes of 16 bits in one 128-bit word: lane j is
//! column j of the block, its bit r is bit j of codeword r. The diagonal is
//! then a rotation of lane j by j places among N.

pub mod day;
mod tables;

use crate::types::{refuse, Expected, Header, Kind, Received, Refusal, Settings};
use crate::{MOST_BYTES, MOST_SYMBOLS};
use tables::{CHECKS, HURTS, READING, REMAINDERS, SPREAD, UNREADABLE, WHITENING};

/// The most data nibbles a frame can have: the payload's and the checksum's.
const MOST_NIBBLES: usize = 2 * MOST_BYTES + 4;

/// `plain::code`.
pub fn code(settings: &Settings, payload: &[u8], out: &mut [u16]) -> Result<usize, Refusal> {
    let Settings { sf, low, kind } = *settings;
    let header = Header {
        length: payload.len(),
        cr: kind.cr(),
        checksum: kind.checksum(),
    };
    check_settings(sf, header.cr, header.length)?;
    let head = match kind {
        Kind::Explicit { .. } => 5,
        Kind::Agreed { length, .. } if length != payload.len() => return refuse(3, 0),
        Kind::Agreed { .. } => 0,
    };
    let shape = Shape::new(sf, low, head, &header);
    if out.len() < shape.symbols {
        return refuse(4, shape.symbols);
    }

    let mut nibbles = [0; 5 + MOST_NIBBLES];
    if head > 0 {
        nibbles[..5].copy_from_slice(&header_nibbles(&header));
    }
    let (places, _) = nibbles[head..].as_chunks_mut::<2>();
    for ((place, byte), white) in places.iter_mut().zip(payload).zip(&WHITENING) {
        *place = halves(byte ^ white);
    }
    if header.checksum {
        let [low_byte, high_byte] = remainder(payload).to_le_bytes();
        places[payload.len()] = halves(low_byte);
        places[payload.len() + 1] = halves(high_byte);
    }

    let nibbles = &nibbles[..head + shape.nibbles];
    let first = usize::from(sf) - 2;
    let (in_first, in_later) = nibbles.split_at(first.min(nibbles.len()));
    let (first_out, later_out) = out[..shape.symbols].split_at_mut(8);
    code_block::<8>(in_first, first, 2, first_out);
    let shift = if low { 2 } else { 0 };
    let code_later = [
        code_block::<5>,
        code_block::<6>,
        code_block::<7>,
        code_block::<8>,
    ][shape.width - 5];
    let blocks = in_later
        .chunks(shape.rows)
        .zip(later_out.chunks_exact_mut(shape.width));
    for (block, block_out) in blocks {
        code_later(block, shape.rows, shift, block_out);
    }
    Ok(shape.symbols)
}

/// `plain::read`.
pub fn read(
    sf: u8,
    low: bool,
    expected: Expected,
    symbols: &[u16],
    out: &mut [u8],
    hurts: &mut [u8],
) -> Result<Received, Refusal> {
    let Opened {
        header,
        head,
        mut counts,
        lanes,
    } = match expected {
        Expected::Explicit => header_read(sf, symbols)?,
        Expected::Agreed {
            length,
            cr,
            checksum,
        } => {
            check_settings(sf, cr, length)?;
            Opened {
                header: Header {
                    length,
                    cr,
                    checksum,
                },
                head: 0,
                counts: 0,
                lanes: None,
            }
        }
    };
    let Header {
        length,
        cr,
        checksum,
    } = header;
    if out.len() < length {
        return refuse(4, length);
    }
    let shape = Shape::new(sf, low, head, &header);
    if hurts.len() < shape.symbols {
        return refuse(4, shape.symbols);
    }
    if symbols.len() < shape.symbols {
        return refuse(5, shape.symbols);
    }
    check_range(sf, &symbols[..shape.symbols])?;

    let mut nibbles = [0; MOST_NIBBLES];
    let data = &mut nibbles[..shape.nibbles];
    let first = usize::from(sf) - 2;
    let (in_first, in_later) = data.split_at_mut((first - head).min(shape.nibbles));
    let lanes = lanes.unwrap_or_else(|| lanes_of::<8>(symbols, first, 2));
    counts += read_words(lanes, 4, head, in_first).or_else(|i| refuse(7, head + i))?;
    let mut repairs = sum(counts);
    // Kept apart until nothing can be refused any more. Each block writes eight
    // cells; those beyond its own are the next one's, and the last has room.
    let mut cells = [0; MOST_SYMBOLS + 3];
    cells[..8].copy_from_slice(&counts.to_le_bytes());
    let shift = if low { 2 } else { 0 };
    let later_lanes =
        [lanes_of::<5>, lanes_of::<6>, lanes_of::<7>, lanes_of::<8>][usize::from(cr) - 1];
    let blocks = symbols[8..shape.symbols].chunks_exact(shape.width);
    for (block, (symbols, nibbles)) in blocks.zip(in_later.chunks_mut(shape.rows)).enumerate() {
        let lanes = later_lanes(symbols, shape.rows, shift);
        let counts = read_words(lanes, cr, 0, nibbles)
            .or_else(|i| refuse(7, first + block * shape.rows + i))?;
        repairs += sum(counts);
        cells[8 + block * shape.width..][..8].copy_from_slice(&counts.to_le_bytes());
    }

    let (pairs, _) = nibbles.as_chunks::<2>();
    let mut payload = [0; MOST_BYTES];
    let payload = &mut payload[..length];
    for ((byte, pair), white) in payload.iter_mut().zip(pairs).zip(&WHITENING) {
        *byte = joined(pair) ^ white;
    }
    if checksum {
        let sent = u16::from_le_bytes([joined(&pairs[length]), joined(&pairs[length + 1])]);
        if remainder(payload) != sent {
            return refuse(12, 0);
        }
    }
    out[..length].copy_from_slice(payload);
    hurts[..shape.symbols].copy_from_slice(&cells[..shape.symbols]);
    Ok(Received {
        header,
        symbols: shape.symbols,
        repairs,
        // Two more than the drift is what the rounding down leaves.
        drift: ((symbols[0] + 2) & 3) as i8 - 2,
    })
}

/// What is known of a frame before its data are read.
struct Opened {
    header: Header,
    /// Codewords before the data.
    head: usize,
    /// The repairs in them, by columns.
    counts: u64,
    /// The columns of block 0, where they had to be put together already.
    lanes: Option<u128>,
}

fn header_read(sf: u8, symbols: &[u16]) -> Result<Opened, Refusal> {
    check_sf(sf)?;
    if symbols.len() < 8 {
        return refuse(5, 8);
    }
    check_range(sf, &symbols[..8])?;
    let lanes = lanes_of::<8>(symbols, usize::from(sf) - 2, 2);
    let mut nibbles = [0; 5];
    let counts = read_words(lanes, 4, 0, &mut nibbles).or_else(|i| refuse(7, i))?;
    Ok(Opened {
        header: header(nibbles)?,
        head: 5,
        counts,
        lanes: Some(lanes),
    })
}

fn check_sf(sf: u8) -> Result<(), Refusal> {
    if !(7..=12).contains(&sf) {
        return refuse(1, 0);
    }
    Ok(())
}

fn check_settings(sf: u8, cr: u8, length: usize) -> Result<(), Refusal> {
    check_sf(sf)?;
    if !(1..=4).contains(&cr) {
        return refuse(2, 0);
    }
    if length > MOST_BYTES {
        return refuse(3, 0);
    }
    Ok(())
}

/// What settings and length say about a frame.
struct Shape {
    nibbles: usize,
    /// Codewords of a later block.
    rows: usize,
    /// Symbols of a later block.
    width: usize,
    symbols: usize,
}

impl Shape {
    /// With so many codewords before the data.
    fn new(sf: u8, low: bool, head: usize, header: &Header) -> Shape {
        let sf = usize::from(sf);
        let nibbles = 2 * header.length + 4 * usize::from(header.checksum);
        let rows = sf - 2 * usize::from(low);
        let width = usize::from(header.cr) + 4;
        let symbols = 8 + width * nibbles.saturating_sub(sf - 2 - head).div_ceil(rows);
        Shape {
            nibbles,
            rows,
            width,
            symbols,
        }
    }
}

fn halves(byte: u8) -> [u8; 2] {
    [byte & 15, byte >> 4]
}

fn joined(pair: &[u8; 2]) -> u8 {
    pair[0] | pair[1] << 4
}

/// The symbols of one block, fillers being codeword 0. The width is a constant
/// so that the loop over the columns is unrolled.
fn code_block<const WIDTH: usize>(nibbles: &[u8], rows: usize, shift: u32, out: &mut [u16]) {
    let spread = &SPREAD[WIDTH - 5];
    let mut lanes = 0;
    // From the last row up, so that each step shifts by one place; a lane has
    // room for more rows than a block has.
    for nibble in nibbles.iter().rev() {
        lanes = lanes << 1 | spread[usize::from(nibble & 15)];
    }
    for (j, symbol) in out[..WIDTH].iter_mut().enumerate() {
        let lane = u32::from((lanes >> (16 * j)) as u16);
        // Two copies on end make the rotation one shift; j may exceed N.
        let turn = if j >= rows { j - rows } else { j };
        let mut value = (lane | lane << rows) >> turn & ((1 << rows) - 1);
        value ^= value >> 1;
        value ^= value >> 2;
        value ^= value >> 4;
        value ^= value >> 8;
        *symbol = (value << shift) as u16;
    }
}

/// The columns of one block.
fn lanes_of<const WIDTH: usize>(symbols: &[u16], rows: usize, shift: u32) -> u128 {
    let mut lanes = 0;
    let all = (1 << rows) - 1;
    // Half the spacing, so that a symbol just below its mark is taken to it.
    let half = (1 << shift) >> 1;
    for (j, symbol) in symbols[..WIDTH].iter().enumerate() {
        let value = (u32::from(*symbol) + half) >> shift & all;
        let word = value ^ value >> 1;
        let turn = if j >= rows { j - rows } else { j };
        let lane = (word << turn | word >> (rows - turn)) & all;
        lanes |= u128::from(lane) << (16 * j);
    }
    lanes
}

/// The nibbles of the rows from `from` on, as many as `nibbles` holds. Answers
/// the repairs in each column, byte j those of column j, or which word can't be
/// read.
fn read_words(lanes: u128, cr: u8, from: usize, nibbles: &mut [u8]) -> Result<u64, usize> {
    let reading = &READING[usize::from(cr) - 1];
    let hurts = &HURTS[usize::from(cr) - 1];
    let (mut low, mut high) = (lanes as u64 >> from, (lanes >> 64) as u64 >> from);
    let mut counts = 0;
    let mut marks = 0;
    for nibble in nibbles.iter_mut() {
        let word = gathered(low) | gathered(high) << 4;
        let found = reading[word];
        marks |= found;
        counts += hurts[word];
        *nibble = found;
        low >>= 1;
        high >>= 1;
    }
    if marks & UNREADABLE != 0 {
        return Err(nibbles
            .iter()
            .take_while(|found| **found != UNREADABLE)
            .count());
    }
    Ok(counts)
}

/// The sum of the eight bytes, each of them at most a block's rows.
fn sum(counts: u64) -> usize {
    (counts.wrapping_mul(0x0101_0101_0101_0101) >> 56) as usize
}

/// The bottom bits of four lanes, side by side. The terms of the
/// product fall on different places, so nothing carries.
fn gathered(lanes: u64) -> usize {
    let bottom = lanes & 0x0001_0001_0001_0001;
    (bottom.wrapping_mul(1 << 48 | 1 << 33 | 1 << 18 | 1 << 3) >> 48 & 15) as usize
}

fn header_nibbles(header: &Header) -> [u8; 5] {
    let bits = header.length << 4 | usize::from(header.cr) << 1 | usize::from(header.checksum);
    let checks = CHECKS[bits];
    [
        (bits >> 8) as u8,
        (bits >> 4) as u8 & 15,
        bits as u8 & 15,
        checks >> 4,
        checks & 15,
    ]
}

fn header(nibbles: [u8; 5]) -> Result<Header, Refusal> {
    let [a, b, e, fourth, fifth] = nibbles;
    let length = usize::from(a) << 4 | usize::from(b);
    if CHECKS[length << 4 | usize::from(e)] != (fourth & 1) << 4 | fifth {
        return refuse(9, 0);
    }
    if fourth > 1 {
        return refuse(10, 0);
    }
    let cr = e >> 1;
    if !(1..=4).contains(&cr) {
        return refuse(11, 0);
    }
    Ok(Header {
        length,
        cr,
        checksum: e & 1 == 1,
    })
}

fn check_range(sf: u8, symbols: &[u16]) -> Result<(), Refusal> {
    if symbols.iter().fold(0, |all, symbol| all | symbol) >> sf == 0 {
        return Ok(());
    }
    refuse(
        6,
        symbols
            .iter()
            .take_while(|symbol| **symbol >> sf == 0)
            .count(),
    )
}

fn remainder(payload: &[u8]) -> u16 {
    payload.iter().fold(0, |remainder: u16, byte| {
        (remainder << 8 | u16::from(*byte)) ^ REMAINDERS[usize::from(remainder >> 8)]
    })
}

#[cfg(test)]
mod tests {
    use super::*;
    use crate::cases::{self, hurts};
    use crate::plain;
    use crate::random::Random;

    /// Settings of either kind, for payloads of so many bytes.
    fn settings(number: usize, length: usize, random: &mut Random) -> Settings {
        let settings = cases::settings(number % cases::SETTINGS);
        if random.flag() {
            settings.without_header(length)
        } else {
            settings
        }
    }

    #[test]
    fn codes_as_plain_does() {
        let mut random = Random::new(1);
        for number in 0..40_000 {
            let mut payload = cases::payload(&mut random);
            let mut settings = settings(number, payload.len(), &mut random);
            if random.once_in(20) {
                settings.sf = random.byte() % 16;
                let (Kind::Explicit { cr, .. } | Kind::Agreed { cr, .. }) = &mut settings.kind;
                *cr = random.byte() % 8;
            }
            // Agreed was another length then, mostly.
            if random.once_in(50) {
                payload.resize(random.below(300), 7);
            }
            let needed = plain::count(&settings, payload.len()).unwrap_or(40);
            let cells = if random.once_in(8) {
                random.below(needed + 9)
            } else {
                needed
            };
            let (mut out, mut wanted) = (vec![9; cells], vec![9; cells]);
            let answer = code(&settings, &payload, &mut out);
            assert_eq!(
                answer,
                plain::code(&settings, &payload, &mut wanted),
                "{settings:?}"
            );
            assert_eq!(out, wanted, "{settings:?}");
        }
    }

    #[test]
    fn reads_as_plain_does() {
        let mut random = Random::new(2);
        for number in 0..200_000 {
            let payload = cases::payload(&mut random);
            let settings = settings(number, payload.len(), &mut random);
            let mut frame = cases::any_frame(&settings, &payload, &mut random);
            if random.once_in(50) {
                frame.sf = random.byte();
            }
            if let Expected::Agreed { length, cr, .. } = &mut frame.expected {
                if random.once_in(50) {
                    *cr = random.byte();
                }
                if random.once_in(50) {
                    *length = random.number() as usize;
                }
            }
            reads_alike(&frame, &mut random);
        }
        for number in 0..40_000 {
            let payload = cases::payload(&mut random);
            let settings = settings(number, payload.len(), &mut random);
            let ways = random.pick(&hurts::WAYS);
            let hurt = hurts::frame(&settings, payload, ways, &mut random);
            reads_alike(&hurt.frame, &mut random);
        }
    }

    /// With room in both lists, or little in one or both.
    fn reads_alike(frame: &cases::Frame, random: &mut Random) {
        let mut lent = |most| {
            let cells = if random.once_in(8) {
                random.below(most + 9)
            } else {
                most
            };
            vec![9; cells]
        };
        let (mut out, mut cells) = (lent(MOST_BYTES), lent(MOST_SYMBOLS));
        let (mut wanted_out, mut wanted_cells) = (out.clone(), cells.clone());
        let cases::Frame {
            sf,
            low,
            expected,
            ref symbols,
        } = *frame;
        let answer = read(sf, low, expected, symbols, &mut out, &mut cells);
        let plainly = plain::read(
            sf,
            low,
            expected,
            symbols,
            &mut wanted_out,
            &mut wanted_cells,
        );
        assert_eq!(answer, plainly, "{frame:?}");
        assert_eq!(out, wanted_out, "{frame:?}");
        assert_eq!(cells, wanted_cells, "{frame:?}");
    }
}
