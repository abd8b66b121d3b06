//! The five operations of document 01 and the requests of document 02, done as
//! they are told there.

pub mod block;
pub mod bytes;
pub mod codeword;
pub mod day;
pub mod header;
pub mod tally;

use crate::types::{refuse, Expected, Header, Kind, Received, Refusal, Settings};
use crate::MOST_BYTES;
use block::Block;
use codeword::Taken;

/// Codewords of the header, at the front of block 0.
const HEADER_CODEWORDS: usize = 5;
/// Symbols of block 0.
const FIRST_SYMBOLS: usize = 8;

/// The symbols of a payload, into `out`; answers their count.
pub fn code(settings: &Settings, payload: &[u8], out: &mut [u16]) -> Result<usize, Refusal> {
    let needed = count(settings, payload.len())?;
    if out.len() < needed {
        return refuse(4, needed);
    }
    let head = head_nibbles(settings.kind, payload.len());
    let data = data_nibbles(settings.kind.checksum(), payload);
    // Nibble 0 has codeword 0 at every rate.
    let symbols = frame(settings, &head, &data, &mut || 0);
    out[..needed].copy_from_slice(&symbols);
    Ok(needed)
}

/// The payload of the symbols, into `out`, and the number of repaired bits in each
/// symbol of the frame, into `hurts`.
pub fn read(
    sf: u8,
    low: bool,
    expected: Expected,
    symbols: &[u16],
    out: &mut [u8],
    hurts: &mut [u8],
) -> Result<Received, Refusal> {
    let Opened {
        header,
        codewords,
        mut hurt,
    } = opened(sf, expected, symbols)?;
    let Header {
        length,
        cr,
        checksum,
    } = header;
    if out.len() < length {
        return refuse(4, length);
    }
    let needed = symbols_needed(sf, low, codewords, &header);
    if hurts.len() < needed {
        return refuse(4, needed);
    }
    if symbols.len() < needed {
        return refuse(5, needed);
    }
    let symbols = &symbols[..needed];
    // A header's symbols were found in range before, and are again.
    check_range(sf, symbols)?;

    let words = words(sf, low, cr, symbols);
    // Stops before the fillers, which may be anything.
    let data_words = words
        .iter()
        .enumerate()
        .skip(codewords)
        .take(data_count(checksum, length));
    let mut nibbles = Vec::new();
    for (place, word) in data_words {
        match word.read(&mut hurt) {
            Some(nibble) => nibbles.push(nibble),
            None => return refuse(7, place),
        }
    }

    let data: Vec<u8> = nibbles
        .chunks(2)
        .map(|pair| pair[0] | pair[1] << 4)
        .collect();
    let payload = bytes::whitened(&data[..length]);
    if checksum && bytes::checksum(&payload).to_le_bytes() != data[length..] {
        return refuse(12, 0);
    }
    out[..length].copy_from_slice(&payload);
    hurts[..needed].fill(0);
    for &symbol in &hurt {
        hurts[symbol] += 1;
    }
    Ok(Received {
        header,
        symbols: needed,
        repairs: hurt.len(),
        drift: Block::first(sf).drift(symbols[0]),
    })
}

/// The header alone.
pub fn head(sf: u8, symbols: &[u16]) -> Result<Header, Refusal> {
    Ok(header_read(sf, symbols)?.header)
}

/// The number of symbols.
pub fn count(settings: &Settings, length: usize) -> Result<usize, Refusal> {
    let Settings { sf, low, kind } = *settings;
    check_sf(sf)?;
    check_cr(kind.cr())?;
    check_length(length)?;
    let codewords = match kind {
        Kind::Explicit { .. } => HEADER_CODEWORDS,
        Kind::Agreed { length: agreed, .. } if agreed != length => return refuse(3, 0),
        Kind::Agreed { .. } => 0,
    };
    Ok(symbols_needed(sf, low, codewords, &said(kind, length)))
}

/// The time on air in microseconds.
pub fn airtime(
    settings: &Settings,
    length: usize,
    khz: u16,
    preamble: u16,
) -> Result<u64, Refusal> {
    let symbols = count(settings, length)? as u64;
    if ![125, 250, 500].contains(&khz) {
        return refuse(13, 0);
    }
    let quarters = 4 * (u64::from(preamble) + symbols) + 17;
    Ok(quarters * (1 << settings.sf) * 250 / u64::from(khz))
}

/// The symbols of the nibbles that stand before the data and of the data's, right
/// or wrong, with the words of `filler` in the places left over.
pub fn frame(
    settings: &Settings,
    head: &[u8],
    data: &[u8],
    filler: &mut dyn FnMut() -> u8,
) -> Vec<u16> {
    let Settings { sf, low, kind } = *settings;
    let (first, later) = (Block::first(sf), Block::later(sf, low, kind.cr()));
    let nibbles = [head, data].concat();
    let (in_first, in_later) = nibbles.split_at(nibbles.len().min(first.n));
    let mut symbols = first.code(in_first, filler);
    for block_nibbles in in_later.chunks(later.n) {
        symbols.extend(later.code(block_nibbles, filler));
    }
    symbols
}

/// The nibbles that stand before the data: the header's, if there is one.
pub fn head_nibbles(kind: Kind, length: usize) -> Vec<u8> {
    match kind {
        Kind::Explicit { .. } => header::nibbles(&said(kind, length)).to_vec(),
        Kind::Agreed { .. } => Vec::new(),
    }
}

/// What the header of a frame of so many bytes says, or would.
fn said(kind: Kind, length: usize) -> Header {
    Header {
        length,
        cr: kind.cr(),
        checksum: kind.checksum(),
    }
}

/// The data nibbles of a payload, whitened, with the checksum behind them.
pub fn data_nibbles(checksum: bool, payload: &[u8]) -> Vec<u8> {
    let mut data = bytes::whitened(payload);
    if checksum {
        data.extend(bytes::checksum(payload).to_le_bytes());
    }
    data.iter()
        .flat_map(|byte| [byte & 15, byte >> 4])
        .collect()
}

/// A word that the symbols of a block carry, not read yet.
struct Word {
    bits: u8,
    cr: u8,
    /// The symbol that its bit 0 stands in, the block's first. Bit j stands in the
    /// j-th behind it.
    start: usize,
}

impl Word {
    /// The nibble, if the word can be read; the symbol of a repaired bit goes to
    /// `hurt`.
    fn read(&self, hurt: &mut Vec<usize>) -> Option<u8> {
        let Taken { nibble, repaired } = codeword::take(self.bits, self.cr)?;
        hurt.extend(repaired.map(|bit| self.start + bit));
        Some(nibble)
    }
}

/// The words of a frame, block after block.
fn words(sf: u8, low: bool, cr: u8, symbols: &[u16]) -> Vec<Word> {
    let later = Block::later(sf, low, cr);
    let mut words = words_at(0, &Block::first(sf), symbols);
    for start in (FIRST_SYMBOLS..symbols.len()).step_by(later.width()) {
        words.extend(words_at(start, &later, symbols));
    }
    words
}

/// The words of the block that starts with this symbol.
fn words_at(start: usize, block: &Block, symbols: &[u16]) -> Vec<Word> {
    let cr = block.cr;
    block
        .words(&symbols[start..start + block.width()])
        .into_iter()
        .map(|bits| Word { bits, cr, start })
        .collect()
}

/// What is known of a frame before its data are read.
struct Opened {
    header: Header,
    /// Codewords that stand before the data: the header's, if there is one.
    codewords: usize,
    /// The symbol of each bit that was repaired in them.
    hurt: Vec<usize>,
}

fn opened(sf: u8, expected: Expected, symbols: &[u16]) -> Result<Opened, Refusal> {
    match expected {
        Expected::Explicit => header_read(sf, symbols),
        Expected::Agreed {
            length,
            cr,
            checksum,
        } => {
            check_sf(sf)?;
            check_cr(cr)?;
            check_length(length)?;
            Ok(Opened {
                header: Header {
                    length,
                    cr,
                    checksum,
                },
                codewords: 0,
                hurt: Vec::new(),
            })
        }
    }
}

fn header_read(sf: u8, symbols: &[u16]) -> Result<Opened, Refusal> {
    check_sf(sf)?;
    if symbols.len() < FIRST_SYMBOLS {
        return refuse(5, FIRST_SYMBOLS);
    }
    check_range(sf, &symbols[..FIRST_SYMBOLS])?;
    let words = words_at(0, &Block::first(sf), symbols);
    let mut nibbles = [0; HEADER_CODEWORDS];
    let mut hurt = Vec::new();
    for (i, nibble) in nibbles.iter_mut().enumerate() {
        match words[i].read(&mut hurt) {
            Some(read) => *nibble = read,
            None => return refuse(7, i),
        }
    }
    Ok(Opened {
        header: header::header(nibbles)?,
        codewords: HEADER_CODEWORDS,
        hurt,
    })
}

fn check_sf(sf: u8) -> Result<(), Refusal> {
    if (7..=12).contains(&sf) {
        Ok(())
    } else {
        refuse(1, 0)
    }
}

fn check_cr(cr: u8) -> Result<(), Refusal> {
    if (1..=4).contains(&cr) {
        Ok(())
    } else {
        refuse(2, 0)
    }
}

fn check_length(length: usize) -> Result<(), Refusal> {
    if length <= MOST_BYTES {
        Ok(())
    } else {
        refuse(3, 0)
    }
}

fn check_range(sf: u8, symbols: &[u16]) -> Result<(), Refusal> {
    match symbols.iter().position(|&symbol| symbol >= 1 << sf) {
        Some(place) => refuse(6, place),
        None => Ok(()),
    }
}

fn data_count(checksum: bool, length: usize) -> usize {
    2 * length + if checksum { 4 } else { 0 }
}

/// With so many codewords before the data.
fn symbols_needed(sf: u8, low: bool, codewords: usize, header: &Header) -> usize {
    let in_first = Block::first(sf).n - codewords;
    let later = Block::later(sf, low, header.cr);
    let remaining = data_count(header.checksum, header.length).saturating_sub(in_first);
    FIRST_SYMBOLS + later.width() * remaining.div_ceil(later.n)
}
