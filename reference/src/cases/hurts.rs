//! Frames with hurt symbols that can be read all the same, and what is known of
//! them from how they were hurt (document 02, Ask 3).

use super::{follow, moved, Frame, WITHIN};
use crate::plain::{self, block::Block};
use crate::random::Random;
use crate::types::Settings;

/// How a block is hurt: no codeword in more than one bit.
#[derive(Clone, Copy, Debug)]
pub enum Way {
    /// In no bit.
    Spared,
    /// One bit of one codeword.
    Bit,
    /// One symbol, in any of its bits.
    Symbol,
    /// One symbol, in all of its bits.
    Whole,
    /// Some codewords in a bit each, anywhere.
    Scattered,
    /// Every codeword in a bit, the next one's in the next symbol.
    Apart,
}

/// The ways from which each block of a frame takes one.
pub const WAYS: [&[Way]; 6] = [
    &[Way::Symbol],
    &[Way::Whole],
    &[Way::Apart],
    &[Way::Bit, Way::Symbol],
    &[Way::Spared, Way::Spared, Way::Spared, Way::Bit, Way::Symbol],
    &[Way::Spared, Way::Symbol, Way::Whole, Way::Scattered],
];

/// A frame, the payload it was sent with and the repairs in each symbol.
#[derive(Clone, Debug)]
pub struct Hurt {
    pub frame: Frame,
    pub payload: Vec<u8>,
    pub hurts: Vec<u8>,
}

/// A frame whose blocks are hurt in these ways, those spared that have a rate
/// which does not repair. The fillers are hurt with the others, and are any at
/// times; symbols may be off their marks, and others follow the frame.
pub fn frame(settings: &Settings, payload: Vec<u8>, ways: &[Way], random: &mut Random) -> Hurt {
    let Settings { sf, low, kind } = *settings;
    let head = plain::head_nibbles(kind, payload.len());
    let data = plain::data_nibbles(kind.checksum(), &payload);
    let foreign = random.flag();
    let mut filler = || if foreign { random.byte() } else { 0 };
    let mut symbols = plain::frame(settings, &head, &data, &mut filler);

    let mut hurts = Vec::new();
    let mut unread = head.len() + data.len();
    let mut block = Block::first(sf);
    while hurts.len() < symbols.len() {
        let place = hurts.len()..hurts.len() + block.width();
        let mut wrong = vec![0; block.n];
        if block.cr >= 3 {
            hurt(&mut wrong, random.pick(ways), block.width(), random);
        }
        let words = block.words(&symbols[place.clone()]);
        let mut arrived = words.iter().zip(&wrong).map(|(word, wrong)| word ^ wrong);
        let arrived = block.code(&[], &mut || arrived.next().unwrap());
        symbols[place].copy_from_slice(&arrived);
        // The fillers, behind the codewords that are read, don't count.
        wrong.truncate(unread);
        unread -= wrong.len();
        hurts
            .extend((0..block.width()).map(|j| wrong.iter().map(|bits| bits >> j & 1).sum::<u8>()));
        block = Block::later(sf, low, kind.cr());
    }

    if random.once_in(3) {
        let four_wide = if low { symbols.len() } else { 8 };
        for symbol in &mut symbols[..four_wide] {
            *symbol = moved(*symbol, random.pick(&WITHIN), sf);
        }
    }
    if random.once_in(8) {
        follow(&mut symbols, random);
    }
    let frame = Frame {
        sf,
        low,
        expected: kind.expected(),
        symbols,
    };
    Hurt {
        frame,
        payload,
        hurts,
    }
}

/// Sets the bits that are wrong in each word of a block.
fn hurt(wrong: &mut [u8], way: Way, width: usize, random: &mut Random) {
    let column = random.below(width);
    let one = random.below(wrong.len());
    for (row, bits) in wrong.iter_mut().enumerate() {
        *bits = match way {
            Way::Spared => 0,
            Way::Bit => u8::from(row == one) << column,
            Way::Symbol => u8::from(random.flag()) << column,
            Way::Whole => 1 << column,
            Way::Scattered => u8::from(random.flag()) << random.below(width),
            Way::Apart => 1 << ((column + row) % width),
        };
    }
}
