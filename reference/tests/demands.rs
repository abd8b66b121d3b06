//! Demands 2 and 3 and the claims of document 02, Asks 2 and 3, tried over every
//! setting with random payloads, with and without a header (Ask 4), on `plain` and
//! `tuned`. Without a header the reader uses the sender's agreed values.

use reference::cases::{self, blocks, moved};
use reference::plain::{self, block::Block};
use reference::random::Random;
use reference::tuned;
use reference::types::{Header, Kind, Read, Received, Refusal, Settings};
use reference::{MOST_BYTES, MOST_SYMBOLS};

/// Frames of each setting and kind.
const TIMES: usize = 50;

const READERS: [(&str, Read); 2] = [("plain", plain::read), ("tuned", tuned::read)];

/// What lent cells hold beforehand.
const PAINT: u8 = 0xA5;

/// What reading answers, and the repairs in each symbol.
type Answered = Result<(Received, Vec<u8>), Refusal>;

/// A frame as it was sent.
struct Sent {
    settings: Settings,
    payload: Vec<u8>,
    symbols: Vec<u16>,
}

impl Sent {
    fn new(mut settings: Settings, has_header: bool, random: &mut Random) -> Sent {
        let payload = cases::payload(random);
        if !has_header {
            settings = settings.without_header(payload.len());
        }
        let mut symbols = vec![0; MOST_SYMBOLS];
        let count = plain::code(&settings, &payload, &mut symbols).unwrap();
        symbols.truncate(count);
        Sent {
            settings,
            payload,
            symbols,
        }
    }

    /// What reading answers for an unharmed frame whose first symbol has drifted.
    fn unharmed(&self, drift: i8) -> (Received, Vec<u8>) {
        let symbols = self.symbols.len();
        let received = Received {
            header: Header {
                length: self.payload.len(),
                cr: self.settings.kind.cr(),
                checksum: self.settings.kind.checksum(),
            },
            symbols,
            repairs: 0,
            drift,
        };
        (received, vec![0; symbols])
    }

    /// What a reader makes of the symbols that arrived. If it accepts them, the
    /// payload must be the sent one; cells that it does not fill must stay, which
    /// are all if it refuses them.
    fn arrived(&self, read: Read, symbols: &[u16]) -> Answered {
        let (mut out, mut hurts) = ([PAINT; MOST_BYTES], [PAINT; MOST_SYMBOLS]);
        let Settings { sf, low, kind } = self.settings;
        let answer = read(sf, low, kind.expected(), symbols, &mut out, &mut hurts);
        let (bytes, cells) = answer.map_or((0, 0), |received| {
            (received.header.length, received.symbols)
        });
        let mut behind = out[bytes..].iter().chain(&hurts[cells..]);
        assert!(behind.all(|&cell| cell == PAINT), "{symbols:?}");
        let received = answer?;
        assert_eq!(out[..bytes], self.payload, "{symbols:?}");
        Ok((received, hurts[..cells].to_vec()))
    }

    /// Codewords that stand before the data.
    fn header_codewords(&self) -> usize {
        match self.settings.kind {
            Kind::Explicit { .. } => 5,
            Kind::Agreed { .. } => 0,
        }
    }

    /// How many symbols, from the first on, have the four-wide spacing.
    fn four_wide(&self) -> usize {
        if self.settings.low {
            self.symbols.len()
        } else {
            8
        }
    }
}

/// Frames of every setting, with and without a header.
fn each_sent(seed: u64, mut try_one: impl FnMut(&Sent, &mut Random)) {
    let mut random = Random::new(seed);
    for number in 0..cases::SETTINGS {
        for i in 0..2 * TIMES {
            let sent = Sent::new(cases::settings(number), i % 2 == 0, &mut random);
            try_one(&sent, &mut random);
        }
    }
}

/// Demand 2.
#[test]
fn unharmed_frames_have_no_drift_and_no_repairs() {
    each_sent(1, |sent, _| {
        for (name, read) in READERS {
            let received = sent.arrived(read, &sent.symbols);
            assert_eq!(received, Ok(sent.unharmed(0)), "{name} {:?}", sent.settings);
        }
    });
}

/// The frame with each symbol at the four-wide spacing -2 to +1 from what was
/// sent, and how far the first one is.
fn drifted(sent: &Sent, random: &mut Random) -> (Vec<u16>, i8) {
    let steps: Vec<i8> = (0..sent.four_wide())
        .map(|_| random.pick(&[-2, -1, 0, 1]))
        .collect();
    let mut symbols = sent.symbols.clone();
    for (symbol, &step) in symbols.iter_mut().zip(&steps) {
        *symbol = moved(*symbol, step, sent.settings.sf);
    }
    (symbols, steps[0])
}

/// Document 02, Ask 2: each symbol at the four-wide spacing arrives -2 to +1 from
/// what was sent, the others as sent.
#[test]
fn drifted_symbols_need_no_repair() {
    each_sent(2, |sent, random| {
        let (symbols, drift) = drifted(sent, random);
        let wanted = sent.unharmed(drift);
        for (name, read) in READERS {
            let received = sent.arrived(read, &symbols);
            assert_eq!(received.as_ref(), Ok(&wanted), "{name} {:?}", sent.settings);
        }
        if sent.header_codewords() > 0 {
            assert_eq!(plain::head(sent.settings.sf, &symbols), Ok(wanted.0.header));
        }
    });
}

/// Changes at most so many symbols in each block to any numbers of the range. In
/// every other frame those at the four-wide spacing have drifted besides, which
/// leaves their values.
fn change(sent: &Sent, most: usize, random: &mut Random) -> Vec<u16> {
    let Settings { sf, kind, .. } = sent.settings;
    let mut symbols = if random.flag() {
        drifted(sent, random).0
    } else {
        sent.symbols.clone()
    };
    for block in blocks(&mut symbols, kind.cr()) {
        for _ in 0..random.below(most + 1) {
            block[random.below(block.len())] = cases::any_symbol(sf, random);
        }
    }
    symbols
}

/// The words that a frame's blocks carry, in frame order, those that are read, each
/// with the first symbol of its block.
fn words(sent: &Sent, symbols: &[u16]) -> Vec<(u8, usize)> {
    let Settings { sf, low, kind } = sent.settings;
    let (first, later) = (Block::first(sf), Block::later(sf, low, kind.cr()));
    let mut words = Vec::new();
    for start in std::iter::once(0).chain((8..symbols.len()).step_by(later.width())) {
        let block = if start == 0 { &first } else { &later };
        let bits = block.words(&symbols[start..start + block.width()]);
        words.extend(bits.into_iter().map(|bits| (bits, start)));
    }
    let data = 2 * sent.payload.len() + if kind.checksum() { 4 } else { 0 };
    words.truncate(sent.header_codewords() + data);
    words
}

/// The bits of each codeword read that the changes turned, with the first symbol of
/// its block.
fn changed_bits(sent: &Sent, arrived: &[u16]) -> Vec<(u8, usize)> {
    let (sent_words, arrived_words) = (words(sent, &sent.symbols), words(sent, arrived));
    sent_words
        .iter()
        .zip(arrived_words)
        .map(|((sent, start), (arrived, _))| (sent ^ arrived, *start))
        .collect()
}

/// The first symbol's drift, which is that of the number that arrived, whatever
/// was sent.
fn drift(symbol: u16) -> i8 {
    [0, 1, -2, -1][usize::from(symbol % 4)]
}

/// What demand 3 says: refusal 7 at the first codeword that the test, given its
/// number and its changed bits, finds lost; else the payload, with a repair for
/// each codeword that has a changed bit, and one in the symbol that held the bit.
fn demanded(sent: &Sent, arrived: &[u16], lost: impl Fn(usize, u32) -> bool) -> Answered {
    let changed = changed_bits(sent, arrived);
    let (mut received, mut hurts) = sent.unharmed(drift(arrived[0]));
    for (place, (bits, start)) in changed.into_iter().enumerate() {
        if lost(place, bits.count_ones()) {
            return Err(Refusal { number: 7, place });
        }
        received.repairs += usize::from(bits != 0);
        for j in (0..8).filter(|j| bits >> j & 1 == 1) {
            hurts[start + j] += 1;
        }
    }
    Ok((received, hurts))
}

/// Demand 3, at most one symbol changed in each block: 4/7 and 4/8 return the
/// payload; 4/5 and 4/6 refuse exactly when a codeword read after block 0 has a
/// changed bit. The repairs are in the changed symbols alone, as many as codewords
/// read have a changed bit there.
#[test]
fn one_symbol_changed_in_each_block() {
    each_sent(3, |sent, random| {
        let symbols = change(sent, 1, random);
        let Settings { sf, kind, .. } = sent.settings;
        let first = usize::from(sf) - 2;
        let wanted = demanded(sent, &symbols, |i, bits| {
            kind.cr() <= 2 && i >= first && bits > 0
        });
        for (name, read) in READERS {
            let received = sent.arrived(read, &symbols);
            assert_eq!(received, wanted, "{name} {:?}", sent.settings);
        }
    });
}

/// Demand 3, at most two symbols changed in each block at 4/8: refused exactly
/// when a codeword that is read has two bits changed.
#[test]
fn two_symbols_changed_in_each_block() {
    each_sent(4, |sent, random| {
        if sent.settings.kind.cr() < 4 {
            return;
        }
        let symbols = change(sent, 2, random);
        let wanted = demanded(sent, &symbols, |_, bits| bits == 2);
        for (name, read) in READERS {
            let received = sent.arrived(read, &symbols);
            assert_eq!(received, wanted, "{name} {:?}", sent.settings);
        }
    });
}
