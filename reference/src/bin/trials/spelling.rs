//! Words put together to a line, well or badly.

use reference::cases::Frame;
use reference::random::Random;
use reference::types::Expected;

/// What may stand in no text: letters and signs, the neighbours of the digits,
/// of 32 and of 10, the same bytes with the top bit set, and UTF-8.
const INTRUDERS: [&[u8]; 28] = [
    b"x",
    b"e",
    b"A",
    b"-",
    b"+",
    b".",
    b",",
    b"_",
    b"\t",
    b"\r",
    b"\0",
    b"\x0B",
    b"\x0C",
    b"\x1F",
    b"!",
    b"/",
    b":",
    b"\x7F",
    b"\x80",
    b"\x8A",
    b"\xA0",
    b"\xB7",
    b"\xFF",
    "\u{A0}".as_bytes(),
    "é".as_bytes(),
    "７".as_bytes(),
    "\u{FEFF}".as_bytes(),
    "٣".as_bytes(),
];

/// Numbers that can't be taken; some would come out right if cut to a word.
pub const BAD_NUMBERS: [&str; 9] = [
    "65536",
    "65543",
    "70000",
    "99999",
    "000007",
    "100000",
    "4294967303",
    "18446744073709551623",
    "0000000000000000000000000007",
];

/// Spreading factors out of range; some would come out right if cut to a byte.
pub const BAD_SPREADING: [u16; 12] = [0, 1, 5, 6, 13, 14, 255, 256, 263, 268, 32_775, 65_535];

/// Code rates out of range; some would come out right if cut to a byte.
pub const BAD_RATES: [u16; 12] = [0, 5, 6, 8, 9, 255, 256, 257, 258, 260, 32_769, 65_535];

/// Lengths out of range; most would be in range if cut to a byte.
pub const BAD_LENGTHS: [u16; 9] = [256, 257, 258, 300, 511, 512, 32_768, 65_534, 65_535];

/// Numbers that are no flag; some would come out right if cut to a byte or bit.
pub const BAD_FLAGS: [&str; 7] = ["2", "3", "10", "256", "257", "65535", "00002"];

/// Many more spaces than a buffer would hold.
pub const MANY_SPACES: usize = 20_000;

/// A word of a good text.
pub enum Word {
    /// May have zeros before it.
    Number(u16),
    /// Stands as it is.
    Exact(String),
}

impl Word {
    pub fn plain(&self) -> String {
        match self {
            Word::Number(number) => number.to_string(),
            Word::Exact(word) => word.clone(),
        }
    }

    fn padded(&self, random: &mut Random) -> String {
        let width = match self {
            Word::Number(_) if random.flag() => 1 + random.below(5),
            _ => 1,
        };
        format!("{:0>width$}", self.plain())
    }
}

/// Index of the SF in the words of a frame without a header; LENGTH, CR and FLAG
/// stand before it.
pub const AGREED_SF: usize = 3;

/// The words of a frame's text; without a header, those behind the mark.
pub fn frame_words(frame: &Frame) -> Vec<Word> {
    let mut numbers = match frame.expected {
        Expected::Explicit => Vec::new(),
        Expected::Agreed {
            length,
            cr,
            checksum,
        } => vec![length as u16, cr.into(), checksum.into()],
    };
    numbers.extend([u16::from(frame.sf), u16::from(frame.low)]);
    numbers.extend(&frame.symbols);
    numbers.into_iter().map(Word::Number).collect()
}

/// A text that can be taken.
pub fn frame_text(frame: &Frame, random: &mut Random) -> Vec<u8> {
    let text = spelled(&frame_words(frame), random);
    match frame.expected {
        Expected::Explicit => text,
        Expected::Agreed { .. } => marked(&text, random),
    }
}

/// The text with the mark before it, and spaces around that or none.
pub fn marked(text: &[u8], random: &mut Random) -> Vec<u8> {
    let (before, behind) = match random.below(100) {
        0 => (MANY_SPACES, random.below(2)),
        1..=10 => (0, 0),
        11..=20 => (1 + random.below(4), random.below(4)),
        _ => (0, 1),
    };
    let mark = " ".repeat(before) + "=" + &" ".repeat(behind);
    [mark.as_bytes(), text].concat()
}

/// The text with one mark more, anywhere.
pub fn marked_again(text: &[u8], random: &mut Random) -> Vec<u8> {
    let mut text = marked(text, random);
    text.insert(random.below(text.len() + 1), b'=');
    text
}

/// The words as a text that can be taken, plainly or with spaces and zeros to
/// spare.
pub fn spelled(words: &[Word], random: &mut Random) -> Vec<u8> {
    if !random.once_in(4) {
        return plainly(words).join(" ").into_bytes();
    }
    let most_spaces = random.pick(&[1, 1, 4, 30]);
    let spaces = |random: &mut Random, least| " ".repeat(least + random.below(most_spaces));
    let mut text = spaces(random, 0);
    for (i, word) in words.iter().enumerate() {
        let word = word.padded(random);
        if i > 0 {
            text += &spaces(random, 1);
        }
        text += &word;
    }
    text += &spaces(random, 0);
    if random.once_in(20) {
        text.insert_str(random.pick(&[0, text.len()]), &" ".repeat(MANY_SPACES));
    }
    text.into_bytes()
}

/// The words with no zeros before them.
pub fn plainly(words: &[Word]) -> Vec<String> {
    words.iter().map(Word::plain).collect()
}

/// The words as a text with a byte somewhere that can't be taken there.
pub fn intruded(words: &[Word], random: &mut Random) -> Vec<u8> {
    let mut text = spelled(words, random);
    let place = random.below(text.len() + 1);
    text.splice(place..place, random.pick(&INTRUDERS).iter().copied());
    text
}

/// Nothing but spaces.
pub fn blank(random: &mut Random) -> String {
    " ".repeat(1 + random.below(300))
}
