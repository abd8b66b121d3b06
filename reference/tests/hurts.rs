//! Document 02, Ask 3: which symbol held each repaired bit. Examples worked out by
//! hand, and frames of every setting, on `plain` and `tuned`.

use reference::cases::{self, hurts};
use reference::random::Random;
use reference::types::{Expected, Read, Received, Refusal, Settings};
use reference::{hurt, plain, tuned, MOST_BYTES, MOST_SYMBOLS};

const READERS: [(&str, Read); 2] = [("plain", plain::read), ("tuned", tuned::read)];

/// What lent cells hold beforehand.
const PAINT: u8 = 0xA5;

/// SF 7, empty, CR 1, flag off. The header's codewords are 00 00 72 00 17 hex.
const EMPTY: [u16; 8] = [124, 48, 28, 0, 56, 28, 12, 0];

/// SF 7, empty, flag on, CR 3 and 4. The checksum is four nibbles 0, in a block of
/// seven codewords 0 of which the last three are fillers.
const AT_4_7: [u16; 15] = [96, 48, 24, 12, 56, 124, 60, 28, 0, 0, 0, 0, 0, 0, 0];
const AT_4_8: [u16; 16] = [28, 60, 28, 112, 60, 96, 0, 0, 0, 0, 0, 0, 0, 0, 0, 0];

/// What a reader answers and leaves in the lent cells.
struct Outcome {
    answer: Result<Received, Refusal>,
    out: Vec<u8>,
    hurts: Vec<u8>,
}

/// Reads into so many painted cells.
fn read_into(read: Read, frame: &cases::Frame, out: usize, hurts: usize) -> Outcome {
    let (mut out, mut hurts) = (vec![PAINT; out], vec![PAINT; hurts]);
    let cases::Frame {
        sf,
        low,
        expected,
        symbols,
    } = frame;
    let answer = read(*sf, *low, *expected, symbols, &mut out, &mut hurts);
    Outcome { answer, out, hurts }
}

fn painted(cells: &[u8]) -> bool {
    cells.iter().all(|&cell| cell == PAINT)
}

/// The repairs in each symbol of an SF 7 frame whose payload is empty.
fn hurts_of(symbols: &[u16]) -> Vec<u8> {
    let frame = sf_7(symbols);
    let [plainly, tuned] = READERS.map(|(_, read)| {
        let Outcome { answer, hurts, .. } = read_into(read, &frame, 0, symbols.len());
        let sum: usize = hurts.iter().map(|&count| usize::from(count)).sum();
        assert_eq!(answer.unwrap().repairs, sum, "{symbols:?}");
        hurts
    });
    assert_eq!(plainly, tuned, "{symbols:?}");
    plainly
}

fn sf_7(symbols: &[u16]) -> cases::Frame {
    cases::Frame {
        sf: 7,
        low: false,
        expected: Expected::Explicit,
        symbols: symbols.to_vec(),
    }
}

/// The symbols with one of them changed.
fn with(symbols: &[u16], place: usize, number: u16) -> Vec<u16> {
    let mut symbols = symbols.to_vec();
    symbols[place] = number;
    symbols
}

#[test]
fn header_symbols() {
    assert_eq!(hurts_of(&EMPTY), [0; 8]);
    // Sent for the word 10000: bit 0 of codeword 4 is lost. So it is with 127,
    // which is read as 0, and not with 123, which is read as what was sent.
    assert_eq!(hurts_of(&with(&EMPTY, 0, 0)), [1, 0, 0, 0, 0, 0, 0, 0]);
    assert_eq!(hurts_of(&with(&EMPTY, 0, 127)), [1, 0, 0, 0, 0, 0, 0, 0]);
    assert_eq!(hurts_of(&with(&EMPTY, 0, 123)), [0; 8]);
    // Sent for the word 01010: bit 1 of codewords 2 and 4.
    assert_eq!(hurts_of(&with(&EMPTY, 1, 0)), [0, 2, 0, 0, 0, 0, 0, 0]);
    // The word 11111, value 10101, for 00000: bit 7 of all five.
    assert_eq!(hurts_of(&with(&EMPTY, 7, 84)), [0, 0, 0, 0, 0, 0, 0, 5]);
    // Bit 0 of codeword 4, and bit 3, the word 00001, of codeword 3.
    let two = with(&with(&EMPTY, 0, 0), 3, 4);
    assert_eq!(hurts_of(&two), [1, 0, 0, 1, 0, 0, 0, 0]);
}

#[test]
fn data_symbols() {
    assert_eq!(hurts_of(&AT_4_7), [0; 15]);
    assert_eq!(hurts_of(&AT_4_8), [0; 16]);
    let hurt_at = |frame: &[u16], place, number| hurts_of(&with(frame, place, number))[place];
    // Symbol 11 is the block's column 3, so its bit k is of codeword 3 + k mod 7.
    // The word 0000001 turns codeword 3 alone; 0000011 a filler besides.
    assert_eq!(hurt_at(&AT_4_8, 11, 1), 1);
    assert_eq!(hurt_at(&AT_4_8, 11, 2), 1);
    // 1111000 turns 6, a filler, and 0, 1, 2; 0001110 the three fillers.
    assert_eq!(hurt_at(&AT_4_8, 11, 0b1010000), 3);
    assert_eq!(hurt_at(&AT_4_8, 11, 0b0001011), 0);
    // Column 6 at 4/7, the last: 0000001 turns codeword 6, 0000010 codeword 0.
    assert_eq!(hurt_at(&AT_4_7, 14, 1), 0);
    assert_eq!(hurt_at(&AT_4_7, 14, 3), 1);
}

#[test]
fn room_for_the_list() {
    let frame = sf_7(&AT_4_8);
    for (name, read) in READERS {
        for cells in [0, 1, 15] {
            let short = read_into(read, &frame, 0, cells);
            let refusal = Refusal {
                number: 4,
                place: 16,
            };
            assert_eq!(short.answer, Err(refusal), "{name}");
            assert!(painted(&short.hurts), "{name}");
        }
        let roomy = read_into(read, &frame, 0, 20);
        assert_eq!(roomy.hurts[..16], [0; 16], "{name}");
        assert!(painted(&roomy.hurts[16..]), "{name}");
    }
}

/// Refusals in their order: all of head's, 4 for the payload, 4 for the list, 5 for
/// the whole frame, 6 over the rest.
#[test]
fn order_of_the_refusals() {
    let mut random = Random::new(5);
    for number in 0..20 * cases::SETTINGS {
        let settings = cases::settings(number % cases::SETTINGS);
        // At least a byte, and so many that there is a block behind the first.
        let length = 3 + random.below(MOST_BYTES - 2);
        let payload = random.bytes(length);
        let ways = random.pick(&hurts::WAYS);
        let hurt = hurts::frame(&settings, payload, ways, &mut random);
        let (mut frame, needed) = (hurt.frame, hurt.hurts.len());
        let last = needed - 1;
        frame.symbols[last] = 1 << frame.sf;
        let few_bytes = random.below(length);
        let few_cells = random.below(needed);
        for (name, read) in READERS {
            let expect = |frame: &cases::Frame, out, cells, number, place| {
                let outcome = read_into(read, frame, out, cells);
                let refusal = Refusal { number, place };
                assert_eq!(outcome.answer, Err(refusal), "{name} {settings:?}");
                assert!(painted(&outcome.out) && painted(&outcome.hurts), "{name}");
            };
            expect(&frame, length, needed, 6, last);
            let mut cut = frame.clone();
            cut.symbols.truncate(last);
            expect(&cut, length, needed, 5, needed);
            expect(&cut, length, few_cells, 4, needed);
            expect(&frame, length, few_cells, 4, needed);
            expect(&cut, few_bytes, few_cells, 4, length);
            expect(&frame, few_bytes, few_cells, 4, length);
            expect(&frame, few_bytes, needed, 4, length);
            cut.symbols.truncate(7);
            expect(&cut, few_bytes, few_cells, 5, 8);
        }
    }
}

/// Settings with a header and without one, for payloads of so many bytes.
fn both_kinds(number: usize, length: usize) -> [Settings; 2] {
    let settings = cases::settings(number % cases::SETTINGS);
    [settings, settings.without_header(length)]
}

/// What is known from how a frame was hurt.
#[test]
fn hurt_frames() {
    let mut random = Random::new(6);
    for number in 0..50 * cases::SETTINGS {
        let payload = cases::payload(&mut random);
        for settings in both_kinds(number, payload.len()) {
            hurt_as_known(&settings, &payload, &mut random);
        }
    }
}

fn hurt_as_known(settings: &Settings, payload: &[u8], random: &mut Random) {
    let ways = random.pick(&hurts::WAYS);
    let hurt = hurts::frame(settings, payload.to_vec(), ways, random);
    let (length, symbols) = (payload.len(), hurt.hurts.len());
    for (name, read) in READERS {
        let outcome = read_into(read, &hurt.frame, MOST_BYTES, MOST_SYMBOLS);
        let received = outcome.answer.unwrap();
        assert_eq!(received.symbols, symbols, "{name} {settings:?}");
        assert_eq!(&outcome.out[..length], payload, "{name} {settings:?}");
        assert!(painted(&outcome.out[length..]), "{name} {settings:?}");
        assert_eq!(outcome.hurts[..symbols], hurt.hurts, "{name} {settings:?}");
        assert!(painted(&outcome.hurts[symbols..]), "{name} {settings:?}");
    }
}

/// Whatever arrives: the cells add up to the repairs, and after a refusal both
/// lists are as they were.
#[test]
fn any_frames() {
    let mut random = Random::new(7);
    for number in 0..200 * cases::SETTINGS {
        let payload = cases::payload(&mut random);
        for settings in both_kinds(number, payload.len()) {
            adds_up(
                &cases::any_frame(&settings, &payload, &mut random),
                &mut random,
            );
        }
    }
}

fn adds_up(frame: &cases::Frame, random: &mut Random) {
    let mut cells = |most| match random.once_in(8) {
        true => random.below(most),
        false => most,
    };
    let (out, cells) = (cells(MOST_BYTES), cells(MOST_SYMBOLS));
    for (name, read) in READERS {
        let Outcome { answer, out, hurts } = read_into(read, frame, out, cells);
        let (bytes, symbols, repairs) = answer.map_or((0, 0, 0), |received| {
            (received.header.length, received.symbols, received.repairs)
        });
        let sum: usize = hurts[..symbols].iter().map(|&cell| usize::from(cell)).sum();
        assert_eq!(sum, repairs, "{name} {frame:?}");
        assert!(painted(&out[bytes..]), "{name} {frame:?}");
        assert!(painted(&hurts[symbols..]), "{name} {frame:?}");
    }
}

fn line(text: &str) -> String {
    String::from_utf8(hurt::answer_line(text.as_bytes())).unwrap()
}

#[test]
fn hurt_program() {
    let rows = [
        ("7 0 124 48 28 0 56 28 12 0", "ok\n"),
        ("7 0 0 48 28 0 56 28 12 0", "ok 0:1\n"),
        (" 007  0 127 48 28 0 56 28 12 0 9 9 65535 ", "ok 0:1\n"),
        ("7 0 123 48 28 0 56 28 12 0", "ok\n"),
        ("7 0 124 0 28 0 56 28 12 0", "ok 1:2\n"),
        ("7 0 0 48 28 4 56 28 12 0", "ok 0:1 3:1\n"),
        ("7 0 28 60 28 112 60 96 0 0 0 0 0 80 0 0 0 0", "ok 11:3\n"),
        ("7 0 28 60 28 112 60 96 0 0 0 0 0 11 0 0 0 0", "ok\n"),
        ("7 0 28 60 28 112 60 96 0 0", "no 5 16\n"),
        ("7 0 0 0 28 0 56 28 12 0", "no 7 4\n"),
        ("7 0 128 48 28 0 56 28 12 0", "no 6 0\n"),
        ("6 0", "no 1 0\n"),
        ("7 0", "no 5 8\n"),
        ("7 2", "no 14 0\n"),
        ("", "no 14 0\n"),
    ];
    for (text, wanted) in rows {
        assert_eq!(line(text), wanted, "{text:?}");
    }
}
