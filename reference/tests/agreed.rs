//! Document 02, Ask 4: frames without a header. Examples worked out by hand, the
//! order of the refusals one by one and the number of symbols, on `plain` and
//! `tuned`.

use reference::random::Random;
use reference::types::{Code, Expected, Header, Kind, Read, Received, Refusal, Settings};
use reference::{cases, plain, tuned, MOST_SYMBOLS};

const CODERS: [(&str, Code); 2] = [("plain", plain::code), ("tuned", tuned::code)];
const READERS: [(&str, Read); 2] = [("plain", plain::read), ("tuned", tuned::read)];

/// What lent cells hold beforehand.
const PAINT: u8 = 0xA5;

/// 76 hex, checksum off, at SF 7. Whitened it is 89 hex, so the nibbles are 9 and 8,
/// and they have room in block 0, whose five codewords are 39 E8 00 00 00 hex at 4/8.
/// Codeword 0 has its bits 0, 3, 4, 5 set and codeword 1 its bits 3, 5, 6, 7. Bit j of
/// codeword i is bit i - j mod 5 of word j:
///
/// words  00001 00000 00000 01100 00010 00011 00001 10000
/// values 00001 00000 00000 01000 00011 00010 00001 11111, and the symbols are 4 x these
const ONE_BYTE: [u16; 8] = [4, 0, 0, 32, 12, 8, 4, 124];

/// 12 34 hex, checksum on, at SF 7. Whitened it is ED CA hex, and the checksum is sent
/// as 34 12 hex: the nibbles are D E A C 4 in block 0, and then 3 2 1. Block 0 has the
/// codewords 8D 2E 9A 5C B4 hex:
///
/// words  00001 00011 11110 11101 11001 10010 00100 01101
/// values 00001 00010 10100 10110 10001 11100 00111 01001, and the symbols are 4 x these
const TWO_BYTES: [u16; 8] = [4, 8, 80, 88, 68, 112, 28, 36];

/// The block behind it at 4/8, codewords A3 72 D1 hex and four fillers. Bit j of
/// codeword i is bit i - j mod 7 of word j:
///
/// words  0000101 1000001 0 0 0110000 0001100 0001100 0000101
/// values 0000110 1111110 0 0 0100000 0001000 0001000 0000110
///
/// At 4/5, 4/6 and 4/7 the codewords are 03 12 11, 23 32 11 and 23 72 51 hex: what is
/// left of the columns is the same.
const BEHIND: [u16; 8] = [6, 126, 0, 0, 32, 8, 8, 6];

/// The same at low rate, with two fillers: bit j of codeword i is bit i - j mod 5 of
/// word j.
///
/// words  00101 10001 0 0 01100 00011 00011 01001
/// values 00110 11110 0 0 01000 00010 00010 01110, and the symbols are 4 x these
const BEHIND_LOW: [u16; 8] = [24, 120, 0, 0, 32, 8, 8, 56];

fn agreed(length: usize, cr: u8, checksum: bool) -> Kind {
    Kind::Agreed {
        length,
        cr,
        checksum,
    }
}

/// Settings at SF 7.
fn sf_7(low: bool, kind: Kind) -> Settings {
    Settings { sf: 7, low, kind }
}

/// The frame of 12 34 hex with the checksum on.
fn two_bytes(cr: u8, low: bool) -> Vec<u16> {
    let behind = if low { BEHIND_LOW } else { BEHIND };
    [&TWO_BYTES[..], &behind[..usize::from(cr) + 4]].concat()
}

fn coded(code: Code, settings: &Settings, payload: &[u8]) -> Vec<u16> {
    let mut out = [0; MOST_SYMBOLS];
    let symbols = code(settings, payload, &mut out).unwrap();
    out[..symbols].to_vec()
}

/// What a reader answers, and what it fills of the lent lists. All other cells must
/// stay.
type Answered = Result<(Received, Vec<u8>, Vec<u8>), Refusal>;

/// Reads into so many cells.
fn read_into(
    read: Read,
    settings: &Settings,
    symbols: &[u16],
    out: usize,
    hurts: usize,
) -> Answered {
    let Settings { sf, low, kind } = *settings;
    let (mut out, mut hurts) = (vec![PAINT; out], vec![PAINT; hurts]);
    let answer = read(sf, low, kind.expected(), symbols, &mut out, &mut hurts);
    let (bytes, cells) = answer.map_or((0, 0), |received| {
        (received.header.length, received.symbols)
    });
    let mut behind = out[bytes..].iter().chain(&hurts[cells..]);
    assert!(behind.all(|&cell| cell == PAINT), "{settings:?}");
    out.truncate(bytes);
    hurts.truncate(cells);
    answer.map(|received| (received, out, hurts))
}

/// Reads into cells enough, and asks for these bytes with so many repairs.
fn expect(settings: &Settings, symbols: &[u16], payload: &[u8], repairs: usize) {
    for (name, read) in READERS {
        let (received, out, hurts) = read_into(read, settings, symbols, 260, 840).unwrap();
        let header = Header {
            length: payload.len(),
            cr: settings.kind.cr(),
            checksum: settings.kind.checksum(),
        };
        assert_eq!(received.header, header, "{name} {settings:?}");
        assert_eq!(out, payload, "{name} {settings:?}");
        assert_eq!(received.repairs, repairs, "{name} {settings:?}");
        let sum: usize = hurts.iter().map(|&count| usize::from(count)).sum();
        assert_eq!(sum, repairs, "{name} {settings:?}");
    }
}

fn expect_refusal(settings: &Settings, symbols: &[u16], number: u8, place: usize) {
    for (name, read) in READERS {
        let answer = read_into(read, settings, symbols, 260, 840);
        let refusal = Refusal { number, place };
        assert_eq!(answer, Err(refusal), "{name} {settings:?} {symbols:?}");
    }
}

/// The symbols with one of them changed.
fn with(symbols: &[u16], place: usize, number: u16) -> Vec<u16> {
    let mut symbols = symbols.to_vec();
    symbols[place] = number;
    symbols
}

#[test]
fn one_byte() {
    for cr in 1..=4 {
        for low in [false, true] {
            let settings = sf_7(low, agreed(1, cr, false));
            for (name, code) in CODERS {
                assert_eq!(coded(code, &settings, &[0x76]), ONE_BYTE, "{name}");
            }
            expect(&settings, &ONE_BYTE, &[0x76], 0);
        }
    }
}

#[test]
fn two_bytes_with_checksum() {
    for cr in 1..=4 {
        for low in [false, true] {
            let settings = sf_7(low, agreed(2, cr, true));
            let frame = two_bytes(cr, low);
            for (name, code) in CODERS {
                assert_eq!(coded(code, &settings, &[0x12, 0x34]), frame, "{name}");
            }
            expect(&settings, &frame, &[0x12, 0x34], 0);
            // Whatever follows is ignored.
            let followed = [&frame[..], &[128, 65_535]].concat();
            expect(&settings, &followed, &[0x12, 0x34], 0);
        }
    }
}

/// Block 0 has 4/8 whatever CR: one bit of a codeword is repaired, two are not.
#[test]
fn block_0_has_4_8() {
    for cr in 1..=4 {
        let settings = sf_7(false, agreed(1, cr, false));
        // Bit 0 of codeword 0.
        let one = with(&ONE_BYTE, 0, 0);
        expect(&settings, &one, &[0x76], 1);
        // The word 01000 for 01100, so bit 3 of codeword 0 too.
        expect_refusal(&settings, &with(&one, 3, 60), 7, 0);
        // Instead of it 00100, bit 3 of codeword 1.
        expect(&settings, &with(&one, 3, 28), &[0x76], 2);
        // The word 01110 in the second symbol: the three fillers alone. 11111: the
        // bits 1 of codewords 0 and 1 besides.
        expect(&settings, &with(&ONE_BYTE, 1, 44), &[0x76], 0);
        expect(&settings, &with(&ONE_BYTE, 1, 84), &[0x76], 2);
    }
    for (name, read) in READERS {
        let settings = sf_7(false, agreed(1, 2, false));
        let symbols = with(&with(&ONE_BYTE, 0, 0), 1, 84);
        // The bits 0 and 1 of codeword 0; without the first, bit 1 of codewords 0 and 1.
        let refusal = Refusal {
            number: 7,
            place: 0,
        };
        let answer = read_into(read, &settings, &symbols, 1, 8);
        assert_eq!(answer, Err(refusal), "{name}");
        let (_, _, hurts) = read_into(read, &settings, &with(&ONE_BYTE, 1, 84), 1, 8).unwrap();
        assert_eq!(hurts, [0, 2, 0, 0, 0, 0, 0, 0], "{name}");
    }
}

/// A later block has the agreed CR: symbol 8 read as 7 is the word 0000100, in which
/// bit 0 of codeword 5 is lost.
#[test]
fn later_blocks_have_the_agreed_rate() {
    for cr in 1..=4 {
        let settings = sf_7(false, agreed(2, cr, true));
        let symbols = with(&two_bytes(cr, false), 8, 7);
        if cr <= 2 {
            expect_refusal(&settings, &symbols, 7, 5);
        } else {
            expect(&settings, &symbols, &[0x12, 0x34], 1);
        }
    }
}

/// Drifts as with a header: 5 is one above its mark 4, 2 is two below it, and 127 one
/// below the mark 0, for which codeword 0 lacks its bit 0.
#[test]
fn drifts() {
    let settings = sf_7(false, agreed(1, 1, false));
    for (symbol, drift, repairs) in [(4, 0, 0), (5, 1, 0), (3, -1, 0), (2, -2, 0), (127, -1, 1)] {
        for (name, read) in READERS {
            let symbols = with(&ONE_BYTE, 0, symbol);
            let (received, ..) = read_into(read, &settings, &symbols, 1, 8).unwrap();
            assert_eq!(
                (received.drift, received.repairs),
                (drift, repairs),
                "{name}"
            );
        }
    }
}

/// No nibble at all: eight symbols of fillers, 0 when coding, anything below 2^SF
/// when reading.
#[test]
fn empty_without_checksum() {
    let mut random = Random::new(1);
    for sf in 7..=12 {
        for cr in 1..=4 {
            for low in [false, true] {
                let kind = agreed(0, cr, false);
                let settings = Settings { sf, low, kind };
                for (name, code) in CODERS {
                    assert_eq!(coded(code, &settings, &[]), [0; 8], "{name} {settings:?}");
                }
                let most = (1 << sf) - 1;
                let any = [(); 8].map(|_| cases::any_symbol(sf, &mut random));
                for symbols in [[0; 8], [most; 8], any] {
                    expect(&settings, &symbols, &[], 0);
                    expect_refusal(&settings, &symbols[..7], 5, 8);
                    expect_refusal(&settings, &with(&symbols, 7, most + 1), 6, 7);
                    // The ninth is no part of the frame.
                    expect(&settings, &[&symbols[..], &[u16::MAX]].concat(), &[], 0);
                }
                expect_refusal(&settings, &[], 5, 8);
            }
        }
    }
}

/// Four nibbles of the checksum, all 0, have room in block 0.
#[test]
fn empty_with_checksum() {
    let settings = sf_7(false, agreed(0, 1, true));
    for (name, code) in CODERS {
        assert_eq!(coded(code, &settings, &[]), [0; 8], "{name}");
    }
    expect(&settings, &[0; 8], &[], 0);
    // The word 01111 in symbol 0: bit 0 of codewords 0 to 3. Each is repaired.
    expect(&settings, &with(&[0; 8], 0, 40), &[], 4);
    // The same in symbol 5 makes two bits of each.
    let twice = with(&with(&[0; 8], 0, 40), 5, 40);
    expect_refusal(&settings, &twice, 7, 0);
    // Codeword 0 is D1 hex, the nibble 1: its bits 0, 4, 6 and 7 are the words 00001,
    // 00010, 10000 and 01000 of these symbols. The checksum would be 0001.
    let one = [4, 0, 0, 0, 12, 0, 124, 60];
    expect_refusal(&settings, &one, 12, 0);
    let off = sf_7(false, agreed(0, 1, false));
    expect(&off, &one, &[], 0);
}

/// A frame of 12 34 hex, checksum on, read as something else. Its nibbles are
/// D E A C 4 3 2 1, and the first whitening bytes FF FE FC F8.
#[test]
fn other_agreed_values() {
    let frame = two_bytes(1, false);
    let read_as = |length, cr, checksum| sf_7(false, agreed(length, cr, checksum));
    expect(&read_as(2, 1, false), &frame, &[0x12, 0x34], 0);
    expect(&read_as(1, 1, false), &frame, &[0x12], 0);
    expect(&read_as(0, 1, false), &frame, &[], 0);
    // 34 hex XOR FC, 12 hex XOR F8.
    expect(&read_as(3, 1, false), &frame, &[0x12, 0x34, 0xC8], 0);
    expect(&read_as(4, 1, false), &frame, &[0x12, 0x34, 0xC8, 0xEA], 0);
    // Eleven codewords behind block 0 would be two blocks.
    expect_refusal(&read_as(8, 1, false), &frame, 5, 18);
    // The checksum would be CA 34 hex, low byte first.
    expect_refusal(&read_as(1, 1, true), &frame, 12, 0);
    // Nothing but the first four nibbles is read, at 4/8 whatever CR.
    expect(&read_as(2, 4, false), &frame, &[0x12, 0x34], 0);
    expect_refusal(&read_as(2, 2, true), &frame, 5, 14);
    // One symbol more, and 4/6: the later codewords lack their bit 5.
    let more = [&frame[..], &[0]].concat();
    expect_refusal(&read_as(2, 2, true), &more, 7, 5);
}

/// What may be wrong with a call of read, put right from the first on.
#[derive(Clone)]
struct Call {
    settings: Settings,
    out: usize,
    hurts: usize,
    symbols: Vec<u16>,
}

impl Call {
    fn expect(&self, number: u8, place: usize) {
        for (name, read) in READERS {
            let answer = read_into(read, &self.settings, &self.symbols, self.out, self.hurts);
            assert_eq!(answer, Err(Refusal { number, place }), "{name}");
        }
    }
}

/// 1, 2, 3, 4 for the payload, 4 for the list, 5, 6, 7, 12: each is given while all
/// that come after it are there.
#[test]
fn order_of_the_refusals_of_read() {
    let mut call = Call {
        settings: Settings {
            sf: 6,
            low: false,
            kind: agreed(256, 0, true),
        },
        out: 1,
        hurts: 12,
        symbols: two_bytes(1, false),
    };
    // The nibbles 0 0 0 for 3 2 1: a wrong checksum.
    call.symbols[8..].fill(0);
    // Bit 0 of codeword 5, at 4/5.
    call.symbols[8] = 1;
    // Bits 0 and 2 of codeword 0, the word 10110 for 11110.
    (call.symbols[0], call.symbols[2]) = (0, 108);
    let readable_range = call.symbols.clone();
    (call.symbols[3], call.symbols[11]) = (128, 65_535);
    call.symbols.pop();

    call.expect(1, 0);
    call.settings.sf = 7;
    call.expect(2, 0);
    for cr in [5, 255] {
        call.settings.kind = agreed(256, cr, true);
        call.expect(2, 0);
    }
    for length in [256, 258, 65_538, 1 << 32 | 2, usize::MAX] {
        call.settings.kind = agreed(length, 1, true);
        call.expect(3, 0);
    }
    call.settings.kind = agreed(2, 1, true);
    call.expect(4, 2);
    let mut no_symbols = call.clone();
    no_symbols.symbols.clear();
    no_symbols.expect(4, 2);
    call.out = 2;
    call.expect(4, 13);
    call.hurts = 13;
    call.expect(5, 13);
    call.symbols.push(128);
    call.expect(6, 3);
    call.symbols[3] = readable_range[3];
    call.expect(6, 11);
    call.symbols[11] = 0;
    call.expect(6, 12);
    call.symbols = readable_range;
    call.expect(7, 0);
    call.symbols[0] = TWO_BYTES[0];
    call.expect(7, 5);
    call.symbols[8] = 0;
    call.expect(12, 0);
    call.symbols[8..].copy_from_slice(&BEHIND[..5]);
    // What is left is bit 2 of codeword 0.
    for (name, read) in READERS {
        let answer = read_into(read, &call.settings, &call.symbols, 2, 13);
        let (received, out, hurts) = answer.unwrap();
        assert_eq!((received.symbols, received.repairs), (13, 1), "{name}");
        assert_eq!(out, [0x12, 0x34], "{name}");
        assert_eq!(hurts, [0, 0, 1, 0, 0, 0, 0, 0, 0, 0, 0, 0, 0], "{name}");
    }
}

/// Code checks 1, 2, 3, 4; count 1, 2, 3; airtime then 13.
#[test]
fn order_of_the_other_refusals() {
    let refused = |number, place| Refusal { number, place };
    let expect = |settings: &Settings, length: usize, number| {
        let payload = vec![0; length];
        for (name, code) in CODERS {
            let mut out = [9; 12];
            let answer = code(settings, &payload, &mut out);
            assert_eq!(answer, Err(refused(number, 0)), "{name} {settings:?}");
            assert_eq!(out, [9; 12], "{name} {settings:?}");
        }
        let count = plain::count(settings, length);
        assert_eq!(count, Err(refused(number, 0)), "{settings:?}");
        let airtime = plain::airtime(settings, length, 126, 8);
        assert_eq!(airtime, Err(refused(number, 0)), "{settings:?}");
    };
    let settings = |sf, length, cr| Settings {
        sf,
        low: false,
        kind: agreed(length, cr, true),
    };
    expect(&settings(6, 3, 0), 2, 1);
    expect(&settings(13, 256, 0), 256, 1);
    expect(&settings(7, 3, 0), 2, 2);
    expect(&settings(7, 256, 5), 256, 2);
    // Another length than the agreed one, above 255, and both.
    for (agreed, length) in [
        (3, 2),
        (1, 2),
        (0, 2),
        (2, 0),
        (258, 2),
        (65_538, 2),
        (1 << 32 | 2, 2),
        (usize::MAX, 2),
        (256, 256),
        (600, 600),
        (255, 256),
        (256, 255),
    ] {
        expect(&settings(7, agreed, 1), length, 3);
    }
    let good = settings(7, 2, 1);
    for (name, code) in CODERS {
        let mut out = [9; 12];
        let answer = code(&good, &[0x12, 0x34], &mut out);
        assert_eq!(answer, Err(refused(4, 13)), "{name}");
        assert_eq!(out, [9; 12], "{name}");
        let mut out = [9; 14];
        assert_eq!(code(&good, &[0x12, 0x34], &mut out), Ok(13), "{name}");
        assert_eq!(out[..13], two_bytes(1, false), "{name}");
        assert_eq!(out[13], 9, "{name}");
    }
    assert_eq!(plain::count(&good, 2), Ok(13));
    let airtime = plain::airtime(&good, 2, 126, 8);
    assert_eq!(airtime, Err(refused(13, 0)));
    // (4(8 + 13) + 17) x 128 x 2 microseconds.
    assert_eq!(plain::airtime(&good, 2, 125, 8), Ok(25_856));
    // Head knows nothing of agreed values: codeword 0 would have to be a header's.
    assert_eq!(plain::head(7, &TWO_BYTES), Err(refused(9, 0)));
}

/// SF - 2 nibbles have room in block 0.
#[test]
fn numbers_of_symbols() {
    let rows = [
        // SF, low, length, CR, checksum
        ((7, false, 0, 1, false), 8),
        ((7, false, 2, 1, false), 8),  // 4 of 5
        ((7, false, 3, 1, false), 13), // 6 of 5, 1 behind
        ((7, false, 0, 4, true), 8),
        ((7, false, 1, 4, true), 16),  // 6 of 5
        ((7, false, 6, 2, false), 14), // 7 behind, of 7
        ((7, true, 6, 2, false), 20),  // 7 behind, of 5
        ((7, false, 6, 2, true), 20),  // 11 behind
        ((12, false, 5, 3, false), 8), // 10 of 10
        ((12, false, 3, 3, true), 8),
        ((12, false, 6, 3, false), 15),
        ((12, true, 11, 1, false), 18),   // 12 behind, of 10
        ((12, false, 11, 1, false), 13),  // 12 behind, of 12
        ((12, false, 255, 1, true), 218), // 504 behind, 42 blocks
        ((12, true, 255, 1, true), 263),  // 51 blocks
        ((7, true, 255, 4, true), 824),   // 509 behind, 102 blocks
    ];
    for ((sf, low, length, cr, checksum), symbols) in rows {
        let kind = agreed(length, cr, checksum);
        let settings = Settings { sf, low, kind };
        assert_eq!(plain::count(&settings, length), Ok(symbols), "{settings:?}");
    }
}

/// 001's formula with its bit for the missing header, 20 bits less.
#[test]
fn number_of_symbols_by_the_formula() {
    for number in 0..cases::SETTINGS {
        for length in 0..=255 {
            let settings = cases::settings(number).without_header(length);
            let Settings { sf, low, kind } = settings;
            let (sf, low) = (i64::from(sf), i64::from(low));
            let bits = 8 * length as i64 - 4 * sf + 28 + 16 * i64::from(kind.checksum()) - 20;
            let blocks = f64::ceil(bits as f64 / (4 * (sf - 2 * low)) as f64).max(0.0);
            let symbols = 8 + blocks as usize * (usize::from(kind.cr()) + 4);
            assert_eq!(plain::count(&settings, length), Ok(symbols), "{settings:?}");
            let mut out = [0; MOST_SYMBOLS];
            let coded = tuned::code(&settings, &vec![0; length], &mut out);
            assert_eq!(coded, Ok(symbols), "{settings:?}");
        }
    }
}

/// (4(8 + 8) + 17) x 2048 x 2 microseconds: eight nibbles of nine.
#[test]
fn time_on_air() {
    let kind = agreed(2, 1, true);
    let settings = Settings {
        sf: 11,
        low: false,
        kind,
    };
    assert_eq!(plain::airtime(&settings, 2, 125, 8), Ok(331_776));
    assert_eq!(plain::airtime(&settings, 2, 500, 8), Ok(82_944));
}

/// A frame with a header is no frame without one, and the other way round.
#[test]
fn the_other_kind() {
    // SF 7, empty, CR 1, flag off: the nibbles 0 0 2 0 7.
    let header = [124, 48, 28, 0, 56, 28, 12, 0];
    // 00 and 02 hex XOR FF and FE.
    expect(&sf_7(false, agreed(2, 1, false)), &header, &[0xFF, 0xFC], 0);
    let settings = sf_7(
        false,
        Kind::Explicit {
            cr: 1,
            checksum: true,
        },
    );
    assert_eq!(settings.kind.expected(), Expected::Explicit);
    expect_refusal(&settings, &two_bytes(1, false), 9, 0);
}
