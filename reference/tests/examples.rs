//! The examples of document 01, row by row, as document 02 changes them, and those
//! of the two programs.

use reference::plain::{self, block, bytes, codeword::codeword, header};
use reference::types::{Expected, Header, Kind, Read, Received, Refusal, Settings};
use reference::{text, tuned, wish};

const EMPTY: Settings = Settings {
    sf: 7,
    low: false,
    kind: Kind::Explicit {
        cr: 1,
        checksum: false,
    },
};
const EMPTY_FRAME: [u16; 8] = [124, 48, 28, 0, 56, 28, 12, 0];
const SF_11: Settings = Settings {
    sf: 11,
    low: false,
    kind: Kind::Explicit {
        cr: 1,
        checksum: true,
    },
};
const LARGEST: Settings = Settings {
    sf: 7,
    low: true,
    kind: Kind::Explicit {
        cr: 4,
        checksum: true,
    },
};

fn coded(settings: &Settings, payload: &[u8]) -> Vec<u16> {
    let mut out = [0; 832];
    let symbols = plain::code(settings, payload, &mut out).unwrap();
    out[..symbols].to_vec()
}

/// Reads the empty SF 7 frame with its first symbols replaced.
fn read_with_first(symbols: &[u16]) -> Result<Received, Refusal> {
    let mut frame = EMPTY_FRAME;
    frame[..symbols.len()].copy_from_slice(symbols);
    plain::read(7, false, Expected::Explicit, &frame, &mut [], &mut [0; 8])
}

fn read(text: &str) -> String {
    String::from_utf8(text::answer_line(text.as_bytes())).unwrap()
}

fn coded_line(wish: &str) -> String {
    String::from_utf8(wish::answer_line(wish.as_bytes())).unwrap()
}

fn repairs_with_first(symbol: u16) -> usize {
    read_with_first(&[symbol]).unwrap().repairs
}

/// The drift of an empty frame whose first symbol arrives as this number. One
/// symbol of block 0 can be any number: what it spoils is repaired.
fn drift_with_first(read: Read, sf: u8, symbol: u16) -> i8 {
    let mut frame = coded(&Settings { sf, ..EMPTY }, &[]);
    frame[0] = symbol;
    read(sf, false, Expected::Explicit, &frame, &mut [], &mut [0; 8])
        .unwrap()
        .drift
}

#[test]
fn codewords() {
    assert_eq!(
        [1, 7, 15].map(|nibble| codeword(nibble, 4)),
        [0xD1, 0x17, 0xFF]
    );
    assert_eq!(codeword(1, 3), 0x51);
    assert_eq!(codeword(8, 2), 0x28);
    assert_eq!(codeword(15, 1), 0x0F);
}

#[test]
fn whitening() {
    let wanted = [0xFF, 0xFE, 0xFC, 0xF8, 0xF0, 0xE1, 0xC2, 0x85, 0x0B, 0x17];
    assert_eq!(bytes::whitening()[..10], wanted);
}

#[test]
fn checksums() {
    assert_eq!(bytes::checksum(&[]), 0);
    assert_eq!(bytes::checksum(&[0x12, 0x34]), 0x1234);
    assert_eq!(bytes::checksum(&[1, 0, 0]), 0x1021);
    let sent = plain::data_nibbles(true, &[0x12, 0x34]);
    assert_eq!(sent[4..], [4, 3, 2, 1]);
}

#[test]
fn headers() {
    let two = Header {
        length: 2,
        cr: 1,
        checksum: true,
    };
    assert_eq!(header::nibbles(&two), [0, 2, 3, 0, 5]);
    let empty = Header {
        length: 0,
        cr: 1,
        checksum: false,
    };
    assert_eq!(header::nibbles(&empty), [0, 0, 2, 0, 7]);
}

#[test]
fn gray_step() {
    assert_eq!(block::value(372), 423);
}

#[test]
fn frames() {
    assert_eq!(coded(&EMPTY, &[]), EMPTY_FRAME);
    let wanted = [1692, 648, 348, 160, 400, 1748, 1124, 1136, 0, 0, 0, 0, 0];
    assert_eq!(coded(&SF_11, &[0, 0]), wanted);
    assert_eq!(plain::airtime(&SF_11, 2, 125, 8), Ok(413_696));
}

#[test]
fn damaged_frames() {
    assert_eq!(repairs_with_first(0), 1);
    // Document 02, Ask 2: 123 is just below its mark 124, and 127 below 0.
    assert_eq!(repairs_with_first(123), 0);
    assert_eq!(repairs_with_first(127), 1);
    assert_eq!(
        read_with_first(&[0, 0]),
        Err(Refusal {
            number: 7,
            place: 4
        })
    );
    assert_eq!(
        read_with_first(&[128]),
        Err(Refusal {
            number: 6,
            place: 0
        })
    );
    let seven = plain::read(
        7,
        false,
        Expected::Explicit,
        &EMPTY_FRAME[..7],
        &mut [],
        &mut [],
    );
    assert_eq!(
        seven,
        Err(Refusal {
            number: 5,
            place: 8
        })
    );
}

/// Document 02, Ask 2: at the start of the range, across a mark in its middle,
/// and at its end, where the mark is 0 again.
#[test]
fn drifts() {
    let sf_7 = [
        (0, 0),
        (1, 1),
        (2, -2),
        (3, -1),
        (4, 0),
        (62, -2),
        (63, -1),
        (64, 0),
        (65, 1),
        (122, -2),
        (123, -1),
        (124, 0),
        (125, 1),
        (126, -2),
        (127, -1),
    ];
    let sf_12 = [
        (0, 0),
        (1, 1),
        (2, -2),
        (3, -1),
        (4, 0),
        (2046, -2),
        (2047, -1),
        (2048, 0),
        (2049, 1),
        (4090, -2),
        (4091, -1),
        (4092, 0),
        (4093, 1),
        (4094, -2),
        (4095, -1),
    ];
    for (sf, rows) in [(7, sf_7), (12, sf_12)] {
        for (symbol, drift) in rows {
            for read in [plain::read, tuned::read] {
                assert_eq!(
                    drift_with_first(read, sf, symbol),
                    drift,
                    "SF {sf}, {symbol}"
                );
            }
        }
    }
}

/// Head reads the first symbols as read does.
#[test]
fn head_below_and_above_the_marks() {
    let sent = plain::head(7, &EMPTY_FRAME);
    let below = [122, 46, 26, 126, 54, 26, 10, 126];
    let above = [125, 49, 29, 1, 57, 29, 13, 1];
    for arrived in [below, above] {
        assert_eq!(plain::head(7, &arrived), sent);
    }
}

#[test]
fn refused_settings() {
    for sf in [6, 13] {
        let refusal = Refusal {
            number: 1,
            place: 0,
        };
        let settings = Settings { sf, ..EMPTY };
        assert_eq!(plain::code(&settings, &[], &mut [0; 8]), Err(refusal));
        assert_eq!(plain::count(&settings, 0), Err(refusal));
        assert_eq!(plain::airtime(&settings, 0, 125, 8), Err(refusal));
        assert_eq!(plain::head(sf, &EMPTY_FRAME), Err(refusal));
        assert_eq!(
            plain::read(
                sf,
                false,
                Expected::Explicit,
                &EMPTY_FRAME,
                &mut [],
                &mut []
            ),
            Err(refusal)
        );
    }
    assert_eq!(plain::count(&LARGEST, 255), Ok(832));
    let short = plain::code(&LARGEST, &[0; 255], &mut [0; 831]);
    assert_eq!(
        short,
        Err(Refusal {
            number: 4,
            place: 832
        })
    );
    let long = Err(Refusal {
        number: 3,
        place: 0,
    });
    assert_eq!(plain::code(&LARGEST, &[0; 256], &mut [0; 900]), long);
    assert_eq!(plain::count(&LARGEST, 256), long);
    let no_bandwidth = plain::airtime(&LARGEST, 255, 126, 8);
    assert_eq!(
        no_bandwidth,
        Err(Refusal {
            number: 13,
            place: 0
        })
    );
}

#[test]
fn reading_program() {
    let symbols =
        |how_many: usize| format!("7 0 124 48 28 0 56 28 12 0{}", " 9".repeat(how_many - 8));
    let rows = [
        ("7 0 124 48 28 0 56 28 12 0", "ok 0 1 0 8 0 -\n"),
        (
            "\n 007  00000\n124 48 28 0 56 28 12 0 \n",
            "ok 0 1 0 8 0 -\n",
        ),
        (&symbols(832), "ok 0 1 0 8 0 -\n"),
        (&symbols(833), "no 14 0\n"),
        ("7 0", "no 5 8\n"),
        ("", "no 14 0\n"),
        (" \n", "no 14 0\n"),
        ("7", "no 14 0\n"),
        ("7 2", "no 14 0\n"),
        ("6 2", "no 14 0\n"),
        ("6 1", "no 1 0\n"),
        ("65535 0", "no 1 0\n"),
        ("263 0 124 48 28 0 56 28 12 0", "no 1 0\n"),
        ("65536 0", "no 14 0\n"),
        ("000007 0", "no 14 0\n"),
        ("7\t0", "no 14 0\n"),
        ("7 0\r\n", "no 14 0\n"),
        ("7 -0", "no 14 0\n"),
        ("7 0 124 48 28 0 56 28 12 0 70000", "no 14 0\n"),
    ];
    for (text, line) in rows {
        assert_eq!(read(text), line, "{text:?}");
    }
    let text = "11 0 1692 648 348 160 400 1748 1124 1136 0 0 0 0 0";
    assert_eq!(read(text), "ok 2 1 1 13 0 0000\n");
}

/// Accepted, and wrong: at 4/7 two symbols changed in a block can be taken for
/// one, and the checksum of what comes out can be right. 6F0074A6F401 was sent.
#[test]
fn frame_taken_for_another() {
    let text = "12 0 1564 520 3812 332 1944 80 1824 108 293 1113 3618 1104 4080 1299 404";
    assert_eq!(read(text), "ok 6 3 1 15 7 6F0074A6F402\n");
}

#[test]
fn coding_program() {
    let empty = "7 0 124 48 28 0 56 28 12 0\n";
    let two = "11 0 1692 648 348 160 400 1748 1124 1136 0 0 0 0 0\n";
    let bytes = |how_many: usize| format!("7 1 4 1 {}", "aB".repeat(how_many));
    let rows = [
        ("7 0 1 0 -", empty),
        ("  007  00000   1 0 - ", empty),
        ("11 0 1 1 0000", two),
        (&bytes(256), "no 3 0\n"),
        (&bytes(65_536), "no 3 0\n"),
        ("6 0 1 0 -", "no 1 0\n"),
        ("263 0 1 0 -", "no 1 0\n"),
        ("65535 0 9 0 -", "no 1 0\n"),
        ("7 0 5 0 -", "no 2 0\n"),
        ("7 0 258 0 -", "no 2 0\n"),
        (&bytes(256).replacen('4', "0", 1), "no 2 0\n"),
        (&bytes(256).replacen('7', "13", 1), "no 1 0\n"),
        ("", "no 14 0\n"),
        ("   ", "no 14 0\n"),
        ("7 0 1 0", "no 14 0\n"),
        ("7 0 1 0 - -", "no 14 0\n"),
        ("7 2 1 0 -", "no 14 0\n"),
        ("7 0 1 2 -", "no 14 0\n"),
        ("6 2 9 0 -", "no 14 0\n"),
        ("65536 0 1 0 -", "no 14 0\n"),
        ("000007 0 1 0 -", "no 14 0\n"),
        ("7 0 1 0 0", "no 14 0\n"),
        ("7 0 1 0 000", "no 14 0\n"),
        ("7 0 1 0 --", "no 14 0\n"),
        ("7 0 1 0 -00", "no 14 0\n"),
        ("7 0 1 0 0G", "no 14 0\n"),
        ("7 0 - 0 00", "no 14 0\n"),
        ("7 0 1 0 -\r", "no 14 0\n"),
        ("7\t0 1 0 -", "no 14 0\n"),
        (&(bytes(600) + "0"), "no 14 0\n"),
        (&(bytes(600) + "0g"), "no 14 0\n"),
    ];
    for (line, answer) in rows {
        assert_eq!(coded_line(line), answer, "{line:?}");
    }
}

/// What the coding program prints is what the reading program takes.
#[test]
fn coded_lines_are_read() {
    for (wish, line) in [
        ("7 1 4 1 00fF80", "ok 3 4 1 24 0 00FF80\n"),
        ("12 0 2 0 6F0074A6F401", "ok 6 2 0 14 0 6F0074A6F401\n"),
    ] {
        assert_eq!(read(&coded_line(wish)), line, "{wish:?}");
    }
}
