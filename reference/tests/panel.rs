//! The program that tallies captures (document 02, Ask 6), by examples worked out by
//! hand from captures whose answers `tests/examples.rs` and `tests/agreed_programs.rs`
//! have.

use reference::panel::Panel;
use reference::plain::tally::Tally;

/// SF 7, empty, CR 1, flag off.
const EMPTY: &str = "7 0 124 48 28 0 56 28 12 0";

fn ran(input: &str) -> (String, String) {
    let panel = Panel::new(input.as_bytes());
    (panel.shown(), panel.closing())
}

fn wanted(panel: &str, closing: &str) -> (String, String) {
    (panel.to_string(), closing.to_string())
}

const NOTHING: &str = "\
frames heard: 0
accepted clean: 0
accepted repaired: 0
refused 1, SF not 7 to 12: 0
refused 2, CR not 1 to 4: 0
refused 3, length above 255: 0
refused 4, room too short: 0
refused 5, too few symbols: 0
refused 6, symbol too large: 0
refused 7, codeword not readable: 0
refused 9, header check wrong: 0
refused 10, header bit set: 0
refused 11, header CR unknown: 0
refused 12, payload checksum wrong: 0
no capture, 14: 0
not counted, 17: 0
";

#[test]
fn no_captures() {
    assert_eq!(ran(""), wanted(NOTHING, "end 0 0 0 0\n"));
    // One text, and it is empty: no frame was heard.
    let one = NOTHING.replace("no capture, 14: 0", "no capture, 14: 1");
    assert_eq!(ran("\n"), wanted(&one, "end 1 0 0 1\n"));
}

#[test]
fn every_line_of_the_panel() {
    let captures = [
        EMPTY,
        "7 0 123 48 28 0 56 28 12 0",       // read as its mark: clean
        "= 1 1 0 7 0 4 0 0 32 12 8 4 124",  // clean, without a header
        "7 0 0 48 28 0 56 28 12 0",         // one repair
        "= 1 4 0 7 1 4 84 0 32 12 8 4 124", // two repairs
        "7 0",                              // 5
        "7 0 128 48 28 0 56 28 12 0",       // 6
        "7 0 0 0 28 0 56 28 12 0",          // 7
        "7 0 128 0 28 0 56 28 12 0",        // 6
        "6 0 124 48 28 0 56 28 12 0",       // 1
        "= 256 0 0 7 0",                    // 2
        "= 256 1 0 7 0",                    // 3
        "= 1 0 0 7 0",                      // 2
        "= 0 1 1 7 0 4 0 0 0 12 0 124 60",  // 12
        "7 0 0 0 0 0 0 0 0 0",              // 11: all codewords 0, so CR 0
        "7 0 124 0 0 0 4 0 60 28",          // 9: header nibbles 0 0 0 0 1
        "7 0 0 28 0 0 124 60 28 0",         // 10: header nibbles 0 0 0 2 0
        "7 2",                              // no capture
        "",                                 // no capture
        "= 7 0",                            // no capture
        "= 257 1 0 7 0 4",                  // 3
        "= 300 1 0 7 0",                    // 3
        "7 1 0 28 0 0 124 60 28 0 9",       // 10
    ]
    .join("\n");
    let panel = "\
frames heard: 20
accepted clean: 3
accepted repaired: 2
refused 1, SF not 7 to 12: 1
refused 2, CR not 1 to 4: 2
refused 3, length above 255: 3
refused 4, room too short: 0
refused 5, too few symbols: 1
refused 6, symbol too large: 2
refused 7, codeword not readable: 1
refused 9, header check wrong: 1
refused 10, header bit set: 2
refused 11, header CR unknown: 1
refused 12, payload checksum wrong: 1
no capture, 14: 3
not counted, 17: 0
";
    let wanted = wanted(panel, "end 23 3 2 18\n");
    assert_eq!(ran(&captures), wanted);
    // A line end behind the last text makes no difference.
    assert_eq!(ran(&(captures + "\n")), wanted);
}

/// Behind 2^32 - 1 captures heard: an outcome more is not counted, and the closing
/// line says so. What is no capture is told from that.
#[test]
fn a_full_tally() {
    let nearly = Tally {
        heard: u32::MAX - 1,
        clean: u32::MAX - 4,
        repaired: 2,
        refused: [0, 1, 0, 0, 0, 0, 0, 0, 0, 0, 0, 0, 0],
    };
    let mut panel = Panel::after(nearly);
    panel.add(b"7 0\n");
    assert_eq!(panel.closing(), "end 4294967295 4294967291 2 2\n");
    panel.add(format!("{EMPTY}\nx\n7 0\n").as_bytes());
    let shown = NOTHING
        .replace("frames heard: 0", "frames heard: 4294967295")
        .replace("accepted clean: 0", "accepted clean: 4294967291")
        .replace("accepted repaired: 0", "accepted repaired: 2")
        .replace(
            "refused 1, SF not 7 to 12: 0",
            "refused 1, SF not 7 to 12: 1",
        )
        .replace("too few symbols: 0", "too few symbols: 1")
        .replace("no capture, 14: 0", "no capture, 14: 1")
        .replace("not counted, 17: 0", "not counted, 17: 2");
    assert_eq!(panel.shown(), shown);
    assert_eq!(panel.closing(), "full 4294967298 4294967291 2 3\n");
}
