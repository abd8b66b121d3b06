//! The texts of frames without a header (document 02, Ask 4), by examples worked out
//! by hand: those of `tests/agreed.rs`, and bad ones.

use reference::{hurt, text, wish};

fn answer(program: fn(&[u8]) -> Vec<u8>, line: &str) -> String {
    String::from_utf8(program(line.as_bytes())).unwrap()
}

/// Captures: the mark with and without spaces, a second one, too few numbers, flags
/// that are none, numbers out of range, and the refusals of read.
#[test]
fn captures() {
    let symbols = |how_many: usize| {
        format!(
            "= 1 1 0 7 0 4 0 0 32 12 8 4 124{}",
            " 9".repeat(how_many - 8)
        )
    };
    let ok = "ok 1 1 0 8 0 76\n";
    let rows = [
        ("= 1 1 0 7 0 4 0 0 32 12 8 4 124", ok),
        ("=1 1 0 7 0 4 0 0 32 12 8 4 124", ok),
        ("   =   1  1 0 7 0 4 0 0 32 12 8 4 124  ", ok),
        (" =00001 001 00 07 0 4 0 0 32 12 8 4 00124", ok),
        (&symbols(832), ok),
        (&symbols(833), "no 14 0\n"),
        (
            "= 2 1 1 7 0 4 8 80 88 68 112 28 36 6 126 0 0 32 9",
            "ok 2 1 1 13 0 1234\n",
        ),
        (
            "= 3 1 0 7 0 4 8 80 88 68 112 28 36 6 126 0 0 32",
            "ok 3 1 0 13 0 1234C8\n",
        ),
        ("= 1 4 0 7 1 0 84 0 32 12 8 4 124", "no 7 0\n"),
        ("= 1 4 0 7 1 4 84 0 32 12 8 4 124", "ok 1 4 0 8 2 76\n"),
        ("= 0 1 0 7 0 1 2 3 4 5 6 7 127", "ok 0 1 0 8 0 -\n"),
        ("= 0 1 0 7 0 1 2 3 4 5 6 7 128", "no 6 7\n"),
        ("= 0 1 0 7 0 1 2 3 4 5 6 128", "no 5 8\n"),
        ("= 0 1 0 7 0", "no 5 8\n"),
        ("= 255 4 1 7 1", "no 5 824\n"),
        ("= 0 1 1 7 0 4 0 0 0 12 0 124 60", "no 12 0\n"),
        // 3 after 2 after 1.
        ("= 256 1 0 7 0", "no 3 0\n"),
        ("= 65535 1 0 7 0 4", "no 3 0\n"),
        ("= 257 1 0 7 0 4 0 0 32 12 8 4 124", "no 3 0\n"),
        ("= 256 0 0 7 0", "no 2 0\n"),
        ("= 256 5 0 7 0", "no 2 0\n"),
        ("= 1 300 0 7 0 4 0 0 32 12 8 4 124", "no 2 0\n"),
        ("= 1 257 0 7 0 4 0 0 32 12 8 4 124", "no 2 0\n"),
        ("= 1 65535 0 7 0", "no 2 0\n"),
        ("= 256 0 0 6 0", "no 1 0\n"),
        ("= 1 1 0 263 0 4 0 0 32 12 8 4 124", "no 1 0\n"),
        // No text.
        ("=", "no 14 0\n"),
        ("  =  ", "no 14 0\n"),
        ("= 1 1 0 7", "no 14 0\n"),
        ("= 7 0", "no 14 0\n"),
        ("= 1 1 2 7 0", "no 14 0\n"),
        ("= 1 1 0 7 2", "no 14 0\n"),
        ("= 256 0 2 6 0", "no 14 0\n"),
        ("= 65536 1 0 7 0", "no 14 0\n"),
        ("= 1 99999 0 7 0", "no 14 0\n"),
        ("= 000001 1 0 7 0", "no 14 0\n"),
        ("= 1 1 0 7 0 4 0 0 32 12 8 4 124 65536", "no 14 0\n"),
        ("== 1 1 0 7 0 4 0 0 32 12 8 4 124", "no 14 0\n"),
        ("= = 1 1 0 7 0 4 0 0 32 12 8 4 124", "no 14 0\n"),
        ("= 1 = 1 0 7 0 4 0 0 32 12 8 4 124", "no 14 0\n"),
        ("= 1 1 0 7 0 4 0 0 32 12 8 4 124 =", "no 14 0\n"),
        ("= 1 1 0 7 0 4 0 0 32 12 8 4 124=", "no 14 0\n"),
        ("1 = 1 0 7 0 4 0 0 32 12 8 4 124", "no 14 0\n"),
        ("1= 1 0 7 0 4 0 0 32 12 8 4 124", "no 14 0\n"),
        ("7 0 124 48 28 0 56 28 12 0 =", "no 14 0\n"),
        ("\t= 1 1 0 7 0 4 0 0 32 12 8 4 124", "no 14 0\n"),
        ("=\t1 1 0 7 0 4 0 0 32 12 8 4 124", "no 14 0\n"),
        ("= -1 1 0 7 0", "no 14 0\n"),
        ("= 1 1 0 7 0 4 0 0 32 12 8 4 124\r", "no 14 0\n"),
        // Document 01's text, and what is none of either kind.
        ("7 0 124 48 28 0 56 28 12 0", "ok 0 1 0 8 0 -\n"),
        ("  7 0", "no 5 8\n"),
        ("", "no 14 0\n"),
        ("   ", "no 14 0\n"),
    ];
    for (line, wanted) in rows {
        assert_eq!(answer(text::capture_line, line), wanted, "{line:?}");
    }
    // The reading program knows no mark.
    assert_eq!(answer(text::answer_line, rows[0].0), "no 14 0\n");
}

#[test]
fn captures_of_hurt_symbols() {
    let rows = [
        ("= 1 1 0 7 0 4 0 0 32 12 8 4 124", "ok\n"),
        ("=1 1 0 7 0 0 0 0 32 12 8 4 124", "ok 0:1\n"),
        (" = 1 3 0 7 0 0 0 0 28 12 8 4 124", "ok 0:1 3:1\n"),
        ("= 1 4 0 7 1 4 84 0 32 12 8 4 124", "ok 1:2\n"),
        ("= 1 4 0 7 1 4 44 0 32 12 8 4 124", "ok\n"),
        ("= 0 4 0 7 1 4 84 0 32 12 8 4 124", "ok\n"),
        (
            "= 2 3 1 7 0 4 8 80 88 68 112 28 36 7 126 0 0 32 8 8",
            "ok 8:1\n",
        ),
        (
            "= 2 2 1 7 0 4 8 80 88 68 112 28 36 7 126 0 0 32 8",
            "no 7 5\n",
        ),
        ("= 256 1 0 7 0", "no 3 0\n"),
        ("= 1 0 0 7 0", "no 2 0\n"),
        ("= 1 1 0 7", "no 14 0\n"),
        ("7 0 0 48 28 0 56 28 12 0", "ok 0:1\n"),
    ];
    for (line, wanted) in rows {
        assert_eq!(answer(hurt::answer_line, line), wanted, "{line:?}");
    }
}

#[test]
fn wishes() {
    let one = "= 1 1 0 7 0 4 0 0 32 12 8 4 124\n";
    let bytes =
        |length: usize, how_many: usize| format!("= {length} 7 0 1 0 {}", "aB".repeat(how_many));
    let rows = [
        ("= 1 7 0 1 0 76", one),
        ("=1 7 0 1 0 76", one),
        ("  =  00001  07 0 1 0   76 ", one),
        ("= 0 7 0 1 0 -", "= 0 1 0 7 0 0 0 0 0 0 0 0 0\n"),
        (
            "= 2 7 0 1 1 1234",
            "= 2 1 1 7 0 4 8 80 88 68 112 28 36 6 126 0 0 32\n",
        ),
        (
            "= 2 7 1 3 1 1234",
            "= 2 3 1 7 1 4 8 80 88 68 112 28 36 24 120 0 0 32 8 8\n",
        ),
        // 3 after 2 after 1.
        ("= 2 7 0 1 0 76", "no 3 0\n"),
        ("= 1 7 0 1 0 -", "no 3 0\n"),
        ("= 0 7 0 1 0 76", "no 3 0\n"),
        ("= 257 7 0 1 0 76", "no 3 0\n"),
        (&bytes(256, 256), "no 3 0\n"),
        (&bytes(65_535, 65_535), "no 3 0\n"),
        ("= 2 7 0 0 0 76", "no 2 0\n"),
        ("= 1 7 0 300 0 76", "no 2 0\n"),
        ("= 1 7 0 257 0 76", "no 2 0\n"),
        ("= 2 6 0 0 0 76", "no 1 0\n"),
        ("= 1 263 0 1 0 76", "no 1 0\n"),
        // No text.
        ("=", "no 14 0\n"),
        ("= 1 7 0 1 0", "no 14 0\n"),
        ("= 7 0 1 0 76", "no 14 0\n"),
        ("= 1 7 0 1 0 76 76", "no 14 0\n"),
        ("= - 7 0 1 0 76", "no 14 0\n"),
        ("= 1 7 2 1 0 76", "no 14 0\n"),
        ("= 1 7 0 1 2 76", "no 14 0\n"),
        ("= 65536 7 0 1 0 76", "no 14 0\n"),
        ("= 000001 7 0 1 0 76", "no 14 0\n"),
        ("= 1 7 0 1 0 7", "no 14 0\n"),
        ("== 1 7 0 1 0 76", "no 14 0\n"),
        ("= = 1 7 0 1 0 76", "no 14 0\n"),
        ("= 1 = 7 0 1 0 76", "no 14 0\n"),
        ("1 = 7 0 1 0 76", "no 14 0\n"),
        ("= 1 7 0 1 0 76=", "no 14 0\n"),
        ("1 7 0 1 0 76", "no 14 0\n"),
        ("7 0 1 0 =76", "no 14 0\n"),
        ("7 0 1 0 -", "7 0 124 48 28 0 56 28 12 0\n"),
    ];
    for (line, wanted) in rows {
        assert_eq!(answer(wish::answer_line, line), wanted, "{line:?}");
    }
    // What is made is read.
    for (wish, wanted) in [
        ("= 3 7 1 4 1 00fF80", "ok 3 4 1 16 0 00FF80\n"),
        ("=6 12 0 2 0 6F0074A6F401", "ok 6 2 0 14 0 6F0074A6F401\n"),
    ] {
        let made = answer(wish::answer_line, wish);
        assert_eq!(
            answer(text::capture_line, made.trim_end()),
            wanted,
            "{wish:?}"
        );
    }
}
