//! The programs that keep and show a day, by examples worked out by hand from
//! frames of document 01's examples.

use reference::keep::keep;
use reference::show::show;
use reference::types::{Kind, Refusal, Settings};

/// SF 7, empty, CR 1, flag off.
const EMPTY: &str = "7 0 124 48 28 0 56 28 12 0";
/// SF 11, payload 00 00, CR 1, flag on.
const TWO: &str = "11 0 1692 648 348 160 400 1748 1124 1136 0 0 0 0 0";

fn kept(input: &str) -> (Vec<u8>, String) {
    let (file, errors) = keep(input.as_bytes());
    (file.unwrap(), errors)
}

fn shown(file: &[u8]) -> String {
    String::from_utf8(show(file)).unwrap()
}

#[test]
fn nothing_to_keep() {
    assert_eq!(kept(""), (vec![1, 0, 0, 0], "kept 0 0 0 0\n".to_string()));
    // One text, and it is empty.
    let errors = "line 1: no 14 0\nkept 0 0 0 1\n".to_string();
    assert_eq!(kept("\n"), (vec![1, 0, 0, 0], errors));
}

#[test]
fn settings_by_first_use() {
    let repaired = EMPTY.replace("124", "0");
    let input = [
        "x",                          // line 1: no text
        "12 1 0",                     // refused with 5: the first setting used
        "6 0 1 2 3",                  // line 3: no SF
        TWO,                          // the second setting
        EMPTY,                        // the third
        "",                           // line 6: no text
        &repaired,                    // the third again, one repair
        "7 0 0 0 28 0 56 28 12 0",    // refused with 7, place 4
        "7 0 128 48 28 0 56 28 12 0", // refused with 6, place 0
        "12 1",                       // refused with 5, the first again
    ]
    .join("\n");
    let file = [
        &[1, 3, 12, 1, 11, 0, 7, 0][..],
        &[3, 1, 1, 1, 0, 0, 2, 0, 0],
        &[2, 1, 0, 0, 0, 0, 2, 1, 0, 1, 0, 0],
        &[4, 0, 5, 8, 0, 2, 7, 4, 0, 2, 6, 0, 0, 0, 5, 8, 0],
    ]
    .concat();
    let errors = "line 1: no 14 0\nline 3: no 1 0\nline 6: no 14 0\nkept 3 1 4 3\n";
    assert_eq!(kept(&input), (file.clone(), errors.to_string()));
    // A line end behind the last text makes no difference.
    assert_eq!(kept(&(input + "\n")), (file.clone(), errors.to_string()));
    assert_eq!(
        shown(&file),
        "setting 0 12 1\nsetting 1 11 0\nsetting 2 7 0\n\
         frame 1 1 1 0 2 0000\nframe 2 1 0 0 0 -\nframe 2 1 0 1 0 -\n\
         refused 0 5 8\nrefused 2 7 4\nrefused 2 6 0\nrefused 0 5 8\n\
         end 3 4\n"
    );
}

/// Frames with and without a header in one day (document 02, Ask 4).
#[test]
fn both_kinds() {
    let input = [
        "= 1 1 0 7 0 4 0 0 32 12 8 4 124",   // 76 hex
        EMPTY,                               // the same setting
        "= 256 1 0 7 0 4",                   // line 3: no length
        "= 1 5 0 12 1 4",                    // line 4: no CR
        "= 1 1 0 13 1 4",                    // line 5: no SF
        "= 1 1 2 7 1 4",                     // line 6: no flag
        "= 255 4 1 7 1",                     // refused with 5, place 824: the second setting
        "= 0 2 1 7 1 40 0 0 0 0 0 0 0",      // four repairs, no bytes
        "=1 3 0 7 1 0 0 0 60 12 8 4 124",    // refused with 7, place 0
        "= 0 1 1 7 0 4 0 0 0 12 0 124 60",   // refused with 12
        "= 0 4 0 7 0 1 2 3 4 5 6 128 65535", // refused with 6, place 6
        TWO,                                 // the third setting
    ]
    .join("\n");
    let file = [
        &[1, 3, 7, 0, 7, 1, 11, 0][..],
        &[4, 0, 1, 0, 0, 0, 1, 0x76],
        &[0, 1, 0, 0, 0, 0],
        &[1, 2, 1, 4, 0, 0],
        &[2, 1, 1, 0, 0, 2, 0, 0],
        &[4, 1, 5, 56, 3, 1, 7, 0, 0, 0, 12, 0, 0, 0, 6, 6, 0],
    ]
    .concat();
    let errors = "line 3: no 3 0\nline 4: no 2 0\nline 5: no 1 0\nline 6: no 14 0\nkept 4 1 4 4\n";
    assert_eq!(kept(&input), (file, errors.to_string()));
}

/// The largest frame, cut after eight symbols, lacks the 832nd: 64 and 3 times 256.
#[test]
fn place_in_two_bytes() {
    let settings = Settings {
        sf: 7,
        low: true,
        kind: Kind::Explicit {
            cr: 4,
            checksum: true,
        },
    };
    let mut symbols = [0; 832];
    reference::plain::code(&settings, &[0; 255], &mut symbols).unwrap();
    let words: Vec<String> = symbols[..8].iter().map(u16::to_string).collect();
    let (file, _) = kept(&format!("7 1 {}", words.join(" ")));
    assert_eq!(file, [1, 1, 7, 1, 0, 1, 0, 5, 64, 3]);
    assert_eq!(shown(&file), "setting 0 7 1\nrefused 0 5 832\nend 0 1\n");
}

#[test]
fn more_than_a_section_holds() {
    let full = format!("{EMPTY}\n").repeat(255);
    let (file, errors) = kept(&full);
    assert_eq!((file[4], errors.as_str()), (255, "kept 255 0 0 0\n"));
    let refusal = Refusal {
        number: 16,
        place: 0,
    };
    let over = format!("{full}x\n{EMPTY}");
    let errors = "line 256: no 14 0\nno 16 0\n".to_string();
    assert_eq!(keep(over.as_bytes()), (Err(refusal), errors));
    let over = "7 0\n".repeat(256);
    assert_eq!(
        keep(over.as_bytes()),
        (Err(refusal), "no 16 0\n".to_string())
    );
    // Of both kinds together there may be more than 255.
    let (_, errors) = kept(&(full + &"7 0\n".repeat(255)));
    assert_eq!(errors, "kept 255 0 255 0\n");
}

#[test]
fn files_shown() {
    assert_eq!(shown(&[1, 0, 0, 0]), "end 0 0\n");
    assert_eq!(shown(&[]), "no 15 0\n");
    assert_eq!(shown(&[2]), "no 16 0\n");
    // Nothing is shown of a file that is refused.
    assert_eq!(shown(&[1, 1, 7, 0, 0, 0, 0]), "no 15 6\n");
    assert_eq!(
        shown(&[1, 1, 12, 1, 1, 0, 4, 1, 255, 255, 3, 0, 10, 0xFE, 0]),
        "setting 0 12 1\nframe 0 4 1 65535 3 000AFE\nend 1 0\n"
    );
}
