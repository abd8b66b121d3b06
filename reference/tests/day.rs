//! The day's file of document 02, Ask 1, by examples worked out by hand.

use reference::plain::day::{
    judge, step, write, write_rows, Day, Entry, Frame, Place, RefusedFrame, Section, Setting, START,
};
use reference::types::Refusal;

/// Two settings, two frames, two refused frames.
const FILE: [u8; 30] = [
    1, // the first byte
    2, 7, 0, 12, 1, // settings, from byte 1
    2, // frames, from byte 6
    1, 4, 1, 2, 1, 2, 0xAB, 0x00, // 258 repairs, two bytes
    0, 1, 0, 0, 0, 0, // no repairs, no bytes
    2, // refused frames, from byte 21
    0, 5, 64, 3, // place 832
    1, 12, 0, 0,
];

fn day() -> Day {
    Day {
        settings: vec![setting(7, 0), setting(12, 1)],
        frames: vec![frame(1, 4, 1, 258, &[0xAB, 0]), frame(0, 1, 0, 0, &[])],
        refused: vec![refused(0, 5, 832), refused(1, 12, 0)],
    }
}

fn setting(sf: u8, low: u8) -> Setting {
    Setting { sf, low }
}

fn frame(setting: u8, cr: u8, flag: u8, repairs: u16, payload: &[u8]) -> Frame {
    Frame {
        setting,
        cr,
        flag,
        repairs,
        payload: payload.to_vec(),
    }
}

fn refused(setting: u8, number: u8, place: u16) -> RefusedFrame {
    RefusedFrame {
        setting,
        number,
        place,
    }
}

fn refusal(number: u8, place: usize) -> Refusal {
    Refusal { number, place }
}

/// The number and place that a file is refused with, 0 and 0 if it is taken.
fn verdict(file: &[u8]) -> (u8, usize) {
    judge(file).map_or_else(|refusal| (refusal.number, refusal.place), |_| (0, 0))
}

/// The example with some bytes replaced.
fn with(changes: &[(usize, u8)]) -> Vec<u8> {
    let mut file = FILE.to_vec();
    for &(place, byte) in changes {
        file[place] = byte;
    }
    file
}

/// A day of one setting, for entries that name it.
fn one_setting(frames: Vec<Frame>, refused: Vec<RefusedFrame>) -> Day {
    Day {
        settings: vec![setting(7, 0)],
        frames,
        refused,
    }
}

#[test]
fn example_both_ways() {
    assert_eq!(write(&day()).unwrap(), FILE);
    assert_eq!(judge(&FILE).unwrap(), day());
    assert_eq!(write(&Day::default()).unwrap(), [1, 0, 0, 0]);
    assert_eq!(judge(&[1, 0, 0, 0]).unwrap(), Day::default());
}

#[test]
fn fields_at_their_ends() {
    let taken = |changes: &[(usize, u8)]| judge(&with(changes)).unwrap();
    assert_eq!(
        taken(&[(2, 12), (3, 0)]).settings,
        [setting(12, 0), setting(12, 1)]
    );
    assert_eq!(
        taken(&[(2, 7), (4, 7)]).settings,
        [setting(7, 0), setting(7, 1)]
    );
    for (low, high, number) in [
        (0, 0, 0),
        (1, 0, 1),
        (255, 0, 255),
        (0, 1, 256),
        (0, 255, 65_280),
        (255, 255, 65_535),
    ] {
        assert_eq!(taken(&[(10, low), (11, high)]).frames[0].repairs, number);
        assert_eq!(taken(&[(28, low), (29, high)]).refused[1].place, number);
    }
    for cr in 1..=4 {
        assert_eq!(taken(&[(8, cr)]).frames[0].cr, cr);
    }
    for flag in [0, 1] {
        assert_eq!(taken(&[(9, flag)]).frames[0].flag, flag);
        assert_eq!(taken(&[(7, flag)]).frames[0].setting, flag);
        assert_eq!(taken(&[(22, flag)]).refused[0].setting, flag);
    }
    for number in [4, 5, 6, 7, 9, 10, 11, 12] {
        assert_eq!(taken(&[(23, number)]).refused[0].number, number);
    }
    for length in [0, 1, 254, 255] {
        let payload: Vec<u8> = (0..length).map(|i| i as u8).collect();
        let day = one_setting(vec![frame(0, 1, 0, 0, &payload)], vec![]);
        let mut file = vec![1, 1, 7, 0, 1, 0, 1, 0, 0, 0, length as u8];
        file.extend(payload);
        file.push(0);
        assert_eq!(write(&day).unwrap(), file);
        assert_eq!(judge(&file).unwrap(), day);
    }
}

#[test]
fn bytes_missing_or_left_over() {
    for length in 0..FILE.len() {
        assert_eq!(verdict(&FILE[..length]), (15, length));
    }
    for further in [vec![0], vec![1], vec![0; 70_000]] {
        let file = [FILE.to_vec(), further].concat();
        assert_eq!(verdict(&file), (15, 30));
    }
    // A payload longer than the rest of the file.
    assert_eq!(verdict(&with(&[(20, 10)])), (15, 30));
    // One refused frame more, one fewer.
    assert_eq!(verdict(&with(&[(21, 3)])), (15, 30));
    assert_eq!(verdict(&with(&[(21, 1)])), (15, 26));
    assert_eq!(verdict(&[1, 0, 0, 0, 0]), (15, 4));
}

#[test]
fn fields_outside_their_ranges() {
    let rows: [(usize, &[u8]); 12] = [
        (0, &[0, 2, 255]),
        (2, &[0, 6, 13, 255]),
        (3, &[2, 255]),
        (5, &[2, 255]),
        (7, &[2, 255]),
        (8, &[0, 5, 255]),
        (9, &[2, 255]),
        (15, &[2, 255]),
        (16, &[0, 5, 255]),
        (22, &[2, 255]),
        (23, &[0, 1, 2, 3, 8, 13, 14, 255]),
        (27, &[0, 3, 8, 13, 255]),
    ];
    for (place, bytes) in rows {
        for &byte in bytes {
            assert_eq!(verdict(&with(&[(place, byte)])), (16, place), "{byte}");
        }
    }
    // The free ones.
    for place in [10, 11, 13, 14, 18, 19, 24, 25, 28, 29] {
        assert_eq!(verdict(&with(&[(place, 255)])), (0, 0));
    }
}

#[test]
fn pair_given_again() {
    assert_eq!(verdict(&with(&[(4, 7), (5, 0)])), (16, 5));
    assert_eq!(verdict(&with(&[(2, 12), (3, 1)])), (16, 5));
    // Not the pair beside it, but the one before that.
    assert_eq!(verdict(&[1, 3, 8, 1, 9, 1, 8, 1, 0, 0]), (16, 7));
    assert_eq!(verdict(&[1, 3, 8, 1, 9, 1, 8, 0, 0, 0]), (0, 0));
    // A flag that is none is at fault at the same byte.
    assert_eq!(verdict(&[1, 2, 8, 1, 8, 2, 0, 0]), (16, 5));
    // Flag and next SF are no pair.
    assert_eq!(verdict(&[1, 3, 7, 1, 7, 0, 8, 0, 0, 0]), (0, 0));
}

#[test]
fn index_with_no_setting() {
    assert_eq!(verdict(&[1, 0, 1, 0, 1, 0, 0, 0, 0, 0]), (16, 3));
    assert_eq!(verdict(&[1, 0, 0, 1, 0, 4, 0, 0]), (16, 4));
    assert_eq!(verdict(&[1, 1, 7, 0, 1, 1, 1, 0, 0, 0, 0, 0]), (16, 5));
    assert_eq!(verdict(&[1, 1, 7, 0, 1, 0, 1, 0, 0, 0, 0, 0]), (0, 0));
}

#[test]
fn earlier_byte_first() {
    for (changes, wanted) in [
        (vec![(0, 2), (2, 6)], (16, 0)),
        (vec![(2, 6), (3, 2)], (16, 2)),
        (vec![(3, 2), (4, 13)], (16, 3)),
        (vec![(7, 2), (8, 0), (9, 2)], (16, 7)),
        (vec![(8, 0), (9, 2)], (16, 8)),
        (vec![(9, 2), (23, 3)], (16, 9)),
        (vec![(22, 2), (23, 3)], (16, 22)),
        (vec![(23, 13), (26, 2)], (16, 23)),
        (vec![(23, 8), (27, 8)], (16, 23)),
        // Bytes are missing too, behind the field at fault.
        (vec![(16, 9), (20, 255)], (16, 16)),
        (vec![(20, 255), (23, 3)], (15, 30)),
    ] {
        assert_eq!(verdict(&with(&changes)), wanted, "{changes:?}");
    }
    // A fault and then a cut, a cut before the fault, a fault and then too much.
    let file = with(&[(8, 5)]);
    assert_eq!(verdict(&file[..9]), (16, 8));
    assert_eq!(verdict(&file[..8]), (15, 8));
    assert_eq!(verdict(&[with(&[(27, 3)]), vec![0]].concat()), (16, 27));
}

#[test]
fn full_sections() {
    let full = one_setting(
        vec![frame(0, 1, 0, 0, &[]); 255],
        vec![refused(0, 4, 0); 255],
    );
    let file = write(&full).unwrap();
    assert_eq!(file.len(), 4 + 1 + 255 * 6 + 1 + 255 * 4);
    assert_eq!((file[4], file[5 + 255 * 6]), (255, 255));
    assert_eq!(judge(&file).unwrap(), full);

    let over = Err(refusal(16, 0));
    let frames = one_setting(vec![frame(0, 1, 0, 0, &[]); 256], vec![]);
    assert_eq!(write(&frames), over);
    let refused_frames = one_setting(vec![], vec![refused(0, 4, 0); 256]);
    assert_eq!(write(&refused_frames), over);
}

/// 12 settings, 255 frames of 255 bytes, 255 refused frames.
#[test]
fn longest_file() {
    let longest = Day {
        settings: (7..=12)
            .flat_map(|sf| [setting(sf, 0), setting(sf, 1)])
            .collect(),
        frames: vec![frame(11, 4, 1, 65_535, &[255; 255]); 255],
        refused: vec![refused(11, 12, 65_535); 255],
    };
    let file = write(&longest).unwrap();
    assert_eq!(file.len(), 67_603);
    assert_eq!(judge(&file).unwrap(), longest);
}

#[test]
fn entries_that_cannot_be_written() {
    let bad_settings = [(6, 0), (13, 0), (0, 0), (255, 1), (7, 2), (12, 255)];
    for (sf, low) in bad_settings {
        let settings = vec![setting(sf, low)];
        let day = Day {
            settings,
            ..Day::default()
        };
        assert_eq!(write(&day), Err(refusal(16, 0)), "{sf} {low}");
    }
    let twice = Day {
        settings: vec![setting(9, 1), setting(9, 0), setting(9, 1)],
        ..Day::default()
    };
    assert_eq!(write(&twice), Err(refusal(16, 0)));
    for bad in [
        frame(1, 1, 0, 0, &[]),
        frame(255, 1, 0, 0, &[]),
        frame(0, 0, 0, 0, &[]),
        frame(0, 5, 0, 0, &[]),
        frame(0, 1, 2, 0, &[]),
        frame(0, 1, 0, 0, &[0; 256]),
    ] {
        let day = one_setting(vec![frame(0, 4, 1, 9, &[1]), bad], vec![]);
        assert_eq!(write(&day), Err(refusal(16, 0)), "{day:?}");
    }
    for bad in [
        refused(1, 4, 0),
        refused(0, 3, 0),
        refused(0, 8, 0),
        refused(0, 13, 0),
        refused(0, 14, 0),
        refused(0, 1, 0),
    ] {
        let day = one_setting(vec![], vec![bad]);
        assert_eq!(write(&day), Err(refusal(16, 0)), "{day:?}");
    }
}

const SETTING_ROWS: [u8; 4] = [7, 0, 12, 1];
const FRAME_ROWS: [u16; 10] = [1, 4, 1, 258, 2, 0, 1, 0, 0, 0];
const PAYLOADS: [u8; 2] = [0xAB, 0];
const REFUSED_ROWS: [u16; 6] = [0, 5, 832, 1, 12, 0];

#[test]
fn rows_and_room() {
    let mut out = [0x5A; 32];
    let write =
        |out: &mut [u8]| write_rows(&SETTING_ROWS, &FRAME_ROWS, &PAYLOADS, &REFUSED_ROWS, out);
    assert_eq!(write(&mut out), Ok(30));
    assert_eq!(out[..30], FILE);
    assert_eq!(out[30..], [0x5A; 2]);
    assert_eq!(write(&mut [0; 30]), Ok(30));

    for room in [0, 1, 29] {
        let mut out = vec![0x5A; room];
        assert_eq!(write(&mut out), Err(refusal(4, 30)));
        assert_eq!(out, vec![0x5A; room]);
    }
    let mut none = [0x5A; 4];
    assert_eq!(write_rows(&[], &[], &[], &[], &mut none), Ok(4));
    assert_eq!(none, [1, 0, 0, 0]);
    assert_eq!(
        write_rows(&[], &[], &[], &[], &mut none[..3]),
        Err(refusal(4, 4))
    );
}

#[test]
fn rows_that_cannot_be_written() {
    // 16 comes before 4, so room makes no difference; nothing is written.
    let refused = |settings: &[u8], frames: &[u16], payloads: &[u8], refused: &[u16]| {
        [0, 100].iter().all(|&room| {
            let mut out = vec![0x5A; room];
            let answer = write_rows(settings, frames, payloads, refused, &mut out);
            answer == Err(refusal(16, 0)) && out == vec![0x5A; room]
        })
    };
    assert!(refused(&SETTING_ROWS[..3], &[], &[], &[]));
    for cut in 1..5 {
        assert!(refused(
            &SETTING_ROWS,
            &FRAME_ROWS[..10 - cut],
            &PAYLOADS,
            &[]
        ));
    }
    for cut in 1..3 {
        assert!(refused(&SETTING_ROWS, &[], &[], &REFUSED_ROWS[..6 - cut]));
    }
    // Payload bytes that don't match their lengths.
    assert!(refused(&SETTING_ROWS, &FRAME_ROWS, &PAYLOADS[..1], &[]));
    assert!(refused(&SETTING_ROWS, &FRAME_ROWS, &[0; 3], &[]));
    assert!(refused(&SETTING_ROWS, &[], &[0], &[]));
    assert!(refused(&SETTING_ROWS, &[0, 1, 0, 0, 256], &[0; 256], &[]));
    // Right if cut to a byte.
    assert!(refused(&SETTING_ROWS, &[256, 1, 0, 0, 0], &[], &[]));
    assert!(refused(&SETTING_ROWS, &[0, 257, 0, 0, 0], &[], &[]));
    assert!(refused(&SETTING_ROWS, &[0, 1, 256, 0, 0], &[], &[]));
    assert!(refused(&SETTING_ROWS, &[], &[], &[256, 4, 0]));
    assert!(refused(&SETTING_ROWS, &[], &[], &[0, 260, 0]));
    assert!(refused(&SETTING_ROWS, &[], &[], &[0, 8, 0]));
    // More than a section holds.
    assert!(refused(
        &SETTING_ROWS,
        &[0, 1, 0, 0, 0].repeat(256),
        &[],
        &[]
    ));
    assert!(refused(&SETTING_ROWS, &[], &[], &[0, 4, 0].repeat(256)));
    // No setting for the index.
    assert!(refused(&[], &[0, 1, 0, 0, 0], &[], &[]));
}

fn place(at: usize, section: Section, left: usize, settings: usize) -> Place {
    Place {
        at,
        section,
        left,
        settings,
    }
}

#[test]
fn walk_of_the_example() {
    use Section::*;
    let [first, second] = [frame(1, 4, 1, 258, &[0xAB, 0]), frame(0, 1, 0, 0, &[])];
    let walk = [
        (Entry::Setting(setting(7, 0)), place(4, Settings, 1, 2)),
        (Entry::Setting(setting(12, 1)), place(6, Settings, 0, 2)),
        (
            Entry::Frame {
                frame: first,
                start: 13,
            },
            place(15, Frames, 1, 2),
        ),
        (
            Entry::Frame {
                frame: second,
                start: 21,
            },
            place(21, Frames, 0, 2),
        ),
        (Entry::Refused(refused(0, 5, 832)), place(26, Refused, 1, 2)),
        (Entry::Refused(refused(1, 12, 0)), place(30, Refused, 0, 2)),
        (Entry::End, place(30, Refused, 0, 2)),
    ];
    let mut here = START;
    for (entry, behind) in walk {
        assert_eq!(step(&FILE, here), Ok((entry, behind)));
        here = behind;
    }
}

#[test]
fn walk_over_empty_sections() {
    // The place stays at the end, even if edges were passed to find it.
    assert_eq!(step(&[1, 0, 0, 0], START), Ok((Entry::End, START)));
    assert_eq!(step(&[], START), Err(refusal(15, 0)));
    assert_eq!(step(&[2], START), Err(refusal(16, 0)));
    assert_eq!(step(&[1], START), Err(refusal(15, 1)));
    assert_eq!(step(&[1, 0], START), Err(refusal(15, 2)));
    assert_eq!(step(&[1, 0, 0], START), Err(refusal(15, 3)));
    assert_eq!(step(&[1, 0, 0, 0, 0], START), Err(refusal(15, 4)));
    let only_refused = [1, 1, 7, 0, 0, 1, 0, 4, 9, 0];
    let (_, behind) = step(&only_refused, START).unwrap();
    assert_eq!(behind, place(4, Section::Settings, 0, 1));
    assert_eq!(
        step(&only_refused, behind),
        Ok((
            Entry::Refused(refused(0, 4, 9)),
            place(10, Section::Refused, 0, 1)
        ))
    );
}

#[test]
fn places_of_no_walk() {
    use Section::*;
    // Beyond the file: the byte there is missing.
    for section in [Start, Settings, Frames] {
        let beyond = place(usize::MAX, section, 0, 0);
        assert_eq!(step(&FILE, beyond), Err(refusal(15, usize::MAX)));
    }
    assert_eq!(step(&FILE, place(31, Refused, 1, 1)), Err(refusal(15, 31)));
    // Behind the last entry and not at the end.
    for at in [0, 29, 31, usize::MAX] {
        assert_eq!(step(&FILE, place(at, Refused, 0, 0)), Err(refusal(15, at)));
    }
    // The settings that count are those of the place.
    let frame_place = place(7, Frames, usize::MAX, 1);
    assert_eq!(step(&FILE, frame_place), Err(refusal(16, 7)));
    let (_, behind) = step(&FILE, place(7, Frames, usize::MAX, 2)).unwrap();
    assert_eq!(behind, place(15, Frames, usize::MAX - 1, 2));
    // A start elsewhere: byte 9 is 1, byte 10 says two settings, byte 11 is no SF.
    assert_eq!(step(&FILE, place(9, Start, 5, 5)), Err(refusal(16, 11)));
}
