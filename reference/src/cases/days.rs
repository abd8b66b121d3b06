//! Days to try, and what can be wrong with their files.

use crate::plain::day::{self, Day, Frame, RefusedFrame, Setting};
use crate::random::Random;

/// What a byte of a file is.
#[derive(Clone, Copy, Debug, PartialEq, Eq, PartialOrd, Ord)]
pub enum Field {
    First,
    SettingsCount,
    Sf,
    Low,
    FramesCount,
    FrameIndex,
    Cr,
    Flag,
    RepairsLow,
    RepairsHigh,
    Length,
    Payload,
    RefusedCount,
    RefusedIndex,
    Number,
    PlaceLow,
    PlaceHigh,
}

impl Field {
    pub const ALL: [Field; 17] = [
        Field::First,
        Field::SettingsCount,
        Field::Sf,
        Field::Low,
        Field::FramesCount,
        Field::FrameIndex,
        Field::Cr,
        Field::Flag,
        Field::RepairsLow,
        Field::RepairsHigh,
        Field::Length,
        Field::Payload,
        Field::RefusedCount,
        Field::RefusedIndex,
        Field::Number,
        Field::PlaceLow,
        Field::PlaceHigh,
    ];

    /// The values next to this field's range in a file of so many settings, or
    /// within its gap, and the end of a byte; none for a field that is free.
    pub fn outside(self, settings: usize) -> Vec<u8> {
        match self {
            Field::First => vec![0, 2, 255],
            Field::Sf => vec![6, 13, 255],
            Field::Low | Field::Flag => vec![2, 255],
            Field::FrameIndex | Field::RefusedIndex => vec![settings as u8, 255],
            Field::Cr => vec![0, 5, 255],
            Field::Number => vec![3, 8, 13, 255],
            _ => Vec::new(),
        }
    }
}

/// What each byte of a day's file is.
pub fn fields(day: &Day) -> Vec<Field> {
    use Field::*;
    let mut fields = vec![First, SettingsCount];
    for _ in &day.settings {
        fields.extend([Sf, Low]);
    }
    fields.push(FramesCount);
    for frame in &day.frames {
        fields.extend([FrameIndex, Cr, Flag, RepairsLow, RepairsHigh, Length]);
        fields.extend(vec![Payload; frame.payload.len()]);
    }
    fields.push(RefusedCount);
    for _ in &day.refused {
        fields.extend([RefusedIndex, Number, PlaceLow, PlaceHigh]);
    }
    fields
}

/// All twelve settings.
pub fn all_settings() -> Vec<Setting> {
    (7..=12)
        .flat_map(|sf| [0, 1].map(|low| Setting { sf, low }))
        .collect()
}

/// A good day, mostly short, at times full.
pub fn day(random: &mut Random) -> Day {
    let mut settings = all_settings();
    let kept = match random.below(8) {
        0 => 0,
        1 => settings.len(),
        _ => 1 + random.below(4),
    };
    for i in 0..kept {
        let other = i + random.below(settings.len() - i);
        settings.swap(i, other);
    }
    settings.truncate(kept);
    // With no settings there is none to name.
    let mut entries = || match random.below(64) {
        _ if kept == 0 => 0,
        0 => 255,
        1 => random.below(256),
        _ => random.below(4),
    };
    let (frames, refused) = (entries(), entries());
    Day {
        frames: (0..frames).map(|_| frame(kept, random)).collect(),
        refused: (0..refused).map(|_| refused_frame(kept, random)).collect(),
        settings,
    }
}

fn frame(settings: usize, random: &mut Random) -> Frame {
    let length = match random.below(32) {
        0 => 254 + random.below(2),
        1 => random.below(256),
        _ => random.below(4),
    };
    Frame {
        setting: random.below(settings) as u8,
        cr: 1 + random.below(4) as u8,
        flag: random.below(2) as u8,
        repairs: two_bytes(random),
        payload: random.bytes(length),
    }
}

fn refused_frame(settings: usize, random: &mut Random) -> RefusedFrame {
    RefusedFrame {
        setting: random.below(settings) as u8,
        number: random.pick(&day::NUMBERS),
        place: two_bytes(random),
    }
}

fn two_bytes(random: &mut Random) -> u16 {
    match random.below(3) {
        0 => random.pick(&[0, 1, 255, 256, 257, 65_280, 65_535]),
        1 => random.below(20) as u16,
        _ => random.number() as u16,
    }
}

/// A day whose sections have more than one entry each.
pub fn small() -> Day {
    let [a, b, c] = [(7, 1), (12, 0), (12, 1)].map(|(sf, low)| Setting { sf, low });
    let frame = |setting, payload: &[u8]| Frame {
        setting,
        cr: 4,
        flag: 1,
        repairs: 258,
        payload: payload.to_vec(),
    };
    let refused = |setting, number| RefusedFrame {
        setting,
        number,
        place: 832,
    };
    Day {
        settings: vec![a, b, c],
        frames: vec![frame(2, &[1, 10, 255]), frame(0, &[])],
        refused: vec![refused(1, 5), refused(2, 12)],
    }
}

/// The file of a day that can be written.
pub fn file_of(day: &Day) -> Vec<u8> {
    day::write(day).expect("a good day")
}

/// A file, and what becomes of it where one byte is changed to any other, taken
/// out or put in, or where it is cut: at every offset.
pub fn every_damage(file: &[u8]) -> Vec<Vec<u8>> {
    let mut files = vec![file.to_vec()];
    for place in 0..=file.len() {
        files.push(file[..place].to_vec());
        for value in 0..=255 {
            if place < file.len() {
                let mut changed = file.to_vec();
                changed[place] = value;
                files.push(changed);
            }
            let mut longer = file.to_vec();
            longer.insert(place, value);
            files.push(longer);
        }
        if place < file.len() {
            let mut shorter = file.to_vec();
            shorter.remove(place);
            files.push(shorter);
        }
    }
    files
}

/// A file: good, damaged in one place or some, or bytes that were none.
pub fn file(random: &mut Random) -> Vec<u8> {
    let day = day(random);
    let mut file = file_of(&day);
    match random.below(8) {
        0 | 1 => {}
        2 => put_outside(&mut file, &day, random),
        3 => {
            put_outside(&mut file, &day, random);
            put_outside(&mut file, &day, random);
        }
        4 => give_a_pair_again(&mut file, &day, random),
        5 => {
            for _ in 0..1 + random.below(3) {
                damage(&mut file, random);
            }
        }
        6 => {
            put_outside(&mut file, &day, random);
            damage(&mut file, random);
        }
        _ => file = noise(random),
    }
    file
}

/// Takes one field out of its range.
fn put_outside(file: &mut [u8], day: &Day, random: &mut Random) {
    let fields = fields(day);
    let ranged: Vec<usize> = (0..fields.len())
        .filter(|&place| !fields[place].outside(0).is_empty())
        .collect();
    let place = random.pick(&ranged);
    file[place] = random.pick(&fields[place].outside(day.settings.len()));
}

fn give_a_pair_again(file: &mut [u8], day: &Day, random: &mut Random) {
    if day.settings.is_empty() {
        return;
    }
    let [from, to] = [(); 2].map(|_| 2 + 2 * random.below(day.settings.len()));
    file.copy_within(from..from + 2, to);
}

/// Cuts the file, puts bytes behind it, or changes, takes out or puts in a byte.
fn damage(file: &mut Vec<u8>, random: &mut Random) {
    let place = random.below(file.len() + 1);
    let value = if random.flag() {
        random.byte()
    } else {
        random.below(14) as u8
    };
    match random.below(5) {
        0 => file.truncate(place),
        1 => {
            let further = 1 + random.below(3);
            file.extend(random.bytes(further));
        }
        2 if place < file.len() => file[place] = value,
        3 if place < file.len() => {
            file.remove(place);
        }
        _ => file.insert(place, value),
    }
}

/// Bytes that were no file: any, or such as a file has.
fn noise(random: &mut Random) -> Vec<u8> {
    let length = random.below(60);
    let mut bytes = random.bytes(length);
    if random.flag() {
        bytes.iter_mut().for_each(|byte| *byte %= 14);
        if let Some(first) = bytes.first_mut() {
            *first = 1;
        }
    }
    bytes
}

/// A day as the rows of numbers that the writer takes.
#[derive(Clone, Debug, Default, PartialEq)]
pub struct Rows {
    pub settings: Vec<u8>,
    pub frames: Vec<u16>,
    pub payloads: Vec<u8>,
    pub refused: Vec<u16>,
}

impl Rows {
    pub fn of(day: &Day) -> Rows {
        let mut rows = Rows::default();
        for setting in &day.settings {
            rows.settings.extend([setting.sf, setting.low]);
        }
        for frame in &day.frames {
            rows.frames.extend([
                frame.setting.into(),
                frame.cr.into(),
                frame.flag.into(),
                frame.repairs,
                frame.payload.len() as u16,
            ]);
            rows.payloads.extend(&frame.payload);
        }
        for refused in &day.refused {
            rows.refused
                .extend([refused.setting.into(), refused.number.into(), refused.place]);
        }
        rows
    }

    /// Whether no row is cut short.
    pub fn whole(&self) -> bool {
        self.settings.len().is_multiple_of(2)
            && self.frames.len().is_multiple_of(5)
            && self.refused.len().is_multiple_of(3)
    }

    /// Makes rows that can't be written, mostly.
    pub fn spoil(&mut self, random: &mut Random) {
        match random.below(10) {
            0 => cut_short(&mut self.settings, 2, random),
            1 => cut_short(&mut self.frames, 5, random),
            2 => cut_short(&mut self.refused, 3, random),
            3 => match random.flag() {
                true => self.payloads.push(0),
                false => self
                    .payloads
                    .truncate(self.payloads.len().saturating_sub(1)),
            },
            4 => {
                let number = random.pick(&[0, 1, 2, 6, 7, 12, 13, 255]);
                replace(&mut self.settings, number, random);
            }
            5 => replace(&mut self.frames, bad_number(random), random),
            6 => replace(&mut self.refused, bad_number(random), random),
            // A pair given again, a frame and a refused frame too many.
            7 => repeat(
                &mut self.settings,
                2,
                random.pick(&[1, 11, 254, 255]),
                random,
            ),
            8 => repeat(
                &mut self.refused,
                3,
                random.pick(&[1, 254, 255, 256, 300]),
                random,
            ),
            _ => self.lengthen(random),
        }
    }

    /// One frame more, or some, the payload bytes with them; too long at times.
    fn lengthen(&mut self, random: &mut Random) {
        let length = random.pick(&[0, 0, 0, 255, 256, 257, 511, 512]);
        for _ in 0..random.pick(&[1, 1, 1, 254, 255, 256]) {
            self.frames.extend([0, 1, 0, 0, length]);
            self.payloads.extend(random.bytes(length.into()));
        }
    }
}

/// Numbers beside the ranges; some would come out right if cut to a byte.
fn bad_number(random: &mut Random) -> u16 {
    match random.below(4) {
        0 => random.number() as u16,
        1 => random.below(16) as u16,
        2 => 256 + random.below(16) as u16,
        _ => random.pick(&[254, 255, 256, 511, 512, 65_280, 65_535]),
    }
}

fn cut_short<T>(rows: &mut Vec<T>, row: usize, random: &mut Random) {
    let numbers = rows.len().saturating_sub(1 + random.below(row - 1));
    rows.truncate(numbers);
}

fn replace<T>(rows: &mut [T], number: T, random: &mut Random) {
    if !rows.is_empty() {
        rows[random.below(rows.len())] = number;
    }
}

fn repeat<T: Clone>(rows: &mut Vec<T>, row: usize, times: usize, random: &mut Random) {
    if rows.len() >= row {
        let first = row * random.below(rows.len() / row);
        let again = rows[first..first + row].to_vec();
        (0..times).for_each(|_| rows.extend(again.clone()));
    }
}
