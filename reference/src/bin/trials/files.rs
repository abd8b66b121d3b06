//! Files for the program that shows a day: good ones and every kind of damage,
//! each with what is known of it from how it was made.

use reference::cases::days::{all_settings, day, fields, file_of, small, Field};
use reference::plain::day::{Day, Frame, RefusedFrame, Setting, NUMBERS};
use reference::random::Random;
use reference::show::show;
use std::collections::BTreeMap;
use std::fmt;

/// Why a file is refused, or that it is taken.
#[derive(Clone, Copy, Debug, PartialEq, Eq, PartialOrd, Ord)]
pub enum Ground {
    Taken,
    /// The first byte that is missing.
    Missing(Field),
    LeftOver,
    Outside(Field),
    PairAgain,
    /// Of a file with no settings at all.
    IndexWithoutSettings,
}

impl fmt::Display for Ground {
    fn fmt(&self, f: &mut fmt::Formatter) -> fmt::Result {
        write!(f, "{self:?}")
    }
}

/// Longer than any file.
const TOO_LONG: usize = 70_000;
/// Files damaged at random, and good ones.
const AT_RANDOM: usize = 100;

/// Files one behind the other, each after its length in four bytes, low first;
/// and what the program must print for them.
#[derive(Default)]
pub struct Files {
    pub packed: Vec<u8>,
    pub shown: Vec<u8>,
    pub count: usize,
    grounds: BTreeMap<Ground, usize>,
}

impl Files {
    pub fn new(random: &mut Random) -> Files {
        let mut files = Files::default();
        files.good(random);
        files.cut(&small());
        files.left_over(&small());
        files.one_byte_changed(&smallest());
        files.two_faults(&smallest());
        files.pairs_given_again();
        files.indexes();
        files.long();
        files.at_random(random);
        files
    }

    pub fn print(&self) {
        for (ground, times) in &self.grounds {
            println!("{ground}: {times}");
        }
    }

    /// The grounds that never occurred.
    pub fn missing(&self) -> Vec<String> {
        let mut wanted = vec![
            Ground::Taken,
            Ground::LeftOver,
            Ground::PairAgain,
            Ground::IndexWithoutSettings,
        ];
        for field in Field::ALL {
            wanted.push(Ground::Missing(field));
            if !field.outside(0).is_empty() {
                wanted.push(Ground::Outside(field));
            }
        }
        wanted.retain(|ground| !self.grounds.contains_key(ground));
        wanted.iter().map(Ground::to_string).collect()
    }

    fn add(&mut self, file: &[u8]) -> Vec<u8> {
        let length = u32::try_from(file.len()).unwrap();
        self.packed.extend(length.to_le_bytes());
        self.packed.extend(file);
        let shown = show(file);
        self.shown.extend(&shown);
        self.count += 1;
        shown
    }

    /// Adds a file whose refusal is known.
    fn refused(&mut self, file: &[u8], ground: Ground, place: usize) {
        let number = match ground {
            Ground::Missing(_) | Ground::LeftOver => 15,
            _ => 16,
        };
        let shown = self.add(file);
        let wanted = format!("no {number} {place}\n");
        assert_eq!(String::from_utf8_lossy(&shown), wanted, "{ground}");
        *self.grounds.entry(ground).or_default() += 1;
    }

    /// Adds the file of a good day.
    fn taken(&mut self, day: &Day) {
        let shown = self.add(&file_of(day));
        let end = format!("end {} {}\n", day.frames.len(), day.refused.len());
        assert!(shown.ends_with(end.as_bytes()), "{day:?}");
        *self.grounds.entry(Ground::Taken).or_default() += 1;
    }

    fn good(&mut self, random: &mut Random) {
        self.taken(&Day::default());
        self.taken(&small());
        self.taken(&smallest());
        let mut frame = smallest().frames[0].clone();
        frame.setting = 0;
        let settings = vec![Setting { sf: 7, low: 0 }];
        self.taken(&Day {
            settings: settings.clone(),
            frames: vec![frame; 255],
            refused: Vec::new(),
        });
        self.taken(&Day {
            settings,
            frames: Vec::new(),
            refused: vec![smallest().refused[0]; 255],
        });
        for _ in 0..AT_RANDOM {
            // Full days are long, and there are some already.
            let day = day(random);
            if day.frames.len() + day.refused.len() < 20 {
                self.taken(&day);
            }
        }
    }

    fn cut(&mut self, day: &Day) {
        let file = file_of(day);
        for (length, &field) in fields(day).iter().enumerate() {
            self.refused(&file[..length], Ground::Missing(field), length);
        }
    }

    fn left_over(&mut self, day: &Day) {
        let file = file_of(day);
        for further in [vec![0], vec![1], vec![255; 9], file.clone()] {
            let long = [&file[..], &further].concat();
            self.refused(&long, Ground::LeftOver, file.len());
        }
    }

    /// Each byte in turn, with all other values.
    fn one_byte_changed(&mut self, day: &Day) {
        let file = file_of(day);
        for (place, &field) in fields(day).iter().enumerate() {
            let outside = field.outside(day.settings.len());
            for value in 0..=255 {
                let mut changed = file.clone();
                changed[place] = value;
                if outside.contains(&value) {
                    self.refused(&changed, Ground::Outside(field), place);
                } else if value != file[place] {
                    self.add(&changed);
                }
            }
        }
    }

    /// Two bytes outside their ranges, or one and a wrong end: the earlier decides.
    fn two_faults(&mut self, day: &Day) {
        let file = file_of(day);
        let mut faults = Vec::new();
        for (place, &field) in fields(day).iter().enumerate() {
            if let Some(&value) = field.outside(day.settings.len()).first() {
                faults.push((place, field, value));
            }
        }
        for (i, &(place, field, value)) in faults.iter().enumerate() {
            let mut changed = file.clone();
            changed[place] = value;
            for &(later, _, value) in &faults[i + 1..] {
                let mut twice = changed.clone();
                twice[later] = value;
                self.refused(&twice, Ground::Outside(field), place);
            }
            self.refused(&changed[..=place], Ground::Outside(field), place);
            self.refused(&changed[..place], Ground::Missing(field), place);
            changed.push(0);
            self.refused(&changed, Ground::Outside(field), place);
        }
    }

    fn pairs_given_again(&mut self) {
        let pairs: Vec<[u8; 2]> = all_settings().iter().map(|s| [s.sf, s.low]).collect();
        for again in &pairs {
            let twice = [1, 2, again[0], again[1], again[0], again[1], 0, 0];
            self.refused(&twice, Ground::PairAgain, 5);
            // Behind all twelve: the count is 13.
            let mut file = vec![1, 13];
            file.extend(pairs.concat());
            file.extend(again);
            file.extend([0, 0]);
            self.refused(&file, Ground::PairAgain, 2 + 2 * 12 + 1);
        }
    }

    /// The last index that a setting stands for, and the one behind it.
    fn indexes(&mut self) {
        for count in 0..=12 {
            let settings = all_settings()[..count].to_vec();
            let place = 2 + 2 * count + 1;
            let [frame, refused] =
                [Field::FrameIndex, Field::RefusedIndex].map(|field| match count {
                    0 => Ground::IndexWithoutSettings,
                    _ => Ground::Outside(field),
                });
            let mut file = file_of(&Day {
                settings: settings.clone(),
                ..Day::default()
            });
            file.truncate(place - 1);
            let index = count as u8;
            let one_frame = [&file[..], &[1, index, 1, 0, 0, 0, 0, 0]].concat();
            self.refused(&one_frame, frame, place);
            let one_refused = [&file[..], &[0, 1, index, 4, 0, 0]].concat();
            self.refused(&one_refused, refused, place + 1);
            if count > 0 {
                let setting = index - 1;
                let (mut frames, mut refused) = (smallest().frames, smallest().refused);
                frames[0].setting = setting;
                refused[0].setting = setting;
                self.taken(&Day {
                    settings,
                    frames,
                    refused,
                });
            }
        }
    }

    fn long(&mut self) {
        let longest = longest();
        let file = file_of(&longest);
        self.taken(&longest);
        let last = file.len() - 1;
        self.refused(&file[..last], Ground::Missing(Field::PlaceHigh), last);
        let mut long = file.clone();
        long.resize(TOO_LONG, 0);
        self.refused(&long, Ground::LeftOver, file.len());
        let mut long = file_of(&Day::default());
        long.resize(TOO_LONG, 0);
        self.refused(&long, Ground::LeftOver, 4);
        self.refused(&[0; TOO_LONG], Ground::Outside(Field::First), 0);
    }

    /// Damage of which nothing is known beforehand: bytes put in, taken out and
    /// changed, and bytes that were no file.
    fn at_random(&mut self, random: &mut Random) {
        for _ in 0..AT_RANDOM {
            let mut file = file_of(&small());
            for _ in 0..1 + random.below(3) {
                let place = random.below(file.len());
                let value = random.below(14) as u8;
                match random.below(3) {
                    0 => file[place] = value,
                    1 => file.insert(place, value),
                    _ => {
                        file.remove(place);
                    }
                }
            }
            self.add(&file);
            let length = random.below(40);
            let mut noise: Vec<u8> = (0..length).map(|_| random.below(14) as u8).collect();
            if let Some(first) = noise.first_mut() {
                *first = 1;
            }
            self.add(&noise);
        }
    }
}

/// A file with every field at its ends.
pub fn every_end() -> Day {
    let settings = all_settings();
    let mut index = (0..settings.len() as u8).cycle();
    let mut length = [0, 1, 254, 255].into_iter().cycle();
    let mut frames = Vec::new();
    for cr in 1..=4 {
        for flag in [0, 1] {
            for repairs in [0, 1, 255, 256, 65_535] {
                let first = frames.len();
                frames.push(Frame {
                    setting: index.next().unwrap(),
                    cr,
                    flag,
                    repairs,
                    payload: (first..first + length.next().unwrap())
                        .map(|byte| byte as u8)
                        .collect(),
                });
            }
        }
    }
    let mut refused = Vec::new();
    for number in NUMBERS {
        for place in [0, 255, 256, 65_535] {
            refused.push(RefusedFrame {
                setting: index.next().unwrap(),
                number,
                place,
            });
        }
    }
    Day {
        settings,
        frames,
        refused,
    }
}

/// Each section has an entry, and there are two settings.
fn smallest() -> Day {
    let [a, b] = [(7, 0), (12, 1)].map(|(sf, low)| Setting { sf, low });
    Day {
        settings: vec![a, b],
        frames: vec![Frame {
            setting: 1,
            cr: 3,
            flag: 1,
            repairs: 256,
            payload: vec![10],
        }],
        refused: vec![RefusedFrame {
            setting: 0,
            number: 7,
            place: 255,
        }],
    }
}

fn longest() -> Day {
    let frame = |i: usize| Frame {
        setting: (i % 12) as u8,
        cr: 1 + (i % 4) as u8,
        flag: (i % 2) as u8,
        repairs: 257 * i as u16,
        payload: (i..i + 255).map(|byte| byte as u8).collect(),
    };
    let refused = |i: usize| RefusedFrame {
        setting: (i % 12) as u8,
        number: NUMBERS[i % NUMBERS.len()],
        place: 65_535 - i as u16,
    };
    Day {
        settings: all_settings(),
        frames: (0..255).map(frame).collect(),
        refused: (0..255).map(refused).collect(),
    }
}
