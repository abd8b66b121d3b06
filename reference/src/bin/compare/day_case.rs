//! One input to a function of the day's file.

use crate::case::cells_around;
use reference::cases::days::{self, Rows};
use reference::plain::day::{self, Entry, Place, Section, START};
use reference::random::Random;

#[derive(Clone, Copy, Debug)]
pub enum Operation {
    Write,
    Check,
    Step,
}

impl Operation {
    /// Cells of `answer` that it needs.
    pub fn needs(self) -> usize {
        match self {
            Operation::Write => chyvandra::ffi::DAY_WRITE_CELLS,
            Operation::Check => chyvandra::ffi::DAY_CHECK_CELLS,
            Operation::Step => chyvandra::ffi::DAY_STEP_CELLS,
        }
    }
}

/// All that the functions take; each looks at its own share.
#[derive(Debug)]
pub struct DayCase {
    pub operation: Operation,
    pub file: Vec<u8>,
    pub place: Place,
    /// The place's section as a byte: 3 and any above is the last.
    pub section: u8,
    pub rows: Rows,
    /// Cells lent for the file.
    pub out_len: usize,
    pub answer_len: usize,
}

impl DayCase {
    pub fn new(random: &mut Random) -> DayCase {
        match random.below(3) {
            0 => DayCase::write(random),
            1 => DayCase::check(days::file(random), random),
            _ => DayCase::step(random),
        }
    }

    /// A file to be checked.
    pub fn check(file: Vec<u8>, random: &mut Random) -> DayCase {
        DayCase {
            file,
            ..DayCase::bare(Operation::Check, random)
        }
    }

    fn write(random: &mut Random) -> DayCase {
        let day = days::day(random);
        let mut rows = Rows::of(&day);
        for _ in 0..random.pick(&[0, 0, 1, 1, 2]) {
            rows.spoil(random);
        }
        DayCase {
            rows,
            out_len: cells_around(days::file_of(&day).len(), random),
            ..DayCase::bare(Operation::Write, random)
        }
    }

    fn step(random: &mut Random) -> DayCase {
        // A walk gets further in a good file.
        let file = if random.flag() {
            days::file_of(&days::day(random))
        } else {
            days::file(random)
        };
        let place = match random.below(4) {
            0 | 1 => place_of_walk(&file, random),
            2 => changed(place_of_walk(&file, random), &file, random),
            _ => Place {
                at: any_offset(&file, random),
                section: any_section(random),
                left: any_count(random),
                settings: any_count(random),
            },
        };
        let section = match place.section {
            Section::Start => 0,
            Section::Settings => 1,
            Section::Frames => 2,
            Section::Refused if random.flag() => 3,
            Section::Refused => 3 + random.below(253) as u8,
        };
        DayCase {
            file,
            place,
            section,
            ..DayCase::bare(Operation::Step, random)
        }
    }

    /// Nothing but the cells of `answer`: mostly enough, at times one too few.
    fn bare(operation: Operation, random: &mut Random) -> DayCase {
        let needs = operation.needs();
        DayCase {
            operation,
            file: Vec::new(),
            place: START,
            section: 0,
            rows: Rows::default(),
            out_len: 0,
            answer_len: match random.below(16) {
                0 => random.below(needs),
                1 => needs - 1,
                _ => needs + random.below(3),
            },
        }
    }
}

/// The place after some steps of a walk, as far as it goes.
fn place_of_walk(file: &[u8], random: &mut Random) -> Place {
    let mut place = START;
    for _ in 0..random.pick(&[0, 1, 2, 3, 4, 6, 8, 12, 1000]) {
        match day::step(file, place) {
            Ok((Entry::End, _)) | Err(_) => break,
            Ok((_, behind)) => place = behind,
        }
    }
    place
}

/// A place with one of its parts changed.
fn changed(mut place: Place, file: &[u8], random: &mut Random) -> Place {
    match random.below(4) {
        0 => place.at = any_offset(file, random),
        1 => place.section = any_section(random),
        2 => place.left = any_count(random),
        _ => place.settings = any_count(random),
    }
    place
}

fn any_offset(file: &[u8], random: &mut Random) -> usize {
    match random.below(8) {
        0 => random.number() as usize,
        1 => file.len() + random.below(3),
        2 => usize::MAX - random.below(12),
        _ => random.below(file.len() + 1),
    }
}

fn any_section(random: &mut Random) -> Section {
    random.pick(&[
        Section::Start,
        Section::Settings,
        Section::Frames,
        Section::Refused,
    ])
}

fn any_count(random: &mut Random) -> usize {
    match random.below(4) {
        0 => random.number() as usize,
        1 => random.pick(&[255, 256, 257, 65_536, usize::MAX - 1, usize::MAX]),
        _ => random.below(5),
    }
}
