//! One run of calls to a tally.

use chyvandra::ffi;
use reference::plain::tally::{CELLS, NUMBERS};
use reference::random::Random;

/// The most calls of a run.
const MOST_CALLS: usize = 30;

#[derive(Debug)]
pub enum Call {
    Clear,
    /// What read returned and left, or something else.
    Hear {
        number: u8,
        answer: Vec<u64>,
    },
    TakeIn {
        other: Vec<u32>,
    },
}

#[derive(Debug)]
pub struct TallyCase {
    /// What is lent, of any number of cells.
    pub tally: Vec<u32>,
    pub calls: Vec<Call>,
}

impl TallyCase {
    pub fn new(random: &mut Random) -> TallyCase {
        let tally = tally(random);
        let mut calls: Vec<Call> = (0..random.below(MOST_CALLS))
            .map(|_| Call::new(random))
            .collect();
        // Every other run begins with a clearing.
        if random.flag() {
            calls.insert(0, Call::Clear);
        }
        TallyCase { tally, calls }
    }
}

impl Call {
    fn new(random: &mut Random) -> Call {
        match random.below(32) {
            0 => Call::Clear,
            1..=8 => Call::TakeIn {
                other: tally(random),
            },
            _ => Call::hear(random),
        }
    }

    fn hear(random: &mut Random) -> Call {
        let number = match random.below(8) {
            0..=2 => 0,
            3 => random.byte(),
            4 => random.pick(&[8, 13, 14, 15, 16, 17, 254, 255]),
            _ => random.pick(&NUMBERS),
        };
        // A refusal's answer may be too short to be one.
        let cells = if number == 0 && !random.once_in(8) {
            ffi::READ_CELLS
        } else {
            random.below(ffi::READ_CELLS + 3)
        };
        let mut answer: Vec<u64> = (0..cells).map(|_| random.number()).collect();
        if let Some(repairs) = answer.get_mut(ffi::READ_REPAIRS) {
            // Some would come out as none if cut down.
            let large = random.pick(&[2, 519, 1 << 8, 1 << 16, 1 << 32, 1 << 63, u64::MAX]);
            *repairs = random.pick(&[0, 0, 1, large]);
        }
        Call::Hear { number, answer }
    }
}

/// Cells of a tally: mostly as many as it needs.
fn tally(random: &mut Random) -> Vec<u32> {
    let cells = match random.below(16) {
        0 => random.below(CELLS),
        1 => CELLS - 1,
        2 => CELLS + 1 + random.below(4),
        _ => CELLS,
    };
    let way = random.below(6);
    // The cell that has something else than the others.
    let one = random.below(CELLS);
    let other = count_near_the_end(random);
    let cell = |i| match way {
        _ if i == one => other,
        0 => 0,
        1 => count_near_the_end(random),
        2 => random.number() as u32,
        _ => random.below(4) as u32,
    };
    (0..cells).map(cell).collect()
}

/// Near 2^32, or half of it: two such make 2^32 or nearly.
fn count_near_the_end(random: &mut Random) -> u32 {
    let few = random.below(4) as u32;
    match random.below(4) {
        0 => few,
        1 => (1 << 31) - 2 + few,
        _ => u32::MAX - few,
    }
}
