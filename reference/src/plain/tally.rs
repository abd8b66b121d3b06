//! The tally of document 02, Ask 6: frames heard, accepted clean, accepted
//! repaired, refused under each number.

use crate::types::{refuse, Outcome, Refusal};

/// The numbers with which read refuses a frame, and no other.
pub const NUMBERS: [u8; 11] = [1, 2, 3, 4, 5, 6, 7, 9, 10, 11, 12];

/// Numbers in a tally.
pub const CELLS: usize = 16;

#[derive(Clone, Copy, Debug, Default, PartialEq, Eq)]
pub struct Tally {
    pub heard: u32,
    pub clean: u32,
    pub repaired: u32,
    /// Refused under each number. Those of 0 and 8 stay 0 after a clearing.
    pub refused: [u32; CELLS - 3],
}

impl Tally {
    /// The numbers one behind the other: heard, clean, repaired, refused with 0 to 12.
    pub fn of(cells: [u32; CELLS]) -> Tally {
        let [heard, clean, repaired, refused @ ..] = cells;
        Tally {
            heard,
            clean,
            repaired,
            refused,
        }
    }

    pub fn cells(&self) -> [u32; CELLS] {
        let mut cells = [0; CELLS];
        cells[..3].copy_from_slice(&[self.heard, self.clean, self.repaired]);
        cells[3..].copy_from_slice(&self.refused);
        cells
    }

    pub fn clear(&mut self) {
        *self = Tally::default();
    }

    /// Puts in what read gave for a frame. After a refusal the tally is as it was.
    pub fn hear(&mut self, outcome: &Outcome) -> Result<(), Refusal> {
        let mut one = Tally {
            heard: 1,
            ..Tally::default()
        };
        match outcome {
            Ok(received) if received.repairs == 0 => one.clean = 1,
            Ok(_) => one.repaired = 1,
            Err(refusal) if NUMBERS.contains(&refusal.number) => {
                one.refused[usize::from(refusal.number)] = 1;
            }
            Err(_) => return refuse(16, 0),
        }
        self.take_in(&one)
    }

    /// Takes in another station's tally. After a refusal the tally is as it was.
    pub fn take_in(&mut self, other: &Tally) -> Result<(), Refusal> {
        let mut sum = *self;
        add(&mut sum.heard, other.heard)?;
        add(&mut sum.clean, other.clean)?;
        add(&mut sum.repaired, other.repaired)?;
        for (count, further) in sum.refused.iter_mut().zip(other.refused) {
            add(count, further)?;
        }
        *self = sum;
        Ok(())
    }
}

fn add(count: &mut u32, further: u32) -> Result<(), Refusal> {
    match count.checked_add(further) {
        Some(sum) => *count = sum,
        None => return refuse(17, 0),
    }
    Ok(())
}
