//! What each call of a run returns and leaves behind in every cell of the tally and
//! around it.

use crate::cells::{lent, pointer, pointer_mut, with_margins};
use crate::tally_case::{Call, TallyCase};
use chyvandra::ffi;
use reference::plain::tally::{Tally, CELLS};
use reference::product;
use reference::random::Random;
use reference::types::{Header, Outcome, Received, Refusal};

/// Where the library, bare or through its wrapper, differs from `plain`, if it does.
pub fn difference(case: &TallyCase, random: &mut Random) -> Option<String> {
    let mut wanted = with_margins(case.tally.len(), || random.number() as u32);
    lent(&mut wanted).copy_from_slice(&case.tally);
    let mut library = wanted.clone();
    // The wrapper has no tally of fewer cells, and none behind the last.
    let mut wrapper = first_cells(&case.tally).map(product::Tally::of);
    for (i, call) in case.calls.iter().enumerate() {
        let before = wanted.clone();
        let number = told(call, lent(&mut wanted));
        let (got, stayed) = bare(call, lent(&mut library));
        if !stayed {
            return Some(format!("call {i}: the library changed its input"));
        }
        if (got, &library) != (number, &wanted) {
            return Some(format!(
                "call {i}, {call:?}\nbefore {before:?}\nplain  {number} {wanted:?}\n\
                 library {got} {library:?}"
            ));
        }
        if let Some(tally) = &mut wrapper {
            let left = Tally::of(first_cells(lent(&mut wanted)).expect("cells enough"));
            // What can't be said to the wrapper was refused.
            let got = wrapped(call, tally).unwrap_or(number);
            if (got, tally.cells(), tally.counts()) != (number, left.cells(), left) {
                return Some(format!(
                    "call {i}, {call:?}\nbefore {before:?}\nplain  {number} {left:?}\n\
                     wrapper {got} {:?} {:?}",
                    tally.cells(),
                    tally.counts()
                ));
            }
        }
    }
    None
}

/// What `plain` gives, as the C interface gives it.
fn told(call: &Call, cells: &mut [u32]) -> u8 {
    let Some(first) = first_cells(cells) else {
        return ffi::ANSWER_SHORT;
    };
    let mut tally = Tally::of(first);
    let result = match call {
        Call::Clear => {
            tally.clear();
            Ok(())
        }
        Call::Hear { number, answer } => match outcome(*number, answer) {
            Some(outcome) => tally.hear(&outcome),
            None => return ffi::ANSWER_SHORT,
        },
        Call::TakeIn { other } => match first_cells(other) {
            Some(other) => tally.take_in(&Tally::of(other)),
            None => return ffi::ANSWER_SHORT,
        },
    };
    cells[..CELLS].copy_from_slice(&tally.cells());
    number_of(result)
}

/// What the wrapper gives, unless the call can't be said to it.
fn wrapped(call: &Call, tally: &mut product::Tally) -> Option<u8> {
    let result = match call {
        Call::Clear => {
            tally.clear();
            Ok(())
        }
        Call::Hear { number, answer } => tally.hear(&outcome(*number, answer)?)?,
        Call::TakeIn { other } => tally.take_in(&product::Tally::of(first_cells(other)?)),
    };
    Some(number_of(result))
}

/// The cells of a tally, if there are enough.
fn first_cells(cells: &[u32]) -> Option<[u32; CELLS]> {
    cells.first_chunk().copied()
}

/// What read gave where it returned this number and left this answer, if that has
/// cells enough.
fn outcome(number: u8, answer: &[u64]) -> Option<Outcome> {
    if number != 0 {
        let place = answer.first().copied().unwrap_or(0) as usize;
        return Some(Err(Refusal { number, place }));
    }
    let &[length, cr, flag, symbols, repairs, drift] = answer.first_chunk()?;
    Some(Ok(Received {
        header: Header {
            length: length as usize,
            cr: cr as u8,
            checksum: flag != 0,
        },
        symbols: symbols as usize,
        repairs: repairs as usize,
        drift: drift as i8,
    }))
}

fn number_of(result: Result<(), Refusal>) -> u8 {
    match result {
        Ok(()) => 0,
        Err(Refusal { number, place }) => {
            assert_eq!(place, 0, "refusal {number}");
            number
        }
    }
}

/// What the library returns through its C interface, and whether the list that it may
/// only read stayed as it was.
fn bare(call: &Call, tally: &mut [u32]) -> (u8, bool) {
    let (tally, tally_len) = (pointer_mut(tally), tally.len());
    // SAFETY: each pointer and length is those of one live slice, or null and 0, and
    // the slices don't overlap.
    unsafe {
        match call {
            Call::Clear => (ffi::lora_tally_clear(tally, tally_len), true),
            Call::Hear { number, answer } => {
                let given = answer.clone();
                let (cells, cells_len) = (pointer(&given), given.len());
                let number = ffi::lora_tally_hear(tally, tally_len, *number, cells, cells_len);
                (number, given == *answer)
            }
            Call::TakeIn { other } => {
                let given = other.clone();
                let (cells, cells_len) = (pointer(&given), given.len());
                let number = ffi::lora_tally_take_in(tally, tally_len, cells, cells_len);
                (number, given == *other)
            }
        }
    }
}
