//! Document 02, Ask 6: the tally. Examples worked out by hand, and random histories.

use reference::plain::{self, tally::Tally};
use reference::random::Random;
use reference::types::{refuse, Expected, Header, Outcome, Received, Refusal};
use reference::{MOST_BYTES, MOST_SYMBOLS};

const MOST: u32 = u32::MAX;

/// Numbers of read, by document 01's table without 8, which Ask 5 takes out, 13, which
/// is airtime's, and 14, which is a program's.
const GIVEN: [u8; 11] = [1, 2, 3, 4, 5, 6, 7, 9, 10, 11, 12];

const NOT_GIVEN: Refusal = Refusal {
    number: 16,
    place: 0,
};
const FULL: Refusal = Refusal {
    number: 17,
    place: 0,
};

/// All cells 0 but this one.
fn alone(cell: usize, count: u32) -> Tally {
    let mut cells = [0; 16];
    cells[cell] = count;
    Tally::of(cells)
}

/// An accepted frame with so many repairs.
fn accepted(repairs: usize) -> Outcome {
    Ok(Received {
        header: Header {
            length: 0,
            cr: 4,
            checksum: false,
        },
        symbols: 8,
        repairs,
        drift: -1,
    })
}

fn refused(number: u8) -> Outcome {
    refuse(number, 24)
}

/// One more heard, and one more in the outcome's cell.
#[test]
fn one_after_another() {
    let mut tally = Tally::of([9; 16]);
    tally.clear();
    assert_eq!(tally, Tally::of([0; 16]));
    let steps = [
        (
            accepted(0),
            [1, 1, 0, 0, 0, 0, 0, 0, 0, 0, 0, 0, 0, 0, 0, 0],
        ),
        (
            accepted(1),
            [2, 1, 1, 0, 0, 0, 0, 0, 0, 0, 0, 0, 0, 0, 0, 0],
        ),
        (refused(5), [3, 1, 1, 0, 0, 0, 0, 0, 1, 0, 0, 0, 0, 0, 0, 0]),
        (
            accepted(519),
            [4, 1, 2, 0, 0, 0, 0, 0, 1, 0, 0, 0, 0, 0, 0, 0],
        ),
        (
            refused(12),
            [5, 1, 2, 0, 0, 0, 0, 0, 1, 0, 0, 0, 0, 0, 0, 1],
        ),
        (refused(1), [6, 1, 2, 0, 1, 0, 0, 0, 1, 0, 0, 0, 0, 0, 0, 1]),
        (refused(5), [7, 1, 2, 0, 1, 0, 0, 0, 2, 0, 0, 0, 0, 0, 0, 1]),
        (
            accepted(0),
            [8, 2, 2, 0, 1, 0, 0, 0, 2, 0, 0, 0, 0, 0, 0, 1],
        ),
    ];
    for (outcome, wanted) in steps {
        assert_eq!(tally.hear(&outcome), Ok(()), "{outcome:?}");
        assert_eq!(tally, Tally::of(wanted), "{outcome:?}");
    }
    tally.clear();
    assert_eq!(tally, Tally::of([0; 16]));
}

/// What read itself gives for document 01's frame and its neighbours.
#[test]
fn outcomes_of_read() {
    let (mut payload, mut hurts) = ([0; MOST_BYTES], [0; MOST_SYMBOLS]);
    let mut read = |sf, first: [u16; 2]| {
        let symbols = [&first[..], &[28, 0, 56, 28, 12, 0]].concat();
        plain::read(
            sf,
            false,
            Expected::Explicit,
            &symbols,
            &mut payload,
            &mut hurts,
        )
    };
    let mut tally = Tally::default();
    for outcome in [
        read(7, [124, 48]),
        read(7, [123, 48]), // read as its mark
        read(7, [0, 48]),   // one repair
        read(7, [0, 0]),    // 7
        read(7, [128, 48]), // 6
        read(6, [124, 48]), // 1
        read(13, [124, 48]),
    ] {
        assert_eq!(tally.hear(&outcome), Ok(()), "{outcome:?}");
    }
    let wanted = [7, 2, 1, 0, 2, 0, 0, 0, 0, 1, 1, 0, 0, 0, 0, 0];
    assert_eq!(tally, Tally::of(wanted));
}

/// Each number of a byte, put into a tally that has something in it.
#[test]
fn every_number() {
    let before = [40, 10, 9, 0, 1, 2, 3, 1, 2, 3, 1, 0, 2, 3, 1, 2];
    for number in 0..=255 {
        let mut tally = Tally::of(before);
        let answer = tally.hear(&refused(number));
        if !GIVEN.contains(&number) {
            assert_eq!(answer, Err(NOT_GIVEN), "{number}");
            assert_eq!(tally, Tally::of(before), "{number}");
            continue;
        }
        let mut wanted = before;
        wanted[0] = 41;
        wanted[3 + usize::from(number)] += 1;
        assert_eq!(answer, Ok(()), "{number}");
        assert_eq!(tally, Tally::of(wanted), "{number}");
    }
}

/// The outcomes that go into each cell but the first.
fn outcomes_by_cell() -> Vec<(usize, Outcome)> {
    let mut outcomes = vec![
        (1, accepted(0)),
        (2, accepted(1)),
        (2, accepted(usize::MAX)),
    ];
    outcomes.extend(GIVEN.map(|number| (3 + usize::from(number), refused(number))));
    outcomes
}

/// Each cell by itself: the last outcome that it has room for, and the one behind it.
/// Only tallies made by hand have such cells.
#[test]
fn each_cell_full_alone() {
    for (cell, outcome) in outcomes_by_cell() {
        for full in 0..16 {
            let mut tally = alone(full, MOST - 1);
            assert_eq!(tally.hear(&outcome), Ok(()), "{outcome:?} on {full}");
            let mut wanted = [0; 16];
            wanted[full] = MOST - 1;
            wanted[0] += 1;
            wanted[cell] += 1;
            assert_eq!(tally, Tally::of(wanted), "{outcome:?} on {full}");

            let mut tally = alone(full, MOST);
            let answer = tally.hear(&outcome);
            if full == 0 || full == cell {
                assert_eq!(answer, Err(FULL), "{outcome:?} on {full}");
                assert_eq!(tally, alone(full, MOST), "{outcome:?} on {full}");
            } else {
                assert_eq!(answer, Ok(()), "{outcome:?} on {full}");
                wanted[full] = MOST;
                assert_eq!(tally, Tally::of(wanted), "{outcome:?} on {full}");
            }
        }
    }
}

/// 16 before 17.
#[test]
fn a_number_not_given_comes_first() {
    let full = Tally::of([MOST; 16]);
    for number in 0..=255 {
        let mut tally = full;
        let wanted = if GIVEN.contains(&number) {
            FULL
        } else {
            NOT_GIVEN
        };
        assert_eq!(tally.hear(&refused(number)), Err(wanted), "{number}");
        assert_eq!(tally, full, "{number}");
    }
    for repairs in [0, 1] {
        let mut tally = full;
        assert_eq!(tally.hear(&accepted(repairs)), Err(FULL));
        assert_eq!(tally, full);
    }
}

#[test]
fn taking_in() {
    let mut tally = Tally::of([15, 5, 2, 0, 1, 0, 0, 0, 3, 0, 2, 0, 1, 0, 0, 1]);
    let other = Tally::of([31, 7, 6, 0, 0, 1, 2, 3, 4, 0, 0, 0, 0, 2, 1, 5]);
    let sum = Tally::of([46, 12, 8, 0, 1, 1, 2, 3, 7, 0, 2, 0, 1, 2, 1, 6]);
    assert_eq!(tally.take_in(&other), Ok(()));
    assert_eq!(tally, sum);
    // A cleared one adds nothing, even where all is full.
    assert_eq!(tally.take_in(&Tally::default()), Ok(()));
    assert_eq!(tally, sum);
    let mut full = Tally::of([MOST; 16]);
    assert_eq!(full.take_in(&Tally::default()), Ok(()));
    assert_eq!(full, Tally::of([MOST; 16]));
}

/// Each cell by itself, and the other cells with something to add.
#[test]
fn each_cell_taken_in() {
    for cell in 0..16 {
        for (count, further) in [(MOST, 1), (1, MOST), (MOST, MOST), (1 << 31, 1 << 31)] {
            let (mut before, mut other) = ([2; 16], [3; 16]);
            (before[cell], other[cell]) = (count, further);
            let mut tally = Tally::of(before);
            assert_eq!(tally.take_in(&Tally::of(other)), Err(FULL), "{cell}");
            assert_eq!(tally, Tally::of(before), "{cell}");

            other[cell] = MOST - count;
            let mut wanted = [5; 16];
            wanted[cell] = MOST;
            assert_eq!(tally.take_in(&Tally::of(other)), Ok(()), "{cell}");
            assert_eq!(tally, Tally::of(wanted), "{cell}");
        }
    }
}

/// A tally is full by clearing and taking in alone: 2^32 - 1 is 2^31 + ... + 1.
#[test]
fn full_by_its_history() {
    let mut doubled = Tally::default();
    doubled.hear(&refused(9)).unwrap();
    let mut tally = doubled;
    for power in 1..32 {
        let same = doubled;
        assert_eq!(doubled.take_in(&same), Ok(()));
        let mut wanted = [0; 16];
        (wanted[0], wanted[12]) = (1 << power, 1 << power);
        assert_eq!(doubled, Tally::of(wanted));
        assert_eq!(tally.take_in(&doubled), Ok(()));
    }
    // 2^32 would be the next.
    let same = doubled;
    assert_eq!(doubled.take_in(&same), Err(FULL));
    assert_eq!(doubled, same);

    let mut wanted = [0; 16];
    (wanted[0], wanted[12]) = (MOST, MOST);
    assert_eq!(tally, Tally::of(wanted));
    // There is room in the cell of the clean, and none among the heard.
    assert_eq!(tally.hear(&accepted(0)), Err(FULL));
    assert_eq!(tally.hear(&refused(8)), Err(NOT_GIVEN));
    assert_eq!(tally, Tally::of(wanted));
}

/// How a tally came to be.
enum History {
    Cleared,
    Heard(Box<History>, Outcome),
    TookIn(Box<History>, Box<History>),
    /// Cleared after something that must not matter any more.
    ClearedAfter(Box<History>),
}

impl History {
    fn any(calls: usize, random: &mut Random) -> History {
        if calls == 0 {
            return History::Cleared;
        }
        match random.below(12) {
            0 => History::ClearedAfter(Box::new(History::any(calls - 1, random))),
            1..=3 => {
                let others = random.below(calls);
                History::TookIn(
                    Box::new(History::any(calls - 1 - others, random)),
                    Box::new(History::any(others, random)),
                )
            }
            _ => History::Heard(
                Box::new(History::any(calls - 1, random)),
                any_outcome(random),
            ),
        }
    }

    /// The tally, by the calls that made it.
    fn tally(&self) -> Tally {
        match self {
            History::Cleared => Tally::default(),
            History::Heard(before, outcome) => {
                let mut tally = before.tally();
                let wanted = if put_in(outcome) {
                    Ok(())
                } else {
                    Err(NOT_GIVEN)
                };
                assert_eq!(tally.hear(outcome), wanted, "{outcome:?}");
                tally
            }
            History::TookIn(before, other) => {
                let mut tally = before.tally();
                assert_eq!(tally.take_in(&other.tally()), Ok(()));
                tally
            }
            History::ClearedAfter(before) => {
                let mut tally = before.tally();
                tally.clear();
                tally
            }
        }
    }

    /// The outcomes put in since the clearing, those of tallies taken in among them.
    fn outcomes(&self) -> Vec<Outcome> {
        match self {
            History::Cleared | History::ClearedAfter(_) => Vec::new(),
            History::Heard(before, outcome) => {
                let mut outcomes = before.outcomes();
                outcomes.extend(put_in(outcome).then_some(*outcome));
                outcomes
            }
            History::TookIn(before, other) => [before.outcomes(), other.outcomes()].concat(),
        }
    }
}

/// Whether the call that hears it is not refused.
fn put_in(outcome: &Outcome) -> bool {
    match outcome {
        Ok(_) => true,
        Err(refusal) => GIVEN.contains(&refusal.number),
    }
}

fn any_outcome(random: &mut Random) -> Outcome {
    match random.below(6) {
        0 | 1 => accepted(0),
        2 => accepted(1 + random.below(519)),
        3 => refused(random.byte()),
        _ => refused(random.below(15) as u8),
    }
}

#[test]
fn random_histories() {
    let mut random = Random::new(20261116);
    let mut heard_in_all = 0;
    for calls in 0..400 {
        let history = History::any(calls, &mut random);
        let (tally, outcomes) = (history.tally(), history.outcomes());
        let how_many = |kind: &dyn Fn(&Outcome) -> bool| {
            outcomes.iter().filter(|outcome| kind(outcome)).count() as u32
        };
        assert_eq!(tally.heard, outcomes.len() as u32);
        let clean = how_many(&|outcome| matches!(outcome, Ok(answer) if answer.repairs == 0));
        assert_eq!(tally.clean, clean);
        let repaired = how_many(&|outcome| matches!(outcome, Ok(answer) if answer.repairs > 0));
        assert_eq!(tally.repaired, repaired);
        for (number, count) in tally.refused.into_iter().enumerate() {
            let wanted =
                how_many(&|outcome| matches!(outcome, Err(no) if usize::from(no.number) == number));
            assert_eq!(count, wanted, "{number}");
        }
        let refused: u32 = tally.refused.iter().sum();
        assert_eq!(tally.heard, tally.clean + tally.repaired + refused);
        heard_in_all += outcomes.len();
    }
    // Else the histories were as good as empty.
    assert!(heard_in_all > 1000, "{heard_in_all}");
}
