//! Holds the product's library against `plain`: `compare [SEED [COUNT]]`. COUNT
//! inputs go to the five operations, for frames with and without a header, half as
//! many to the day's file, and half as many runs of calls to a tally.

mod case;
mod cells;
mod day_case;
mod day_outcome;
mod outcome;
mod tally_case;
mod tally_outcome;

use case::Case;
use day_case::DayCase;
use reference::cases::days;
use reference::random::Random;
use std::fmt::Debug;
use std::process::ExitCode;
use tally_case::TallyCase;

/// So many inputs go by between two signs of work.
const STEP: u64 = 100_000;

fn main() -> ExitCode {
    let arguments: Option<Vec<u64>> = std::env::args()
        .skip(1)
        .map(|word| word.parse().ok())
        .collect();
    let (seed, count) = match arguments.as_deref() {
        Some([]) => (1, 1_000_000),
        Some([seed]) => (*seed, 1_000_000),
        Some([seed, count]) => (*seed, *count),
        _ => {
            eprintln!("usage: compare [SEED [COUNT]]");
            return ExitCode::from(2);
        }
    };
    println!("seed {seed}");
    let mut random = Random::new(seed);
    let mut comparison = Comparison {
        wanted: count + 2 * (count / 2),
        compared: 0,
        differed: 0,
    };
    for _ in 0..count {
        let case = Case::new(&mut random);
        let difference = outcome::difference(&case, &mut random);
        comparison.add(&case, difference);
    }
    // Every damage of a small file first, as far as the inputs go.
    let mut files = days::every_damage(&days::file_of(&days::small())).into_iter();
    for _ in 0..count / 2 {
        let case = match files.next() {
            Some(file) => DayCase::check(file, &mut random),
            None => DayCase::new(&mut random),
        };
        let difference = day_outcome::difference(&case, &mut random);
        comparison.add(&case, difference);
    }
    for _ in 0..count / 2 {
        let case = TallyCase::new(&mut random);
        let difference = tally_outcome::difference(&case, &mut random);
        comparison.add(&case, difference);
    }
    let Comparison {
        compared, differed, ..
    } = comparison;
    println!("compared {compared}, differed {differed}");
    if differed == 0 {
        ExitCode::SUCCESS
    } else {
        ExitCode::FAILURE
    }
}

struct Comparison {
    wanted: u64,
    compared: u64,
    differed: u64,
}

impl Comparison {
    /// Counts a case, and prints the first that differs.
    fn add(&mut self, case: &impl Debug, difference: Option<String>) {
        if let Some(difference) = difference {
            if self.differed == 0 {
                println!("{case:?}\n{difference}");
            }
            self.differed += 1;
        }
        self.compared += 1;
        if self.compared.is_multiple_of(STEP) {
            eprintln!("compared {} of {}", self.compared, self.wanted);
        }
    }
}
