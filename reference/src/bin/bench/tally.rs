//! Times of the tally.

use crate::measure::{best, ROUNDS};
use reference::plain::tally::{Tally, NUMBERS};
use reference::product;
use reference::types::{refuse, Header, Outcome, Received};
use std::hint::black_box;

/// Clean and repaired frames, and one of each refusal. A tally has room for as many as
/// are heard between two clearings.
fn outcomes() -> Vec<Outcome> {
    let accepted = |repairs| {
        Ok(Received {
            header: Header {
                length: 20,
                cr: 4,
                checksum: true,
            },
            symbols: 72,
            repairs,
            drift: 0,
        })
    };
    let mut outcomes = vec![accepted(0), accepted(3)];
    outcomes.extend(NUMBERS.map(|number| refuse(number, 0)));
    outcomes
}

/// Library and plain, over outcomes of every kind.
pub fn compare_implementations() {
    let outcomes = outcomes();
    eprintln!("timing the tally");
    let (mut library, mut plain) = (f64::INFINITY, f64::INFINITY);
    for _ in 0..ROUNDS {
        let mut tally = product::Tally::of([0; 16]);
        library = library.min(best(|| {
            tally.clear();
            for outcome in black_box(&outcomes) {
                let answer = black_box(&mut tally).hear(outcome);
                black_box(answer)
                    .expect("a refusal of the wrapper")
                    .expect("an outcome of read");
            }
        }));
        let mut tally = Tally::default();
        plain = plain.min(best(|| {
            tally.clear();
            for outcome in black_box(&outcomes) {
                let answer = black_box(&mut tally).hear(outcome);
                black_box(answer).expect("an outcome of read");
            }
        }));
    }
    let [library, plain] = [library, plain].map(|time| 1e9 * time / outcomes.len() as f64);
    println!(
        "hear: ns/outcome, library {library:.2}, plain {plain:.2}, library/plain {:.2}",
        library / plain
    );
}
