//! How often each outcome came.

use std::collections::BTreeMap;
use std::fmt;

#[derive(Clone, Copy, PartialEq, Eq, PartialOrd, Ord)]
pub enum Outcome {
    Refused(u8),
    Accepted,
    /// Read, with repairs.
    Repaired,
    /// What else a line tells.
    Told(&'static str),
}

impl fmt::Display for Outcome {
    fn fmt(&self, f: &mut fmt::Formatter) -> fmt::Result {
        match self {
            Outcome::Refused(number) => write!(f, "refusal {number}"),
            Outcome::Accepted => write!(f, "acceptance"),
            Outcome::Repaired => write!(f, "acceptance with repairs"),
            Outcome::Told(what) => write!(f, "{what}"),
        }
    }
}

#[derive(Default)]
pub struct Tally(BTreeMap<Outcome, usize>);

impl Tally {
    pub fn add(&mut self, outcomes: &[Outcome]) {
        for outcome in outcomes {
            *self.0.entry(*outcome).or_default() += 1;
        }
    }

    pub fn times(&self, outcome: Outcome) -> usize {
        self.0.get(&outcome).copied().unwrap_or(0)
    }

    pub fn print(&self) {
        for (outcome, times) in &self.0 {
            println!("{outcome}: {times}");
        }
    }

    pub fn missing(&self, wanted: &[&[Outcome]]) -> Vec<String> {
        wanted
            .iter()
            .copied()
            .flatten()
            .filter(|outcome| self.times(**outcome) == 0)
            .map(Outcome::to_string)
            .collect()
    }
}

/// What an answer's line of the reading or the coding program says.
pub fn outcomes(_line: &[u8], answer: &[u8]) -> Vec<Outcome> {
    let line = String::from_utf8_lossy(answer);
    let fields: Vec<&str> = line.split_ascii_whitespace().collect();
    vec![match fields[..] {
        ["no", number, _] => Outcome::Refused(number.parse().unwrap()),
        ["ok", _, _, _, _, repairs, _] if repairs != "0" => Outcome::Repaired,
        _ => Outcome::Accepted,
    }]
}
