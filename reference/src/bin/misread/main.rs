//! How sure an accepted frame is where the proved bounds end: frames with more
//! symbols changed than the bounds allow, and frames read with settings or agreed
//! values that are not the sender's, through the product's library:
//! `misread [SEED [COUNT]]`.

mod agreed;
mod sent;
mod settings;
mod spoiled;

use reference::random::Random;
use std::process::ExitCode;

const SEED: u64 = 1;
const COUNT: usize = 100_000;

fn main() -> ExitCode {
    let arguments: Vec<String> = std::env::args().skip(1).collect();
    let Some((seed, count)) = seed_and_count(&arguments) else {
        eprintln!("usage: misread [SEED [COUNT]]");
        return ExitCode::from(2);
    };
    println!("Seed {seed}; {count} frames a cell, of random bytes. A cell is: right /");
    println!("refused / accepted wrong.");
    let mut random = Random::new(seed);
    spoiled::print_tables(count, &mut random);
    settings::print_table(count, &mut random);
    agreed::print_table(count, &mut random);
    ExitCode::SUCCESS
}

fn seed_and_count(arguments: &[String]) -> Option<(u64, usize)> {
    match arguments {
        [] => Some((SEED, COUNT)),
        [seed] => Some((seed.parse().ok()?, COUNT)),
        [seed, count] => Some((seed.parse().ok()?, count.parse().ok()?)),
        _ => None,
    }
}
