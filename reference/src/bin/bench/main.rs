//! How fast the product's library is, next to `plain` and `tuned`.

mod day;
mod measure;
mod tally;

fn main() {
    println!("machine: {}", machine());
    measure::compare_implementations();
    println!();
    measure::show_linearity();
    println!();
    day::compare_implementations();
    println!();
    day::show_linearity();
    println!();
    tally::compare_implementations();
}

/// The kind of machine that the times are of.
fn machine() -> String {
    use std::env::consts::{ARCH, OS};
    let information = std::fs::read_to_string("/proc/cpuinfo").unwrap_or_default();
    let model = information
        .lines()
        .filter_map(|line| line.split_once(':'))
        .find(|(name, _)| name.trim() == "model name")
        .map_or("processor unknown", |(_, model)| model.trim());
    let processors = std::thread::available_parallelism().map_or(1, usize::from);
    format!("{ARCH} {OS}, {model}, {processors} processors")
}
