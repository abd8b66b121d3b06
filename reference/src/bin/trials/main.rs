//! Writes what goes into a program and what must come out of it.
//!
//! `trials frames|hurts|wishes SEED LINES INPUT OUTPUT`: lines for the reading
//! program, the program that tells which symbols were hurt, or the coding program.
//! `trials agreed|agreed-hurts|agreed-wishes SEED LINES INPUT OUTPUT`: the same, most
//! of them for frames without a header.
//! `trials tallies SEED LINES INPUT OUTPUT`: captures for the program that tallies
//! them, and its panel.
//! `trials keep SEED LINES INPUT OUTPUT ERRORS`: captures for the program that
//! keeps a day, its file and its standard error.
//! `trials show INPUT OUTPUT`: a file for the program that shows a day.
//! `trials files SEED INPUT OUTPUT`: many files, each after its length in four
//! bytes, low first.

mod agreed;
mod files;
mod frames;
mod hurts;
mod spelling;
mod tally;
mod wishes;

use files::{every_end, Files};
use reference::cases::days::{all_settings, file_of};
use reference::panel::Panel;
use reference::plain::day;
use reference::random::Random;
use reference::{cases, hurt, keep, show, text, wish};
use std::process::ExitCode;
use std::{env, fs};
use tally::{Outcome, Tally};

fn main() -> ExitCode {
    let words: Vec<String> = env::args().skip(1).collect();
    let words: Vec<&str> = words.iter().map(String::as_str).collect();
    let missing = match words[..] {
        ["keep", seed, lines, input, output, errors] => {
            let (Ok(seed), Ok(lines)) = (seed.parse(), lines.parse()) else {
                return usage();
            };
            println!("keep, seed {seed}, lines {lines}");
            kept_day(Random::new(seed), lines, input, output, errors)
        }
        ["tallies", seed, lines, input, output] => {
            let (Ok(seed), Ok(lines)) = (seed.parse(), lines.parse()) else {
                return usage();
            };
            println!("tallies, seed {seed}, lines {lines}");
            tallied(Random::new(seed), lines, input, output)
        }
        ["show", input, output] => {
            let file = file_of(&every_end());
            println!("show, {} bytes", file.len());
            write(input, &file);
            write(output, &show::show(&file));
            Vec::new()
        }
        ["files", seed, input, output] => {
            let Ok(seed) = seed.parse() else {
                return usage();
            };
            let files = Files::new(&mut Random::new(seed));
            println!("files, seed {seed}, files {}", files.count);
            write(input, &files.packed);
            write(output, &files.shown);
            files.print();
            files.missing()
        }
        [name, seed, lines, input, output] => {
            let (Some(trial), Ok(seed), Ok(lines)) = (trial(name), seed.parse(), lines.parse())
            else {
                return usage();
            };
            println!("{name}, seed {seed}, lines {lines}");
            answered_lines(&trial, Random::new(seed), lines, input, output)
        }
        _ => return usage(),
    };
    if missing.is_empty() {
        return ExitCode::SUCCESS;
    }
    eprintln!("FAILED, never occurred: {}", missing.join(", "));
    ExitCode::FAILURE
}

/// What lines to write, and what must have come out of them.
struct Trial {
    /// The text of one line, the last of the file or not. A last line has to be
    /// a good one, so that the file does not end in an empty line.
    text: fn(line: usize, last: bool, &mut Random) -> Vec<u8>,
    answer_line: fn(&[u8]) -> Vec<u8>,
    outcomes: fn(line: &[u8], answer: &[u8]) -> Vec<Outcome>,
    wanted: &'static [&'static [Outcome]],
}

fn trial(name: &str) -> Option<Trial> {
    Some(match name {
        "frames" => Trial {
            text: frames::text,
            answer_line: text::capture_line,
            outcomes: tally::outcomes,
            wanted: &[&frames::WANTED],
        },
        "hurts" => Trial {
            text: hurts::text,
            answer_line: hurt::answer_line,
            outcomes: hurts::outcomes,
            wanted: &[&frames::WANTED, &hurts::WANTED],
        },
        "wishes" => Trial {
            text: wishes::text,
            answer_line: wish::answer_line,
            outcomes: tally::outcomes,
            wanted: &[&wishes::WANTED],
        },
        "agreed" => Trial {
            text: agreed::text,
            answer_line: text::capture_line,
            outcomes: agreed::outcomes,
            wanted: &[
                &agreed::REFUSALS,
                &agreed::VALUES,
                &agreed::HURT,
                &[agreed::WITH_HEADER],
            ],
        },
        "agreed-hurts" => Trial {
            text: hurts::agreed_text,
            answer_line: hurt::answer_line,
            outcomes: hurts::agreed_outcomes,
            wanted: &[
                &agreed::REFUSALS,
                &agreed::VALUES,
                &agreed::HURT,
                &hurts::WANTED,
                &[agreed::WITH_HEADER],
            ],
        },
        "agreed-wishes" => Trial {
            text: wishes::agreed_text,
            answer_line: wish::answer_line,
            outcomes: wishes::agreed_outcomes,
            wanted: &[&wishes::WANTED, &agreed::VALUES, &[agreed::WITH_HEADER]],
        },
        _ => return None,
    })
}

/// Lines and their answers; answers what never occurred.
fn answered_lines(
    trial: &Trial,
    mut random: Random,
    lines: usize,
    input: &str,
    output: &str,
) -> Vec<String> {
    let (mut texts, mut answers) = (Vec::new(), Vec::new());
    let mut tally = Tally::default();
    for line in 0..lines {
        let text = (trial.text)(line, line + 1 == lines, &mut random);
        assert!(!text.contains(&b'\n'), "line {line} would be two");
        let answer = (trial.answer_line)(&text);
        tally.add(&(trial.outcomes)(&text, &answer));
        texts.extend(text);
        texts.push(b'\n');
        answers.extend(answer);
    }
    write(input, &texts);
    write(output, &answers);
    tally.print();
    tally.missing(trial.wanted)
}

/// What the panel has besides what `frames` must have: the refusals that are of frames
/// without a header alone, and clean frames.
const ALSO_TALLIED: [Outcome; 3] = [Outcome::Refused(2), Outcome::Refused(3), Outcome::Accepted];

/// Captures of both kinds and their panel; answers what never occurred.
fn tallied(mut random: Random, lines: usize, input: &str, output: &str) -> Vec<String> {
    let mut texts = Vec::new();
    let mut tally = Tally::default();
    for line in 0..lines {
        let capture = random.pick(&[frames::text, agreed::capture]);
        let text = capture(line, line + 1 == lines, &mut random);
        assert!(!text.contains(&b'\n'), "line {line} would be two");
        tally.add(&tally::outcomes(&text, &text::capture_line(&text)));
        texts.extend(text);
        texts.push(b'\n');
    }
    let panel = Panel::new(&texts);
    hold_against(&panel, &tally, lines);
    write(input, &texts);
    write(output, panel.shown().as_bytes());
    tally.print();
    println!("{}", panel.closing().trim_end());
    tally.missing(&[&frames::WANTED, &ALSO_TALLIED])
}

/// Holds a panel against the outcomes as counted from the reading program's answers.
fn hold_against(panel: &Panel, tally: &Tally, lines: usize) {
    let [clean, repaired] = [Outcome::Accepted, Outcome::Repaired].map(|kind| tally.times(kind));
    let refused = lines - clean - repaired;
    let closing = format!("end {lines} {clean} {repaired} {refused}\n");
    assert_eq!(panel.closing(), closing);
    let no_capture = tally.times(Outcome::Refused(14));
    let mut wanted = vec![lines - no_capture, clean, repaired];
    let numbers = (1..=12).filter(|number| *number != 8);
    wanted.extend(numbers.map(|number| tally.times(Outcome::Refused(number))));
    wanted.extend([no_capture, 0]);
    let shown = panel.shown();
    let counts: Vec<&str> = shown
        .lines()
        .map(|line| line.split_once(": ").expect("a count").1)
        .collect();
    let wanted: Vec<String> = wanted.iter().map(usize::to_string).collect();
    assert_eq!(counts, wanted);
}

/// Captures of both kinds, the day's file and the lines on standard error; answers
/// what never occurred.
fn kept_day(
    mut random: Random,
    lines: usize,
    input: &str,
    output: &str,
    errors: &str,
) -> Vec<String> {
    let mut texts = Vec::new();
    let mut tally = Tally::default();
    for line in 0..lines {
        // The settings come in no order, so that theirs in the file shows.
        let settings = random.below(cases::SETTINGS);
        let capture = random.pick(&[frames::text, agreed::capture]);
        let text = capture(settings, line + 1 == lines, &mut random);
        let outcomes = tally::outcomes(&text, &text::capture_line(&text));
        tally.add(&agreed::values(&text, outcomes[0]));
        tally.add(&outcomes);
        texts.push(text);
    }
    // The last line has no end.
    let captures = texts.join(&b'\n');
    let (file, told) = keep::keep(&captures);
    let file = file.expect("LINES is too many for a file");
    write(input, &captures);
    write(output, &file);
    write(errors, told.as_bytes());
    tally.print();
    println!("{}", told.lines().last().unwrap());
    let mut missing = tally.missing(&[&frames::WANTED, &agreed::REFUSALS, &agreed::VALUES]);
    let settings = day::judge(&file).expect("a good file").settings;
    for setting in all_settings() {
        if !settings.contains(&setting) {
            missing.push(format!("{setting:?}"));
        }
    }
    missing
}

fn write(path: &str, content: &[u8]) {
    if let Err(error) = fs::write(path, content) {
        panic!("{path} can't be written: {error}");
    }
}

fn usage() -> ExitCode {
    eprintln!("usage: trials frames|hurts|wishes SEED LINES INPUT OUTPUT");
    eprintln!("       trials agreed|agreed-hurts|agreed-wishes SEED LINES INPUT OUTPUT");
    eprintln!("       trials tallies SEED LINES INPUT OUTPUT");
    eprintln!("       trials keep SEED LINES INPUT OUTPUT ERRORS");
    eprintln!("       trials show INPUT OUTPUT");
    eprintln!("       trials files SEED INPUT OUTPUT");
    eprintln!("SEED and LINES are whole numbers");
    ExitCode::from(2)
}
