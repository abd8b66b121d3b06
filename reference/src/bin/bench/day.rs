//! Times and tables of the day's file.

use crate::measure::{best, ROUNDS};
use reference::cases::days::{all_settings, file_of, Rows};
use reference::plain::day::{Day, Frame, RefusedFrame, NUMBERS};
use reference::product::{self, DayRows};
use reference::random::Random;
use reference::types::{DayCheck, DayWrite};
use reference::{plain, tuned};
use std::hint::black_box;

#[derive(Clone, Copy)]
enum Implementation {
    Library,
    Plain,
    Tuned,
}

impl Implementation {
    const ALL: [Implementation; 3] = [
        Implementation::Library,
        Implementation::Plain,
        Implementation::Tuned,
    ];

    fn name(self) -> &'static str {
        match self {
            Implementation::Library => "library",
            Implementation::Plain => "plain",
            Implementation::Tuned => "tuned",
        }
    }
}

#[derive(Clone, Copy)]
enum Operation {
    Write,
    Check,
}

impl Operation {
    fn name(self) -> &'static str {
        match self {
            Operation::Write => "write",
            Operation::Check => "check",
        }
    }
}

/// One day to write and check.
struct Trial {
    rows: Rows,
    file: Vec<u8>,
}

impl Trial {
    /// All settings, and so many frames of so many bytes and refused frames.
    fn new(frames: usize, length: usize, refused: usize) -> Trial {
        let mut random = Random::new(length as u64);
        let settings = all_settings();
        let setting = |i: usize| (i % settings.len()) as u8;
        let day = Day {
            frames: (0..frames)
                .map(|i| Frame {
                    setting: setting(i),
                    cr: 1 + (i % 4) as u8,
                    flag: (i % 2) as u8,
                    repairs: random.below(20) as u16,
                    payload: random.bytes(length),
                })
                .collect(),
            refused: (0..refused)
                .map(|i| RefusedFrame {
                    setting: setting(i),
                    number: NUMBERS[i % NUMBERS.len()],
                    place: random.below(832) as u16,
                })
                .collect(),
            settings,
        };
        Trial {
            rows: Rows::of(&day),
            file: file_of(&day),
        }
    }

    /// Seconds a file.
    fn seconds(&self, implementation: Implementation, operation: Operation) -> f64 {
        match operation {
            Operation::Write => self.write_seconds(implementation),
            Operation::Check => self.check_seconds(implementation),
        }
    }

    fn write_seconds(&self, implementation: Implementation) -> f64 {
        let Rows {
            settings,
            frames,
            payloads,
            refused,
        } = &self.rows;
        let write: DayWrite = match implementation {
            Implementation::Library => return self.library_write_seconds(),
            Implementation::Plain => plain::day::write_rows,
            Implementation::Tuned => tuned::day::write_rows,
        };
        let mut out = vec![0; self.file.len()];
        best(|| {
            let answer = write(
                black_box(settings),
                black_box(frames),
                black_box(payloads),
                black_box(refused),
                black_box(&mut out),
            );
            black_box(answer).expect("a good day");
        })
    }

    /// The wrapper's rows are made before.
    fn library_write_seconds(&self) -> f64 {
        let Rows {
            settings,
            frames,
            payloads,
            refused,
        } = &self.rows;
        let rows = DayRows::new(settings, frames, refused);
        let mut out = vec![0; self.file.len()];
        best(|| {
            let answer = black_box(&rows).write(black_box(payloads), black_box(&mut out));
            black_box(answer).expect("a good day");
        })
    }

    fn check_seconds(&self, implementation: Implementation) -> f64 {
        let check: DayCheck = match implementation {
            Implementation::Library => product::day_check,
            Implementation::Plain => plain::day::check,
            Implementation::Tuned => tuned::day::check,
        };
        best(|| {
            black_box(check(black_box(&self.file))).expect("a good file");
        })
    }

    fn nanoseconds_a_byte(&self, seconds: f64) -> f64 {
        1e9 * seconds / self.file.len() as f64
    }
}

/// Library, plain and tuned, over a full day.
pub fn compare_implementations() {
    print!("op    frames bytes refused   file");
    for implementation in Implementation::ALL {
        print!(" | {:>7}  files/s    ns/byte", implementation.name());
    }
    println!(" | library/plain library/tuned");
    for operation in [Operation::Write, Operation::Check] {
        for (frames, length, refused) in [(255, 20, 255), (255, 255, 255)] {
            let trial = Trial::new(frames, length, refused);
            let name = operation.name();
            eprintln!("timing {name}, {frames} frames of {length} bytes");
            print!(
                "{name} {frames:>6} {length:>5} {refused:>7} {:>6}",
                trial.file.len()
            );
            let mut seconds = [f64::INFINITY; 3];
            for _ in 0..ROUNDS {
                for (best, each) in seconds.iter_mut().zip(Implementation::ALL) {
                    *best = best.min(trial.seconds(each, operation));
                }
            }
            for time in seconds {
                print!(
                    " | {:>16.0} {:>10.3}",
                    1.0 / time,
                    trial.nanoseconds_a_byte(time)
                );
            }
            let [library, plain, tuned] = seconds;
            println!(" | {:>13.2} {:>13.2}", library / plain, library / tuned);
        }
    }
}

/// That the library's time grows with the file and no faster.
pub fn show_linearity() {
    println!("library, frames of 20 bytes and as many refused frames: ns/byte");
    println!("frames   file   write   check");
    for frames in [4, 16, 64, 128, 255] {
        eprintln!("timing {frames} frames");
        let trial = Trial::new(frames, 20, frames);
        let [write, check] = [Operation::Write, Operation::Check].map(|operation| {
            let rounds = (0..ROUNDS).map(|_| trial.seconds(Implementation::Library, operation));
            trial.nanoseconds_a_byte(rounds.fold(f64::INFINITY, f64::min))
        });
        println!(
            "{frames:>6} {:>6} {write:>7.3} {check:>7.3}",
            trial.file.len()
        );
    }
}
