//! Times and tables.

use reference::random::Random;
use reference::types::{Code, Kind, Read, Settings};
use reference::{plain, product, tuned, MOST_BYTES, MOST_SYMBOLS};
use std::hint::black_box;
use std::time::{Duration, Instant};

/// A repeat is at least this long, so that the clock's own step is small, and
/// not much longer, so that some repeats go undisturbed on a busy computer.
const REPEAT: Duration = Duration::from_micros(300);
/// The best of so many repeats counts.
const REPEATS: usize = 5;
/// The implementations take short turns, so that a slow spell meets them all.
pub const ROUNDS: usize = 50;

struct Implementation {
    name: &'static str,
    code: Code,
    read: Read,
}

const LIBRARY: Implementation = Implementation {
    name: "library",
    code: product::code,
    read: product::read,
};
const PLAIN: Implementation = Implementation {
    name: "plain",
    code: plain::code,
    read: plain::read,
};
const TUNED: Implementation = Implementation {
    name: "tuned",
    code: tuned::code,
    read: tuned::read,
};

#[derive(Clone, Copy)]
enum Operation {
    Code,
    Read,
}

impl Operation {
    fn name(self) -> &'static str {
        match self {
            Operation::Code => "code",
            Operation::Read => "read",
        }
    }
}

/// One frame to code and read.
struct Trial {
    settings: Settings,
    payload: Vec<u8>,
    symbols: Vec<u16>,
}

impl Trial {
    fn new(sf: u8, cr: u8, length: usize) -> Trial {
        let settings = Settings {
            sf,
            low: false,
            kind: Kind::Explicit { cr, checksum: true },
        };
        let payload = Random::new(length as u64).bytes(length);
        let mut symbols = vec![0; MOST_SYMBOLS];
        let count = plain::code(&settings, &payload, &mut symbols).unwrap();
        symbols.truncate(count);
        Trial {
            settings,
            payload,
            symbols,
        }
    }

    /// Seconds a frame.
    fn seconds(&self, implementation: &Implementation, operation: Operation) -> f64 {
        let Settings { sf, low, kind } = self.settings;
        let expected = kind.expected();
        let mut symbols = [0; MOST_SYMBOLS];
        let (mut bytes, mut hurts) = ([0; MOST_BYTES], [0; MOST_SYMBOLS]);
        match operation {
            Operation::Code => best(|| {
                let answer = (implementation.code)(
                    black_box(&self.settings),
                    black_box(&self.payload),
                    black_box(&mut symbols),
                );
                black_box(answer).expect("a good frame");
            }),
            Operation::Read => best(|| {
                let answer = (implementation.read)(
                    black_box(sf),
                    black_box(low),
                    black_box(expected),
                    black_box(&self.symbols),
                    black_box(&mut bytes),
                    black_box(&mut hurts),
                );
                black_box(answer).expect("a good frame");
            }),
        }
    }

    fn nanoseconds_a_symbol(&self, seconds: f64) -> f64 {
        1e9 * seconds / self.symbols.len() as f64
    }
}

/// Library, plain and tuned, frame by frame.
pub fn compare_implementations() {
    let implementations = [LIBRARY, PLAIN, TUNED];
    print!("op   SF bytes CR symbols");
    for Implementation { name, .. } in &implementations {
        print!(" | {name:>7} frames/s  ns/symbol");
    }
    println!(" | library/plain library/tuned");
    for operation in [Operation::Code, Operation::Read] {
        for (sf, length, cr) in frames() {
            let trial = Trial::new(sf, cr, length);
            let count = trial.symbols.len();
            let name = operation.name();
            eprintln!("timing {name}, SF {sf}, {length} bytes, CR {cr}");
            print!("{name} {sf:>2} {length:>5} {cr:>2} {count:>7}");
            let mut seconds = [f64::INFINITY; 3];
            for _ in 0..ROUNDS {
                for (best, each) in seconds.iter_mut().zip(&implementations) {
                    *best = best.min(trial.seconds(each, operation));
                }
            }
            for time in seconds {
                print!(
                    " | {:>16.0} {:>10.2}",
                    1.0 / time,
                    trial.nanoseconds_a_symbol(time)
                );
            }
            let [library, plain, tuned] = seconds;
            println!(" | {:>13.2} {:>13.2}", library / plain, library / tuned);
        }
    }
}

/// That the library's time grows with the symbols and no faster.
pub fn show_linearity() {
    println!("library at SF 7, CR 4: ns/symbol");
    println!("bytes symbols    code    read");
    for length in [1, 16, 64, 128, 255] {
        eprintln!("timing {length} bytes");
        let trial = Trial::new(7, 4, length);
        let [code, read] = [Operation::Code, Operation::Read].map(|operation| {
            let rounds = (0..ROUNDS).map(|_| trial.seconds(&LIBRARY, operation));
            trial.nanoseconds_a_symbol(rounds.fold(f64::INFINITY, f64::min))
        });
        println!(
            "{length:>5} {:>7} {code:>7.2} {read:>7.2}",
            trial.symbols.len()
        );
    }
}

fn frames() -> impl Iterator<Item = (u8, usize, u8)> {
    [7, 12].into_iter().flat_map(|sf| {
        [20, 255]
            .into_iter()
            .flat_map(move |length| [1, 4].map(|cr| (sf, length, cr)))
    })
}

/// Seconds a call, the best of some repeats.
pub fn best(mut call: impl FnMut()) -> f64 {
    let mut time = |calls: u32| {
        let start = Instant::now();
        (0..calls).for_each(|_| call());
        start.elapsed()
    };
    let mut calls = 1;
    while time(calls) < REPEAT {
        calls *= 2;
    }
    let shortest = (0..REPEATS).map(|_| time(calls)).min().unwrap();
    shortest.as_secs_f64() / f64::from(calls)
}
