//! One operation of the product's library many times over, to be run under a
//! profiler: `profile code|read SF CR BYTES TIMES`.

use reference::random::Random;
use reference::types::{Expected, Kind, Settings};
use reference::{plain, product, MOST_BYTES, MOST_SYMBOLS};
use std::hint::black_box;

fn main() {
    let words: Vec<String> = std::env::args().skip(1).collect();
    let [operation, numbers @ ..] = &words[..] else {
        panic!("profile code|read SF CR BYTES TIMES");
    };
    let numbers: Vec<usize> = numbers.iter().map(|word| word.parse().unwrap()).collect();
    let [sf, cr, length, times] = numbers[..] else {
        panic!("profile code|read SF CR BYTES TIMES");
    };
    let settings = Settings {
        sf: sf as u8,
        low: false,
        kind: Kind::Explicit {
            cr: cr as u8,
            checksum: true,
        },
    };
    let payload = Random::new(length as u64).bytes(length);
    let mut symbols = vec![0; MOST_SYMBOLS];
    let count = plain::code(&settings, &payload, &mut symbols).unwrap();
    let frame = symbols[..count].to_vec();
    let (mut bytes, mut hurts) = ([0; MOST_BYTES], [0; MOST_SYMBOLS]);
    for _ in 0..times {
        match operation.as_str() {
            "code" => {
                black_box(product::code(&settings, &payload, black_box(&mut symbols)).unwrap());
            }
            "read" => {
                let (bytes, hurts) = black_box((&mut bytes, &mut hurts));
                let read =
                    product::read(settings.sf, false, Expected::Explicit, &frame, bytes, hurts);
                black_box(read.unwrap());
            }
            _ => panic!("profile code|read SF CR BYTES TIMES"),
        }
    }
}
