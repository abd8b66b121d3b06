//! Unharmed frames that are read with a setting that is not the sender's.

use crate::sent::{rate_cells, Sent, Tally};
use reference::cases;
use reference::random::Random;
use reference::types::{Expected, Kind, Settings};

/// The most bytes of a payload. Their number is in the header, or agreed on, so it
/// has to vary.
pub const MOST: usize = 32;

/// Symbols behind the frame, as a station hands over that can't tell its end.
pub const FURTHER: usize = 40;

/// What the reader has wrong.
#[derive(Clone, Copy)]
enum Mistake {
    LowRate,
    Spreading,
}

/// The frames by code rate and checksum.
pub fn print_table(count: usize, random: &mut Random) {
    println!("\nUnharmed frames of every SF and low-rate setting, 1 to {MOST} bytes, read with");
    println!("the other low-rate setting or with another SF: the frame's own symbols");
    println!("alone, and followed by {FURTHER} random ones.\n");
    println!("| rate | checksum | other low rate, alone | followed | other SF, alone | followed |");
    println!("|---|---|---|---|---|---|");
    for cr in 1..=4 {
        for checksum in [true, false] {
            let rate = rate_cells(cr, checksum);
            eprintln!("other settings: {rate}");
            print!("| {rate} |");
            for mistake in [Mistake::LowRate, Mistake::Spreading] {
                for further in [0, FURTHER] {
                    let cell = tally(cr, checksum, mistake, further, count, random);
                    print!(" {cell} |");
                }
            }
            println!();
        }
    }
}

fn tally(
    cr: u8,
    checksum: bool,
    mistake: Mistake,
    further: usize,
    count: usize,
    random: &mut Random,
) -> Tally {
    let mut tally = Tally::default();
    for _ in 0..count {
        let settings = Settings {
            kind: Kind::Explicit { cr, checksum },
            ..cases::settings(random.below(cases::SETTINGS))
        };
        let sent = Sent::new(&settings, 1 + random.below(MOST), random);
        let symbols = sent.followed(further, settings.sf, random);
        let (sf, low) = match mistake {
            Mistake::LowRate => (settings.sf, !settings.low),
            Mistake::Spreading => (other_sf(settings.sf, random), settings.low),
        };
        tally.add(sent.read_as(sf, low, Expected::Explicit, &symbols));
    }
    tally
}

/// Another of the six spreading factors.
fn other_sf(sf: u8, random: &mut Random) -> u8 {
    7 + (sf - 7 + 1 + random.below(5) as u8) % 6
}
