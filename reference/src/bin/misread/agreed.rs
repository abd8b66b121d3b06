//! Unharmed frames without a header that are read with an agreed value that is not
//! the sender's.

use crate::sent::{rate_cells, Sent, Tally};
use crate::settings::{FURTHER, MOST};
use reference::cases;
use reference::random::Random;
use reference::types::{Expected, Kind, Settings};

/// The most bytes that a reader has too many.
const MORE: usize = 8;

/// What the reader has wrong.
#[derive(Clone, Copy)]
enum Mistake {
    Shorter,
    Longer,
    Rate,
    Flag,
}

/// The columns: a mistake, and how many symbols follow the frame. One that is taken
/// for a shorter one needs none of them.
const COLUMNS: [(Mistake, usize); 7] = [
    (Mistake::Shorter, 0),
    (Mistake::Longer, 0),
    (Mistake::Longer, FURTHER),
    (Mistake::Rate, 0),
    (Mistake::Rate, FURTHER),
    (Mistake::Flag, 0),
    (Mistake::Flag, FURTHER),
];

/// The frames by the sender's code rate and checksum.
pub fn print_table(count: usize, random: &mut Random) {
    println!("\nUnharmed frames without a header of every SF and low-rate setting, 1 to {MOST}");
    println!("bytes, read with one agreed value that is not the sender's: a shorter length,");
    println!(
        "one that is 1 to {MORE} bytes longer, another rate, the other flag. The rate and the"
    );
    println!("checksum in front are the sender's. The frame's own symbols alone, and followed");
    println!("by {FURTHER} random ones.\n");
    print!("| rate | checksum | shorter | longer, alone | followed ");
    println!("| other rate, alone | followed | other flag, alone | followed |");
    println!("|---|---|---|---|---|---|---|---|---|");
    for cr in 1..=4 {
        for checksum in [true, false] {
            let rate = rate_cells(cr, checksum);
            eprintln!("other agreed values: {rate}");
            print!("| {rate} |");
            for (mistake, further) in COLUMNS {
                let kind = Kind::Explicit { cr, checksum };
                print!(" {} |", tally(kind, mistake, further, count, random));
            }
            println!();
        }
    }
}

/// The frames are of this kind but have no header.
fn tally(kind: Kind, mistake: Mistake, further: usize, count: usize, random: &mut Random) -> Tally {
    let mut tally = Tally::default();
    for _ in 0..count {
        let any = cases::settings(random.below(cases::SETTINGS));
        let length = 1 + random.below(MOST);
        let settings = Settings { kind, ..any }.without_header(length);
        let sent = Sent::new(&settings, length, random);
        let symbols = sent.followed(further, settings.sf, random);
        let expected = mistaken(mistake, length, kind, random);
        tally.add(sent.read_as(settings.sf, settings.low, expected, &symbols));
    }
    tally
}

/// What a reader expects that has one value wrong.
fn mistaken(mistake: Mistake, length: usize, kind: Kind, random: &mut Random) -> Expected {
    let (mut length, mut cr, mut checksum) = (length, kind.cr(), kind.checksum());
    match mistake {
        Mistake::Shorter => length = random.below(length),
        Mistake::Longer => length += 1 + random.below(MORE),
        Mistake::Rate => cr = 1 + (cr + random.below(3) as u8) % 4,
        Mistake::Flag => checksum = !checksum,
    }
    Expected::Agreed {
        length,
        cr,
        checksum,
    }
}
