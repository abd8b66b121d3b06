//! Frames with so many symbols changed in each block.

use crate::sent::{rate_cells, Sent, Tally};
use reference::cases;
use reference::random::Random;
use reference::types::{Kind, Settings};

/// The payload's bytes: as many as a gate's message has.
const BYTES: usize = 6;

const SPREADING: [u8; 3] = [7, 9, 12];

/// Which blocks are spoiled.
#[derive(Clone, Copy)]
enum Where {
    AfterFirst,
    Everywhere,
}

impl Where {
    fn name(self) -> &'static str {
        match self {
            Where::AfterFirst => "each block after block 0",
            Where::Everywhere => "each block",
        }
    }

    fn unspoiled_blocks(self) -> usize {
        match self {
            Where::AfterFirst => 1,
            Where::Everywhere => 0,
        }
    }
}

/// A table for each choice of blocks.
pub fn print_tables(count: usize, random: &mut Random) {
    for place in [Where::AfterFirst, Where::Everywhere] {
        print_table(place, count, random);
    }
}

fn print_table(place: Where, count: usize, random: &mut Random) {
    let name = place.name();
    println!("\nSo many symbols changed in {name}, each to any other number");
    println!("below 2^SF; {BYTES} bytes, low rate off. The last column is the fewest repairs");
    println!("of a frame that was accepted wrong.\n");
    print!("| rate | checksum | changed |");
    for sf in SPREADING {
        print!(" SF {sf} |");
    }
    println!(" fewest |\n|---|---|---|---|---|---|---|");
    for cr in 1..=4 {
        for checksum in [true, false] {
            let rate = rate_cells(cr, checksum);
            for changed in 1..=4 {
                eprintln!("{name}: {rate} | {changed}");
                let cells = SPREADING.map(|sf| {
                    let settings = Settings {
                        sf,
                        low: false,
                        kind: Kind::Explicit { cr, checksum },
                    };
                    tally(&settings, place, changed, count, random)
                });
                print_row(&rate, changed, &cells);
            }
        }
    }
}

fn print_row(rate: &str, changed: usize, cells: &[Tally]) {
    print!("| {rate} | {changed} |");
    for cell in cells {
        print!(" {cell} |");
    }
    let fewest = cells.iter().filter_map(|cell| cell.fewest).min();
    println!(
        " {} |",
        fewest.map_or("-".to_string(), |repairs| repairs.to_string())
    );
}

fn tally(
    settings: &Settings,
    place: Where,
    changed: usize,
    count: usize,
    random: &mut Random,
) -> Tally {
    let mut tally = Tally::default();
    for _ in 0..count {
        let sent = Sent::new(settings, BYTES, random);
        let mut symbols = sent.symbols.clone();
        for block in cases::blocks(&mut symbols, settings.kind.cr()).skip(place.unspoiled_blocks())
        {
            spoil(block, changed, settings.sf, random);
        }
        let Settings { sf, low, kind } = *settings;
        tally.add(sent.read_as(sf, low, kind.expected(), &symbols));
    }
    tally
}

/// Changes exactly so many symbols of the block to others.
fn spoil(block: &mut [u16], how_many: usize, sf: u8, random: &mut Random) {
    let mut places: Vec<usize> = (0..block.len()).collect();
    for done in 0..how_many {
        places.swap(done, done + random.below(block.len() - done));
        let symbol = &mut block[places[done]];
        // From 1 to 2^SF - 1 steps on, round the circle.
        let steps = 1 + random.below((1 << sf) - 1);
        *symbol = ((usize::from(*symbol) + steps) % (1 << sf)) as u16;
    }
}
