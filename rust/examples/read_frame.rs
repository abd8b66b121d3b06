//! Codes a frame, spoils one of its symbols as noise may, lets another slip off its
//! mark, reads it and tells which symbol was hurt; then the same without a header.

use chyvandra::{code, read, Expected, Kind, Refusal, Settings, MOST_BYTES, MOST_SYMBOLS};

const SENT: [u8; 6] = [0x6F, 0x00, 0x74, 0xA6, 0xF4, 0x01];

fn main() -> Result<(), Refusal> {
    let settings = Settings {
        sf: 9,
        low: false,
        kind: Kind::Explicit {
            cr: 4,
            checksum: true,
        },
    };
    let mut symbols = [0; MOST_SYMBOLS];
    let count = code(&settings, &SENT, &mut symbols)?;
    println!("sent {SENT:02X?} in {count} symbols");

    // The tenth symbol is in the second block: the first one has eight. It
    // carries one bit of each codeword of its block, so several may need repair.
    symbols[9] ^= 0b101;
    // In the first block one step below what was sent is read as what was sent.
    symbols[0] -= 1;
    let frame = &symbols[..count];
    read_and_print(&settings, Expected::Explicit, frame)?;

    // A frame that is cut short is refused, and the refusal says what is missing.
    match read_and_print(&settings, Expected::Explicit, &frame[..12]) {
        Ok(()) => println!("cut short, and read all the same"),
        Err(refusal) => println!("cut short: {refusal}"),
    }

    // A small sensor's frame has no header, and its receiver has to know the rest.
    let kind = Kind::Agreed {
        length: SENT.len(),
        cr: 4,
        checksum: true,
    };
    let settings = Settings { kind, ..settings };
    let count = code(&settings, &SENT, &mut symbols)?;
    println!("without a header sent in {count} symbols");
    let frame = &symbols[..count];
    read_and_print(&settings, kind.into(), frame)?;
    let shorter = Expected::Agreed {
        length: 5,
        cr: 4,
        checksum: true,
    };
    match read_and_print(&settings, shorter, frame) {
        Ok(()) => println!("taken for five bytes, and read all the same"),
        Err(refusal) => println!("taken for five bytes: {refusal}"),
    }
    Ok(())
}

fn read_and_print(settings: &Settings, expected: Expected, symbols: &[u16]) -> Result<(), Refusal> {
    let (mut payload, mut hurts) = ([0; MOST_BYTES], [0; MOST_SYMBOLS]);
    let Settings { sf, low, .. } = *settings;
    let received = read(sf, low, expected, symbols, &mut payload, &mut hurts)?;
    let payload = &payload[..received.header.length];
    print!(
        "read {payload:02X?}, repairs {}, drift {}, hurt",
        received.repairs, received.drift
    );
    let hurts = hurts[..received.symbols].iter().enumerate();
    for (symbol, repaired) in hurts.filter(|(_, repaired)| **repaired > 0) {
        print!(" {symbol}:{repaired}");
    }
    println!();
    Ok(())
}
