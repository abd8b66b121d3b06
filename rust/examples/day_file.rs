//! Writes the file of a day and walks it.

use chyvandra::{
    day_check, day_step, day_write, DayEntry, DayFrame, DayPlace, DayRefused, DaySetting, Refusal,
    LONGEST_FILE,
};

fn main() -> Result<(), Refusal> {
    let settings = [DaySetting { sf: 9, low: 0 }];
    let frame = DayFrame {
        setting: 0,
        cr: 4,
        checksum: 1,
        repairs: 7,
        length: 6,
    };
    let payload = [0x6F, 0x00, 0x74, 0xA6, 0xF4, 0x01];
    // Cut short: 24 symbols were needed.
    let refused = [DayRefused {
        setting: 0,
        number: 5,
        place: 24,
    }];
    let mut out = [0; LONGEST_FILE];
    let length = day_write(&settings, &[frame], &payload, &refused, &mut out)?;
    let file = &out[..length];
    println!("{length} bytes, {:?}", day_check(file)?);

    let mut place = DayPlace::START;
    loop {
        let (entry, behind) = day_step(file, place)?;
        println!("{entry:?}");
        if entry == DayEntry::End {
            break;
        }
        place = behind;
    }

    // A file that lost its last byte is refused, and the refusal says where.
    if let Err(refusal) = day_check(&file[..length - 1]) {
        println!("cut short: {refusal}");
    }
    Ok(())
}
