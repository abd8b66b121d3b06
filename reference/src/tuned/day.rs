//! The day's file in one pass over its bytes, with no allocation.

use crate::plain::day::Counts;
use crate::types::{refuse, Refusal};

/// Bytes of a frame before its payload, and of a refused frame.
const FRAME: usize = 6;
const REFUSED: usize = 4;

/// `plain::day::check`.
pub fn check(file: &[u8]) -> Result<Counts, Refusal> {
    let missing = refuse(15, file.len());
    let [first, ..] = *file else { return missing };
    if first != 1 {
        return refuse(16, 0);
    }
    let [_, settings, ..] = *file else {
        return missing;
    };
    let mut at = 2;
    let mut given = Given::default();
    for _ in 0..settings {
        let Some(&sf) = file.get(at) else {
            return missing;
        };
        if !(7..=12).contains(&sf) {
            return refuse(16, at);
        }
        let Some(&low) = file.get(at + 1) else {
            return missing;
        };
        if low > 1 || !given.add(sf, low) {
            return refuse(16, at + 1);
        }
        at += 2;
    }
    let Some(&frames) = file.get(at) else {
        return missing;
    };
    at += 1;
    for _ in 0..frames {
        let entry = &file[at..];
        let good = [
            |index, settings| index < settings,
            |cr, _| matches!(cr, 1..=4),
            |flag, _| flag <= 1,
        ];
        if let Some(i) = first_bad(entry, good, settings) {
            return refuse(16, at + i);
        }
        let [_, _, _, _, _, length, payload @ ..] = entry else {
            return missing;
        };
        if payload.len() < usize::from(*length) {
            return missing;
        }
        at += FRAME + usize::from(*length);
    }
    let Some(&refused) = file.get(at) else {
        return missing;
    };
    at += 1;
    for _ in 0..refused {
        let entry = &file[at..];
        let good = [
            |index, settings| index < settings,
            |number, _| matches!(number, 4..=7 | 9..=12),
        ];
        if let Some(i) = first_bad(entry, good, settings) {
            return refuse(16, at + i);
        }
        if entry.len() < REFUSED {
            return missing;
        }
        at += REFUSED;
    }
    if at < file.len() {
        return refuse(15, at);
    }
    Ok(Counts {
        settings: settings.into(),
        frames: frames.into(),
        refused: refused.into(),
    })
}

/// The first of the entry's bytes that is there and not good.
fn first_bad<const N: usize>(
    entry: &[u8],
    good: [fn(u8, u8) -> bool; N],
    settings: u8,
) -> Option<usize> {
    entry
        .iter()
        .zip(good)
        .position(|(&byte, good)| !good(byte, settings))
}

/// `plain::day::write_rows`.
pub fn write_rows(
    settings: &[u8],
    frames: &[u16],
    payloads: &[u8],
    refused: &[u16],
    out: &mut [u8],
) -> Result<usize, Refusal> {
    let (settings, cut_setting) = settings.as_chunks::<2>();
    let (frames, cut_frame) = frames.as_chunks::<5>();
    let (refused, cut_refused) = refused.as_chunks::<3>();
    let named = |index: u16| usize::from(index) < settings.len();
    let mut given = Given::default();
    let mut in_payloads = 0;
    let good = cut_setting.is_empty()
        && cut_frame.is_empty()
        && cut_refused.is_empty()
        && frames.len() <= 255
        && refused.len() <= 255
        && settings
            .iter()
            .all(|&[sf, low]| matches!((sf, low), (7..=12, 0..=1)) && given.add(sf, low))
        && frames.iter().all(|&[setting, cr, flag, _, length]| {
            in_payloads += usize::from(length);
            named(setting) && matches!((cr, flag, length), (1..=4, 0..=1, 0..=255))
        })
        && in_payloads == payloads.len()
        && refused
            .iter()
            .all(|&[setting, number, _]| named(setting) && matches!(number, 4..=7 | 9..=12));
    if !good {
        return refuse(16, 0);
    }
    let needed =
        4 + 2 * settings.len() + FRAME * frames.len() + payloads.len() + REFUSED * refused.len();
    if out.len() < needed {
        return refuse(4, needed);
    }

    let mut rest = &mut out[..needed];
    let mut put = |bytes: &[u8]| {
        let (front, back) = std::mem::take(&mut rest).split_at_mut(bytes.len());
        front.copy_from_slice(bytes);
        rest = back;
    };
    put(&[1, settings.len() as u8]);
    put(settings.as_flattened());
    put(&[frames.len() as u8]);
    let mut payloads = payloads;
    for &[setting, cr, flag, repairs, length] in frames {
        let [low, high] = repairs.to_le_bytes();
        put(&[setting as u8, cr as u8, flag as u8, low, high, length as u8]);
        let (payload, others) = payloads.split_at(length.into());
        put(payload);
        payloads = others;
    }
    put(&[refused.len() as u8]);
    for &[setting, number, place] in refused {
        let [low, high] = place.to_le_bytes();
        put(&[setting as u8, number as u8, low, high]);
    }
    Ok(needed)
}

/// The pairs that were given, a bit for each.
#[derive(Default)]
struct Given(u32);

impl Given {
    /// Whether a pair that is in range is new.
    fn add(&mut self, sf: u8, low: u8) -> bool {
        let bit = 1 << (2 * sf + low);
        let new = self.0 & bit == 0;
        self.0 |= bit;
        new
    }
}

#[cfg(test)]
mod tests {
    use super::*;
    use crate::cases::days::{self, Rows};
    use crate::plain::day as plain;
    use crate::random::Random;

    #[test]
    fn checks_as_plain_does() {
        let mut random = Random::new(3);
        let systematic = days::every_damage(&days::file_of(&days::small()));
        let at_random = (0..100_000).map(|_| days::file(&mut random));
        for file in systematic.into_iter().chain(at_random) {
            assert_eq!(check(&file), plain::check(&file), "{file:?}");
        }
    }

    #[test]
    fn writes_as_plain_does() {
        let mut random = Random::new(4);
        for _ in 0..50_000 {
            let day = days::day(&mut random);
            let mut rows = Rows::of(&day);
            for _ in 0..random.below(3) {
                rows.spoil(&mut random);
            }
            let needed = days::file_of(&day).len();
            let cells = random.pick(&[needed - 1, needed, needed + 9, 70_000]);
            let (mut out, mut wanted) = (vec![9; cells], vec![9; cells]);
            let Rows {
                settings,
                frames,
                payloads,
                refused,
            } = &rows;
            let answer = write_rows(settings, frames, payloads, refused, &mut out);
            let plainly = plain::write_rows(settings, frames, payloads, refused, &mut wanted);
            assert_eq!(answer, plainly, "{rows:?}");
            assert_eq!(out, wanted, "{rows:?}");
        }
    }
}
