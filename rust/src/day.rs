//! The day's file: what was received in a day.

use crate::{accepted, ffi, Refusal};

/// The longest file of a day: so many cells are always enough for [`day_write`].
/// It has 12 settings, 255 frames of 255 bytes and 255 refused frames.
pub const LONGEST_FILE: usize = 67_603;

/// A setting of the station: a row of two numbers. A file has no pair twice.
#[derive(Clone, Copy, Debug, PartialEq, Eq, Hash)]
#[repr(C)]
pub struct DaySetting {
    /// Spreading factor, 7 to 12.
    pub sf: u8,
    /// Low-rate flag, 0 or 1.
    pub low: u8,
}

/// An accepted frame without its payload: a row of five numbers.
#[derive(Clone, Copy, Debug, PartialEq, Eq, Hash)]
#[repr(C)]
pub struct DayFrame {
    /// Index of its setting.
    pub setting: u16,
    /// Code rate, 1 to 4 for 4/5 to 4/8.
    pub cr: u16,
    /// Checksum flag, 0 or 1.
    pub checksum: u16,
    /// Codewords repaired, any number.
    pub repairs: u16,
    /// The payload's bytes, 0 to 255.
    pub length: u16,
}

/// A refused frame: a row of three numbers.
#[derive(Clone, Copy, Debug, PartialEq, Eq, Hash)]
#[repr(C)]
pub struct DayRefused {
    /// Index of its setting.
    pub setting: u16,
    /// The refusal's number, 4 to 7 or 9 to 12.
    pub number: u16,
    /// The refusal's place, any number.
    pub place: u16,
}

/// How many entries a file has.
#[derive(Clone, Copy, Debug, PartialEq, Eq, Hash)]
pub struct DayCounts {
    /// Settings.
    pub settings: usize,
    /// Accepted frames.
    pub frames: usize,
    /// Refused frames.
    pub refused: usize,
}

/// What stands at a place of a file.
#[derive(Clone, Copy, Debug, PartialEq, Eq, Hash)]
pub enum DayEntry<'a> {
    /// A setting.
    Setting(DaySetting),
    /// An accepted frame.
    Frame {
        /// Its numbers.
        frame: DayFrame,
        /// Its payload, which is that part of the file.
        payload: &'a [u8],
    },
    /// A refused frame.
    Refused(DayRefused),
    /// The end of the file.
    End,
}

/// A section of a file.
#[derive(Clone, Copy, Debug, PartialEq, Eq, Hash)]
#[repr(u8)]
pub enum DaySection {
    /// Before the first byte.
    Start = 0,
    /// Settings.
    Settings = 1,
    /// Accepted frames.
    Frames = 2,
    /// Refused frames.
    Refused = 3,
}

/// A place in a file, where a walk stands.
#[derive(Clone, Copy, Debug, PartialEq, Eq, Hash)]
pub struct DayPlace {
    /// The next byte.
    pub at: usize,
    /// Its section.
    pub section: DaySection,
    /// Entries that the section still has.
    pub left: usize,
    /// Settings that an index may name.
    pub settings: usize,
}

impl DayPlace {
    /// Where a walk starts.
    pub const START: DayPlace = DayPlace {
        at: 0,
        section: DaySection::Start,
        left: 0,
        settings: 0,
    };
}

/// Writes the file of these entries to `out`, from `out[0]` on, and answers its
/// length. The payloads stand one behind the other, in the order of the frames.
///
/// # Errors
///
/// [`RefusalKind::FileField`](crate::RefusalKind::FileField) with place 0 for a
/// number outside its range, a pair of settings given twice, lengths that don't
/// add up to the payload bytes, more than 255 entries of a kind; then
/// [`RefusalKind::OutShort`](crate::RefusalKind::OutShort).
pub fn day_write(
    settings: &[DaySetting],
    frames: &[DayFrame],
    payloads: &[u8],
    refused: &[DayRefused],
    out: &mut [u8],
) -> Result<usize, Refusal> {
    let mut answer = [0; ffi::DAY_WRITE_CELLS];
    // SAFETY: each pointer and length is those of one live slice, whose rows are
    // so many numbers of the pointer's type with nothing between them, and the
    // slices don't overlap.
    let number = unsafe {
        ffi::lora_day_write(
            settings.as_ptr().cast(),
            2 * settings.len(),
            frames.as_ptr().cast(),
            5 * frames.len(),
            payloads.as_ptr(),
            payloads.len(),
            refused.as_ptr().cast(),
            3 * refused.len(),
            out.as_mut_ptr(),
            out.len(),
            answer.as_mut_ptr(),
            answer.len(),
        )
    };
    accepted(number, answer).map(|[length]| length as usize)
}

/// Answers how many entries a file has. A file that is accepted is the one that
/// [`day_write`] makes of its entries.
///
/// # Errors
///
/// The first byte at fault decides:
/// [`RefusalKind::FileLength`](crate::RefusalKind::FileLength),
/// [`RefusalKind::FileField`](crate::RefusalKind::FileField). A pair of settings
/// given again is at fault at its flag.
pub fn day_check(file: &[u8]) -> Result<DayCounts, Refusal> {
    let mut answer = [0; ffi::DAY_CHECK_CELLS];
    // SAFETY: each pointer and length is those of one live slice, and the two
    // slices don't overlap.
    let number = unsafe {
        ffi::lora_day_check(file.as_ptr(), file.len(), answer.as_mut_ptr(), answer.len())
    };
    accepted(number, answer).map(|[settings, frames, refused]| DayCounts {
        settings: settings as usize,
        frames: frames as usize,
        refused: refused as usize,
    })
}

/// Answers the entry that stands at a place of a file, and the place behind it;
/// at the end the place itself. Of a file that [`day_check`] accepts no step of a
/// walk from [`DayPlace::START`] is refused. Any bytes and any place may be given.
///
/// # Errors
///
/// Those of [`day_check`], for what is read;
/// [`RefusalKind::FileLength`](crate::RefusalKind::FileLength) behind the last
/// refused frame, if that is not the end.
///
/// ```
/// use chyvandra::{day_check, day_step, DayEntry, DayPlace};
///
/// # fn main() -> Result<(), chyvandra::Refusal> {
/// let file = [1, 1, 9, 0, 1, 0, 4, 1, 3, 0, 4, b'o', b'p', b'e', b'n', 0];
/// assert_eq!(day_check(&file)?.frames, 1);
/// let mut place = DayPlace::START;
/// loop {
///     let (entry, behind) = day_step(&file, place)?;
///     match entry {
///         DayEntry::End => break,
///         DayEntry::Frame { payload, .. } => assert_eq!(payload, b"open"),
///         _ => {}
///     }
///     place = behind;
/// }
/// # Ok(())
/// # }
/// ```
pub fn day_step(file: &[u8], place: DayPlace) -> Result<(DayEntry<'_>, DayPlace), Refusal> {
    let mut answer = [0; ffi::DAY_STEP_CELLS];
    // SAFETY: as in `day_check`.
    let number = unsafe {
        ffi::lora_day_step(
            file.as_ptr(),
            file.len(),
            place.at,
            place.section as u8,
            place.left,
            place.settings,
            answer.as_mut_ptr(),
            answer.len(),
        )
    };
    let [entry, at, section, left, settings, fields @ ..] = accepted(number, answer)?;
    let entry = match entry {
        0 => return Ok((DayEntry::End, place)),
        1 => setting(fields),
        2 => frame(file, fields),
        _ => refused(fields),
    };
    let behind = DayPlace {
        at: at as usize,
        section: match section {
            1 => DaySection::Settings,
            2 => DaySection::Frames,
            _ => DaySection::Refused,
        },
        left: left as usize,
        settings: settings as usize,
    };
    Ok((entry, behind))
}

fn setting<'a>([sf, low, ..]: [u64; 6]) -> DayEntry<'a> {
    DayEntry::Setting(DaySetting {
        sf: sf as u8,
        low: low as u8,
    })
}

fn frame(file: &[u8], [setting, cr, checksum, repairs, start, end]: [u64; 6]) -> DayEntry<'_> {
    DayEntry::Frame {
        frame: DayFrame {
            setting: setting as u16,
            cr: cr as u16,
            checksum: checksum as u16,
            repairs: repairs as u16,
            length: (end - start) as u16,
        },
        payload: &file[start as usize..end as usize],
    }
}

fn refused<'a>([setting, number, place, ..]: [u64; 6]) -> DayEntry<'a> {
    DayEntry::Refused(DayRefused {
        setting: setting as u16,
        number: number as u16,
        place: place as u16,
    })
}
