//! The day's file of document 02, Ask 1: entries to bytes, any bytes judged, and
//! the walk from entry to entry.

use crate::types::{refuse, Refusal};
use crate::MOST_BYTES;

/// The file's first byte.
const FIRST: u8 = 1;
/// Where the settings begin: behind the first byte and their count.
const SETTINGS_START: usize = 2;
/// The most entries of a section, whose count is a byte.
const MOST_ENTRIES: usize = 255;

/// What frames were listened for with.
#[derive(Clone, Copy, Debug, PartialEq, Eq)]
pub struct Setting {
    pub sf: u8,
    pub low: u8,
}

/// A frame that was accepted.
#[derive(Clone, Debug, PartialEq, Eq)]
pub struct Frame {
    /// Index of its setting.
    pub setting: u8,
    pub cr: u8,
    pub flag: u8,
    pub repairs: u16,
    pub payload: Vec<u8>,
}

/// A frame that was refused.
#[derive(Clone, Copy, Debug, PartialEq, Eq)]
pub struct RefusedFrame {
    /// Index of its setting.
    pub setting: u8,
    pub number: u8,
    pub place: u16,
}

/// The entries of a day, good or not: the writer judges them.
#[derive(Clone, Debug, Default, PartialEq, Eq)]
pub struct Day {
    pub settings: Vec<Setting>,
    pub frames: Vec<Frame>,
    pub refused: Vec<RefusedFrame>,
}

/// The file of these entries.
pub fn write(day: &Day) -> Result<Vec<u8>, Refusal> {
    if !good(day) {
        return refuse(16, 0);
    }
    let mut file = vec![FIRST, day.settings.len() as u8];
    for setting in &day.settings {
        file.extend([setting.sf, setting.low]);
    }
    file.push(day.frames.len() as u8);
    for frame in &day.frames {
        file.extend([frame.setting, frame.cr, frame.flag]);
        file.extend(frame.repairs.to_le_bytes());
        file.push(frame.payload.len() as u8);
        file.extend(&frame.payload);
    }
    file.push(day.refused.len() as u8);
    for refused in &day.refused {
        file.extend([refused.setting, refused.number]);
        file.extend(refused.place.to_le_bytes());
    }
    Ok(file)
}

/// The file of entries given as rows of numbers, into `out`; answers its length.
/// A setting's row is SF and flag; a frame's is settings index, CR, flag, repairs
/// and length, its payload the next so many bytes of `payloads`; a refused
/// frame's is settings index, number and place.
pub fn write_rows(
    settings: &[u8],
    frames: &[u16],
    payloads: &[u8],
    refused: &[u16],
    out: &mut [u8],
) -> Result<usize, Refusal> {
    let Some(day) = day_of_rows(settings, frames, payloads, refused) else {
        return refuse(16, 0);
    };
    let file = write(&day)?;
    if out.len() < file.len() {
        return refuse(4, file.len());
    }
    out[..file.len()].copy_from_slice(&file);
    Ok(file.len())
}

/// None where a row is cut short, a number is no byte, or the lengths don't add
/// up to the payload bytes.
fn day_of_rows(
    settings: &[u8],
    frames: &[u16],
    mut payloads: &[u8],
    refused: &[u16],
) -> Option<Day> {
    let byte = |number: u16| u8::try_from(number).ok();
    let mut day = Day::default();
    for row in settings.chunks(2) {
        let [sf, low] = *row else { return None };
        day.settings.push(Setting { sf, low });
    }
    for row in frames.chunks(5) {
        let [setting, cr, flag, repairs, length] = *row else {
            return None;
        };
        let (payload, others) = payloads.split_at_checked(length.into())?;
        payloads = others;
        day.frames.push(Frame {
            setting: byte(setting)?,
            cr: byte(cr)?,
            flag: byte(flag)?,
            repairs,
            payload: payload.to_vec(),
        });
    }
    for row in refused.chunks(3) {
        let [setting, number, place] = *row else {
            return None;
        };
        day.refused.push(RefusedFrame {
            setting: byte(setting)?,
            number: byte(number)?,
            place,
        });
    }
    payloads.is_empty().then_some(day)
}

fn good(day: &Day) -> bool {
    let Day {
        settings,
        frames,
        refused,
    } = day;
    let named = |index: u8| usize::from(index) < settings.len();
    settings.len() <= MOST_ENTRIES
        && frames.len() <= MOST_ENTRIES
        && refused.len() <= MOST_ENTRIES
        && settings.iter().enumerate().all(|(i, setting)| {
            good_sf(setting.sf) && good_flag(setting.low) && !settings[..i].contains(setting)
        })
        && frames.iter().all(|frame| {
            named(frame.setting)
                && good_cr(frame.cr)
                && good_flag(frame.flag)
                && frame.payload.len() <= MOST_BYTES
        })
        && refused
            .iter()
            .all(|refused| named(refused.setting) && good_number(refused.number))
}

fn good_sf(sf: u8) -> bool {
    (7..=12).contains(&sf)
}

fn good_cr(cr: u8) -> bool {
    (1..=4).contains(&cr)
}

fn good_flag(flag: u8) -> bool {
    flag <= 1
}

/// The numbers with which a refused frame can be entered: 4 to 12, of which Ask 5
/// takes 8 out.
pub const NUMBERS: [u8; 8] = [4, 5, 6, 7, 9, 10, 11, 12];

fn good_number(number: u8) -> bool {
    NUMBERS.contains(&number)
}

/// The entries of a file, or why it is none: the first byte at fault decides.
pub fn judge(file: &[u8]) -> Result<Day, Refusal> {
    let mut reader = Reader { file, at: 0 };
    let mut day = Day::default();
    reader.first()?;
    for _ in 0..reader.count()? {
        day.settings.push(reader.setting()?);
    }
    for _ in 0..reader.count()? {
        day.frames.push(reader.frame(day.settings.len())?);
    }
    for _ in 0..reader.count()? {
        day.refused.push(reader.refused(day.settings.len())?);
    }
    reader.end()?;
    Ok(day)
}

/// How many entries a file has.
#[derive(Clone, Copy, Debug, PartialEq, Eq)]
pub struct Counts {
    pub settings: usize,
    pub frames: usize,
    pub refused: usize,
}

/// The judgement, with the entries counted only.
pub fn check(file: &[u8]) -> Result<Counts, Refusal> {
    judge(file).map(|day| Counts {
        settings: day.settings.len(),
        frames: day.frames.len(),
        refused: day.refused.len(),
    })
}

/// The parts of a file, in their order.
#[derive(Clone, Copy, Debug, PartialEq, Eq)]
pub enum Section {
    /// Before the first byte.
    Start,
    Settings,
    Frames,
    Refused,
}

/// Where a walk stands.
#[derive(Clone, Copy, Debug, PartialEq, Eq)]
pub struct Place {
    /// The next byte.
    pub at: usize,
    pub section: Section,
    /// Entries that the section still has.
    pub left: usize,
    /// Settings of the file.
    pub settings: usize,
}

/// Where every walk begins.
pub const START: Place = Place {
    at: 0,
    section: Section::Start,
    left: 0,
    settings: 0,
};

/// What stands at a place.
#[derive(Clone, Debug, PartialEq, Eq)]
pub enum Entry {
    Setting(Setting),
    /// The payload is the file's bytes from `start` on.
    Frame {
        frame: Frame,
        start: usize,
    },
    Refused(RefusedFrame),
    End,
}

/// The entry that stands at this place, and the place behind it; at the end the
/// place stays. The file need not be a good one, nor the place one of a walk.
pub fn step(file: &[u8], place: Place) -> Result<(Entry, Place), Refusal> {
    let Place {
        at,
        mut section,
        mut left,
        mut settings,
    } = place;
    let mut reader = Reader { file, at };
    if section == Section::Start {
        reader.first()?;
        settings = reader.count()?;
        (section, left) = (Section::Settings, settings);
    }
    if section == Section::Settings && left == 0 {
        (section, left) = (Section::Frames, reader.count()?);
    }
    if section == Section::Frames && left == 0 {
        (section, left) = (Section::Refused, reader.count()?);
    }
    if left == 0 {
        reader.end()?;
        return Ok((Entry::End, place));
    }
    let entry = match section {
        Section::Start | Section::Settings => Entry::Setting(reader.setting()?),
        Section::Frames => {
            let frame = reader.frame(settings)?;
            let start = reader.at - frame.payload.len();
            Entry::Frame { frame, start }
        }
        Section::Refused => Entry::Refused(reader.refused(settings)?),
    };
    let behind = Place {
        at: reader.at,
        section,
        left: left - 1,
        settings,
    };
    Ok((entry, behind))
}

/// Reads a file byte by byte and stops at the first one at fault.
struct Reader<'a> {
    file: &'a [u8],
    at: usize,
}

impl Reader<'_> {
    /// The next byte, which has to be good.
    fn field(&mut self, good: impl Fn(u8) -> bool) -> Result<u8, Refusal> {
        // From the file's start on this is its length; a walk may start beyond it.
        let Some(&byte) = self.file.get(self.at) else {
            return refuse(15, self.at);
        };
        if !good(byte) {
            return refuse(16, self.at);
        }
        self.at += 1;
        Ok(byte)
    }

    fn first(&mut self) -> Result<u8, Refusal> {
        self.field(|byte| byte == FIRST)
    }

    fn any(&mut self) -> Result<u8, Refusal> {
        self.field(|_| true)
    }

    fn count(&mut self) -> Result<usize, Refusal> {
        self.any().map(usize::from)
    }

    /// Two bytes, low first.
    fn two_bytes(&mut self) -> Result<u16, Refusal> {
        let low = self.any()?;
        let high = self.any()?;
        Ok(u16::from(low) + 256 * u16::from(high))
    }

    /// A setting that differs from those before it in the file.
    fn setting(&mut self) -> Result<Setting, Refusal> {
        let earlier = self.file.get(SETTINGS_START..self.at).unwrap_or_default();
        let sf = self.field(good_sf)?;
        let given = |low| earlier.chunks_exact(2).any(|pair| pair == [sf, low]);
        let low = self.field(|low| good_flag(low) && !given(low))?;
        Ok(Setting { sf, low })
    }

    fn frame(&mut self, settings: usize) -> Result<Frame, Refusal> {
        let setting = self.field(|index| usize::from(index) < settings)?;
        let cr = self.field(good_cr)?;
        let flag = self.field(good_flag)?;
        let repairs = self.two_bytes()?;
        let mut payload = Vec::new();
        for _ in 0..self.any()? {
            payload.push(self.any()?);
        }
        Ok(Frame {
            setting,
            cr,
            flag,
            repairs,
            payload,
        })
    }

    fn refused(&mut self, settings: usize) -> Result<RefusedFrame, Refusal> {
        Ok(RefusedFrame {
            setting: self.field(|index| usize::from(index) < settings)?,
            number: self.field(good_number)?,
            place: self.two_bytes()?,
        })
    }

    /// Behind the last entry nothing may be left over.
    fn end(&self) -> Result<(), Refusal> {
        if self.at == self.file.len() {
            Ok(())
        } else {
            refuse(15, self.at)
        }
    }
}
