//! The product's library, through its wrapper for Rust, in this package's types.
//! The wrapper has types of its own, so that nothing here is shared with it.

use crate::plain::day::{Counts, Entry, Frame, Place, RefusedFrame, Section, Setting};
use crate::plain::tally::{self, CELLS};
use crate::types::{Expected, Header, Kind, Outcome, Received, Refusal, Settings};
use chyvandra::{DayEntry, DayFrame, DayPlace, DayRefused, DaySection, DaySetting, RefusalKind};

pub fn code(settings: &Settings, payload: &[u8], out: &mut [u16]) -> Result<usize, Refusal> {
    chyvandra::code(&given(settings), payload, out).map_err(refusal)
}

pub fn read(
    sf: u8,
    low: bool,
    expected: Expected,
    symbols: &[u16],
    out: &mut [u8],
    hurts: &mut [u8],
) -> Result<Received, Refusal> {
    let expected = match expected {
        Expected::Explicit => chyvandra::Expected::Explicit,
        Expected::Agreed {
            length,
            cr,
            checksum,
        } => chyvandra::Expected::Agreed {
            length,
            cr,
            checksum,
        },
    };
    let received = chyvandra::read(sf, low, expected, symbols, out, hurts).map_err(refusal)?;
    Ok(Received {
        header: header(received.header),
        symbols: received.symbols,
        repairs: received.repairs,
        drift: received.drift,
    })
}

pub fn head(sf: u8, symbols: &[u16]) -> Result<Header, Refusal> {
    chyvandra::head(sf, symbols).map(header).map_err(refusal)
}

pub fn count(settings: &Settings, length: usize) -> Result<usize, Refusal> {
    chyvandra::count(&given(settings), length).map_err(refusal)
}

pub fn airtime(
    settings: &Settings,
    length: usize,
    khz: u16,
    preamble: u16,
) -> Result<u64, Refusal> {
    chyvandra::airtime(&given(settings), length, khz, preamble).map_err(refusal)
}

/// Rows must be whole: the wrapper's types leave no other.
pub fn day_write(
    settings: &[u8],
    frames: &[u16],
    payloads: &[u8],
    refused: &[u16],
    out: &mut [u8],
) -> Result<usize, Refusal> {
    DayRows::new(settings, frames, refused).write(payloads, out)
}

/// Rows in the wrapper's types, apart from writing, so that this can be timed
/// alone.
pub struct DayRows {
    settings: Vec<DaySetting>,
    frames: Vec<DayFrame>,
    refused: Vec<DayRefused>,
}

impl DayRows {
    pub fn new(settings: &[u8], frames: &[u16], refused: &[u16]) -> DayRows {
        let setting = |&[sf, low]: &[u8; 2]| DaySetting { sf, low };
        let frame = |&[setting, cr, checksum, repairs, length]: &[u16; 5]| DayFrame {
            setting,
            cr,
            checksum,
            repairs,
            length,
        };
        let refused_frame = |&[setting, number, place]: &[u16; 3]| DayRefused {
            setting,
            number,
            place,
        };
        DayRows {
            settings: whole_rows(settings).iter().map(setting).collect(),
            frames: whole_rows(frames).iter().map(frame).collect(),
            refused: whole_rows(refused).iter().map(refused_frame).collect(),
        }
    }

    pub fn write(&self, payloads: &[u8], out: &mut [u8]) -> Result<usize, Refusal> {
        chyvandra::day_write(&self.settings, &self.frames, payloads, &self.refused, out)
            .map_err(refusal)
    }
}

fn whole_rows<T, const N: usize>(numbers: &[T]) -> &[[T; N]] {
    let (rows, cut) = numbers.as_chunks();
    assert!(cut.is_empty(), "a row is cut short");
    rows
}

pub fn day_check(file: &[u8]) -> Result<Counts, Refusal> {
    let counts = chyvandra::day_check(file).map_err(refusal)?;
    Ok(Counts {
        settings: counts.settings,
        frames: counts.frames,
        refused: counts.refused,
    })
}

pub fn day_step(file: &[u8], place: Place) -> Result<(Entry, Place), Refusal> {
    let section = match place.section {
        Section::Start => DaySection::Start,
        Section::Settings => DaySection::Settings,
        Section::Frames => DaySection::Frames,
        Section::Refused => DaySection::Refused,
    };
    let given = DayPlace {
        at: place.at,
        section,
        left: place.left,
        settings: place.settings,
    };
    let (entry, behind) = chyvandra::day_step(file, given).map_err(refusal)?;
    let section = match behind.section {
        DaySection::Start => Section::Start,
        DaySection::Settings => Section::Settings,
        DaySection::Frames => Section::Frames,
        DaySection::Refused => Section::Refused,
    };
    let behind = Place {
        at: behind.at,
        section,
        left: behind.left,
        settings: behind.settings,
    };
    Ok((entry_of(file, entry), behind))
}

fn entry_of(file: &[u8], entry: DayEntry) -> Entry {
    // Entries that are answered are in range, so each number is a byte.
    let byte = |number: u16| u8::try_from(number).expect("a byte");
    match entry {
        DayEntry::Setting(DaySetting { sf, low }) => Entry::Setting(Setting { sf, low }),
        DayEntry::Frame { frame, payload } => {
            assert_eq!(usize::from(frame.length), payload.len());
            Entry::Frame {
                frame: Frame {
                    setting: byte(frame.setting),
                    cr: byte(frame.cr),
                    flag: byte(frame.checksum),
                    repairs: frame.repairs,
                    payload: payload.to_vec(),
                },
                // The payload is that part of the file, not the same bytes elsewhere.
                start: payload.as_ptr() as usize - file.as_ptr() as usize,
            }
        }
        DayEntry::Refused(refused) => Entry::Refused(RefusedFrame {
            setting: byte(refused.setting),
            number: byte(refused.number),
            place: refused.place,
        }),
        DayEntry::End => Entry::End,
    }
}

/// The wrapper's tally.
pub struct Tally(chyvandra::Tally);

impl Tally {
    pub fn of(cells: [u32; CELLS]) -> Tally {
        Tally(cells.into())
    }

    pub fn cells(&self) -> [u32; CELLS] {
        self.0.clone().into()
    }

    /// The same, asked one by one.
    pub fn counts(&self) -> tally::Tally {
        let mut counts = tally::Tally {
            heard: self.0.heard(),
            clean: self.0.clean(),
            repaired: self.0.repaired(),
            ..tally::Tally::default()
        };
        for (number, count) in counts.refused.iter_mut().enumerate() {
            *count = self.0.refused(number as u8);
        }
        counts
    }

    pub fn clear(&mut self) {
        self.0.clear();
    }

    /// Nothing where the wrapper has no refusal of that number.
    pub fn hear(&mut self, outcome: &Outcome) -> Option<Result<(), Refusal>> {
        let outcome = match outcome {
            Ok(received) => Ok(chyvandra::Received {
                header: chyvandra::Header {
                    length: received.header.length,
                    cr: received.header.cr,
                    checksum: received.header.checksum,
                },
                symbols: received.symbols,
                repairs: received.repairs,
                drift: received.drift,
            }),
            Err(Refusal { number, place }) => Err(chyvandra::Refusal {
                kind: RefusalKind::from_number(*number)?,
                place: *place,
            }),
        };
        Some(self.0.hear(&outcome).map_err(refusal))
    }

    pub fn take_in(&mut self, other: &Tally) -> Result<(), Refusal> {
        self.0.take_in(&other.0).map_err(refusal)
    }
}

fn given(settings: &Settings) -> chyvandra::Settings {
    let Settings { sf, low, kind } = *settings;
    let kind = match kind {
        Kind::Explicit { cr, checksum } => chyvandra::Kind::Explicit { cr, checksum },
        Kind::Agreed {
            length,
            cr,
            checksum,
        } => chyvandra::Kind::Agreed {
            length,
            cr,
            checksum,
        },
    };
    chyvandra::Settings { sf, low, kind }
}

fn header(header: chyvandra::Header) -> Header {
    Header {
        length: header.length,
        cr: header.cr,
        checksum: header.checksum,
    }
}

fn refusal(refusal: chyvandra::Refusal) -> Refusal {
    Refusal {
        number: refusal.number(),
        place: refusal.place,
    }
}
