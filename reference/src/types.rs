//! What goes into the operations and what comes out of them.

use crate::plain::day::{Counts, Entry, Place};

/// The sender's settings. Numbers may be out of range: the operations refuse
/// them.
#[derive(Clone, Copy, Debug, PartialEq, Eq)]
pub struct Settings {
    /// Spreading factor, 7 to 12.
    pub sf: u8,
    /// Low-rate flag.
    pub low: bool,
    pub kind: Kind,
}

impl Settings {
    /// The same for frames without a header, of so many bytes.
    pub fn without_header(self, length: usize) -> Settings {
        let (cr, checksum) = (self.kind.cr(), self.kind.checksum());
        Settings {
            kind: Kind::Agreed {
                length,
                cr,
                checksum,
            },
            ..self
        }
    }
}

/// How a receiver knows length, code rate (1 to 4 for 4/5 to 4/8) and checksum
/// flag of a frame (document 02, Ask 4).
#[derive(Clone, Copy, Debug, PartialEq, Eq)]
pub enum Kind {
    /// The frame has a header that says them.
    Explicit { cr: u8, checksum: bool },
    /// The frame has no header: they were agreed on.
    Agreed {
        length: usize,
        cr: u8,
        checksum: bool,
    },
}

impl Kind {
    pub fn cr(self) -> u8 {
        match self {
            Kind::Explicit { cr, .. } | Kind::Agreed { cr, .. } => cr,
        }
    }

    pub fn checksum(self) -> bool {
        match self {
            Kind::Explicit { checksum, .. } | Kind::Agreed { checksum, .. } => checksum,
        }
    }

    /// What a receiver of such frames expects.
    pub fn expected(self) -> Expected {
        match self {
            Kind::Explicit { .. } => Expected::Explicit,
            Kind::Agreed {
                length,
                cr,
                checksum,
            } => Expected::Agreed {
                length,
                cr,
                checksum,
            },
        }
    }
}

/// What a receiver expects: a frame with a header, or one as agreed on.
#[derive(Clone, Copy, Debug, PartialEq, Eq)]
pub enum Expected {
    Explicit,
    Agreed {
        length: usize,
        cr: u8,
        checksum: bool,
    },
}

/// A number handed back instead of a result, with its place.
#[derive(Clone, Copy, Debug, PartialEq, Eq)]
pub struct Refusal {
    pub number: u8,
    pub place: usize,
}

/// What the header says, or what was agreed on in its place.
#[derive(Clone, Copy, Debug, PartialEq, Eq)]
pub struct Header {
    pub length: usize,
    pub cr: u8,
    pub checksum: bool,
}

/// What reading a frame answers, next to the payload and the list of hurts.
#[derive(Clone, Copy, Debug, PartialEq, Eq)]
pub struct Received {
    pub header: Header,
    /// Symbols used: the frame's own.
    pub symbols: usize,
    /// Codewords repaired, header included, fillers not.
    pub repairs: usize,
    /// The first symbol's drift, -2 to +1: its signed distance from its mark,
    /// round the circle of 2^SF numbers.
    pub drift: i8,
}

/// What reading a frame gives.
pub type Outcome = Result<Received, Refusal>;

/// Shorthand for a refusal as an outcome.
pub fn refuse<T>(number: u8, place: usize) -> Result<T, Refusal> {
    Err(Refusal { number, place })
}

/// An implementation of code.
pub type Code = fn(&Settings, &[u8], &mut [u16]) -> Result<usize, Refusal>;
/// An implementation of read: the first list is the payload's, the second takes
/// the repaired bits of each symbol.
pub type Read = fn(u8, bool, Expected, &[u16], &mut [u8], &mut [u8]) -> Outcome;
/// An implementation of the day's file: its writer, over rows of numbers.
pub type DayWrite = fn(&[u8], &[u16], &[u8], &[u16], &mut [u8]) -> Result<usize, Refusal>;
/// Its check.
pub type DayCheck = fn(&[u8]) -> Result<Counts, Refusal>;
/// Its step.
pub type DayStep = fn(&[u8], Place) -> Result<(Entry, Place), Refusal>;
