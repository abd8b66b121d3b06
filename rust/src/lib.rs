//! The digital half of a LoRa transceiver: payload bytes to symbol numbers
//! ([`code`]), symbol numbers to payload ([`read`]), the header alone
//! ([`head`]), the number of symbols ([`count`]), the time on air
//! ([`airtime`]). Frames have a header that says their length, code rate and
//! checksum flag, or have none, and sender and receiver have agreed on these
//! ([`Kind`]). And the day's file, what was received in a day: written
//! ([`day_write`]), checked ([`day_check`]) and walked ([`day_step`]). And how many
//! frames were heard, accepted and refused ([`Tally`]).
//!
//! This is a thin wrapper of Chyvandra's static library, whose functions are
//! proved to answer what is told here for every input: slices and `Result` here,
//! pointers and numbers there ([`ffi`]). There is no state and no allocation.
//!
//! A refusal hands back its kind and place alone and leaves every lent list, and a
//! tally, as it was. An acceptance writes the first cells of a list, as many as it answers, and
//! no other.
//!
//! Symbol numbers count from 0 at the preamble's chirp; a station that counts
//! from 1 subtracts first. In block 0, and at low rate in every block, only
//! multiples of 4 are sent, the marks. There a symbol that arrives 2 below to 1
//! above a mark, round the circle of 2^SF numbers, is read as the mark.
//!
//! To build it, set `LORA_LIB_DIR` to the whole path of the folder that has
//! `liblora_c.a` (x86-64 Linux).
//!
//! ```
//! use chyvandra::{code, read, Expected, Kind, Settings, MOST_BYTES, MOST_SYMBOLS};
//!
//! # fn main() -> Result<(), chyvandra::Refusal> {
//! let kind = Kind::Explicit { cr: 4, checksum: true };
//! let settings = Settings { sf: 9, low: false, kind };
//! let mut symbols = [0; MOST_SYMBOLS];
//! let count = code(&settings, b"open", &mut symbols)?;
//!
//! let (mut payload, mut hurts) = ([0; MOST_BYTES], [0; MOST_SYMBOLS]);
//! let frame = &symbols[..count];
//! let received = read(9, false, Expected::Explicit, frame, &mut payload, &mut hurts)?;
//! assert_eq!(&payload[..received.header.length], b"open");
//! assert_eq!((received.repairs, received.drift), (0, 0));
//!
//! // A symbol one off, behind the first block: one bit is wrong, and repaired.
//! symbols[9] ^= 1;
//! let frame = &symbols[..count];
//! let received = read(9, false, Expected::Explicit, frame, &mut payload, &mut hurts)?;
//! assert_eq!(&payload[..received.header.length], b"open");
//! assert_eq!((received.repairs, hurts[9]), (1, 1));
//!
//! // The same payload without a header: its receiver knows what was agreed on.
//! let kind = Kind::Agreed { length: 4, cr: 4, checksum: true };
//! let count = code(&Settings { kind, ..settings }, b"open", &mut symbols)?;
//! let frame = &symbols[..count];
//! let received = read(9, false, kind.into(), frame, &mut payload, &mut hurts)?;
//! assert_eq!(&payload[..received.header.length], b"open");
//! # Ok(())
//! # }
//! ```

#![warn(missing_docs)]

mod day;
pub mod ffi;
mod refusal;
mod tally;

pub use day::{
    day_check, day_step, day_write, DayCounts, DayEntry, DayFrame, DayPlace, DayRefused,
    DaySection, DaySetting, LONGEST_FILE,
};
pub use refusal::{Refusal, RefusalKind};
pub use tally::Tally;

/// The most symbols that a frame can have: so many cells are always enough for
/// [`code`], and for the hurts that [`read`] fills in.
pub const MOST_SYMBOLS: usize = 832;
/// The most bytes that a payload can have: so many cells are always enough for
/// the payload that [`read`] fills in.
pub const MOST_BYTES: usize = 255;

/// The sender's settings. Numbers out of range are refused by the operations.
#[derive(Clone, Copy, Debug, PartialEq, Eq, Hash)]
pub struct Settings {
    /// Spreading factor, 7 to 12.
    pub sf: u8,
    /// Low-rate flag.
    pub low: bool,
    /// Whether frames have a header, and how they are sent.
    pub kind: Kind,
}

/// How frames are sent: with a header, which says their length, code rate and
/// checksum flag, or without one.
#[derive(Clone, Copy, Debug, PartialEq, Eq, Hash)]
pub enum Kind {
    /// With a header.
    Explicit {
        /// Code rate, 1 to 4 for 4/5 to 4/8.
        cr: u8,
        /// Whether a checksum follows the payload.
        checksum: bool,
    },
    /// Without a header: sender and receiver have agreed on what it would say.
    Agreed {
        /// The payload's bytes, 0 to 255. A payload of any other length is
        /// refused.
        length: usize,
        /// Code rate, 1 to 4 for 4/5 to 4/8.
        cr: u8,
        /// Whether a checksum follows the payload.
        checksum: bool,
    },
}

/// What the receiver of a frame expects. Numbers out of range are refused.
#[derive(Clone, Copy, Debug, PartialEq, Eq, Hash)]
pub enum Expected {
    /// A frame with a header, which says length, code rate and checksum flag.
    Explicit,
    /// A frame without a header. If these are not what the sender has, wrong bytes
    /// may be read.
    Agreed {
        /// The payload's bytes, 0 to 255.
        length: usize,
        /// Code rate, 1 to 4 for 4/5 to 4/8.
        cr: u8,
        /// Whether a checksum follows the payload.
        checksum: bool,
    },
}

/// What the receiver of such frames has to expect.
impl From<Kind> for Expected {
    fn from(kind: Kind) -> Expected {
        match kind {
            Kind::Explicit { .. } => Expected::Explicit,
            Kind::Agreed {
                length,
                cr,
                checksum,
            } => Expected::Agreed {
                length,
                cr,
                checksum,
            },
        }
    }
}

/// What a frame's header says, or what was agreed on in its place.
#[derive(Clone, Copy, Debug, PartialEq, Eq, Hash)]
pub struct Header {
    /// The payload's bytes, 0 to 255.
    pub length: usize,
    /// Code rate, 1 to 4 for 4/5 to 4/8.
    pub cr: u8,
    /// Whether a checksum follows the payload.
    pub checksum: bool,
}

/// What reading a frame answers, next to the payload and the hurts.
#[derive(Clone, Copy, Debug, PartialEq, Eq, Hash)]
pub struct Received {
    /// What the header says, or what was agreed on.
    pub header: Header,
    /// Symbols used: the frame's own.
    pub symbols: usize,
    /// Codewords repaired, those of the header among them, fillers not. Each is
    /// repaired in one bit, so this is the sum of the hurts.
    pub repairs: usize,
    /// The first symbol's drift, -2 to +1: its signed distance, round the circle
    /// of 2^SF numbers, from its mark, the multiple of 4 that it was read as.
    pub drift: i8,
}

/// Codes `payload`: writes its symbols to `out`, from `out[0]` on, and answers
/// their number.
///
/// # Errors
///
/// In this order: [`RefusalKind::BadSf`], [`RefusalKind::BadCr`],
/// [`RefusalKind::TooLong`], also for a payload that has not the agreed length,
/// [`RefusalKind::OutShort`].
pub fn code(settings: &Settings, payload: &[u8], out: &mut [u16]) -> Result<usize, Refusal> {
    let Settings { sf, low, kind } = *settings;
    let (bytes, length) = (payload.as_ptr(), payload.len());
    let (out, out_len) = (out.as_mut_ptr(), out.len());
    let mut answer = [0; ffi::NUMBER_CELLS];
    let (cells, cells_len) = (answer.as_mut_ptr(), answer.len());
    let low = low.into();
    // SAFETY: each pointer and length is those of one live slice, and the slices
    // don't overlap.
    let number = unsafe {
        match kind {
            Kind::Explicit { cr, checksum } => ffi::lora_code(
                sf,
                low,
                cr,
                checksum.into(),
                bytes,
                length,
                out,
                out_len,
                cells,
                cells_len,
            ),
            Kind::Agreed {
                length: agreed,
                cr,
                checksum,
            } => ffi::lora_code_agreed(
                sf,
                low,
                agreed,
                cr,
                checksum.into(),
                bytes,
                length,
                out,
                out_len,
                cells,
                cells_len,
            ),
        }
    };
    accepted(number, answer).map(|[symbols]| symbols as usize)
}

/// Reads the frame at the front of `symbols`: writes its payload to `out`, from
/// `out[0]` on, and how many repaired bits stood in each of its symbols to `hurts`,
/// from `hurts[0]` on; answers what the header says, or what was agreed on, how many
/// symbols were the frame's own, how many codewords were repaired and how far the
/// first symbol was from its mark. Symbols after the frame's own are ignored.
///
/// What accepted means: read with the sender's own SF and low-rate setting,
/// which the frame does not carry, the symbols are a frame by the rules. It is
/// the frame that was sent if at most one symbol was changed in each block, or
/// two at 4/8, those read as the mark that was sent not counted: that is proved.
/// With more changed, or with another SF or low-rate setting, a wrong payload may
/// be accepted: seldom with the checksum on at 4/5, 4/6 and 4/8, more often at 4/7
/// or with the checksum off.
///
/// A frame without a header does not carry its length, code rate and checksum flag
/// either: all this holds where they are read as the sender's own. Read with other
/// agreed values, an unharmed frame may be accepted with wrong bytes, and no repair
/// need show it: with the checksum off often, and always if nothing but the length is
/// wrong and too short; with the checksum on seldom.
///
/// # Errors
///
/// Of a frame with a header those of [`head`]; of one without, in this order,
/// [`RefusalKind::BadSf`], [`RefusalKind::BadCr`] and [`RefusalKind::TooLong`] for
/// an agreed length above 255. Then, in this order, [`RefusalKind::OutShort`] for
/// `out`, which needs a cell for each byte; [`RefusalKind::OutShort`] for `hurts`,
/// which needs one for each symbol of the frame; [`RefusalKind::FewSymbols`] for the
/// whole frame, [`RefusalKind::SymbolOver`] over its symbols, lowest index first,
/// [`RefusalKind::Unreadable`] over data codewords in frame order,
/// [`RefusalKind::Checksum`].
pub fn read(
    sf: u8,
    low: bool,
    expected: Expected,
    symbols: &[u16],
    out: &mut [u8],
    hurts: &mut [u8],
) -> Result<Received, Refusal> {
    let (symbols, symbols_len) = (symbols.as_ptr(), symbols.len());
    let (out, out_len) = (out.as_mut_ptr(), out.len());
    let (hurts, hurts_len) = (hurts.as_mut_ptr(), hurts.len());
    let mut answer = [0; ffi::READ_CELLS];
    let (cells, cells_len) = (answer.as_mut_ptr(), answer.len());
    let low = low.into();
    // SAFETY: as in `code`.
    let number = unsafe {
        match expected {
            Expected::Explicit => ffi::lora_read(
                sf,
                low,
                symbols,
                symbols_len,
                out,
                out_len,
                hurts,
                hurts_len,
                cells,
                cells_len,
            ),
            Expected::Agreed {
                length,
                cr,
                checksum,
            } => ffi::lora_read_agreed(
                sf,
                low,
                length,
                cr,
                checksum.into(),
                symbols,
                symbols_len,
                out,
                out_len,
                hurts,
                hurts_len,
                cells,
                cells_len,
            ),
        }
    };
    accepted(number, answer).map(|[length, cr, flag, used, repairs, drift]| Received {
        header: header([length, cr, flag]),
        symbols: used as usize,
        repairs: repairs as usize,
        // -2 to +1, the sign as in an `i64`: its last byte is the same number.
        drift: drift as i8,
    })
}

/// Reads the header alone, from the first eight symbols. A frame without one is not
/// for this function, which may take its first codewords for a header.
///
/// # Errors
///
/// In this order: [`RefusalKind::BadSf`]; [`RefusalKind::FewSymbols`] for eight;
/// [`RefusalKind::SymbolOver`] among those, lowest index first;
/// [`RefusalKind::Unreadable`] over codewords 0 to 4;
/// [`RefusalKind::HeaderCheck`]; [`RefusalKind::HeaderBit`];
/// [`RefusalKind::HeaderCr`].
pub fn head(sf: u8, symbols: &[u16]) -> Result<Header, Refusal> {
    let mut answer = [0; ffi::HEAD_CELLS];
    // SAFETY: as in `code`.
    let number = unsafe {
        ffi::lora_head(
            sf,
            symbols.as_ptr(),
            symbols.len(),
            answer.as_mut_ptr(),
            answer.len(),
        )
    };
    accepted(number, answer).map(header)
}

/// Answers how many symbols a payload of `length` bytes takes.
///
/// # Errors
///
/// In this order: [`RefusalKind::BadSf`], [`RefusalKind::BadCr`],
/// [`RefusalKind::TooLong`], also for a length that is not the agreed one.
pub fn count(settings: &Settings, length: usize) -> Result<usize, Refusal> {
    let Settings { sf, low, kind } = *settings;
    let mut answer = [0; ffi::NUMBER_CELLS];
    let (cells, cells_len) = (answer.as_mut_ptr(), answer.len());
    let low = low.into();
    // SAFETY: as in `code`.
    let number = unsafe {
        match kind {
            Kind::Explicit { cr, checksum } => {
                ffi::lora_count(sf, low, cr, checksum.into(), length, cells, cells_len)
            }
            Kind::Agreed {
                length: agreed,
                cr,
                checksum,
            } => ffi::lora_count_agreed(
                sf,
                low,
                agreed,
                cr,
                checksum.into(),
                length,
                cells,
                cells_len,
            ),
        }
    };
    accepted(number, answer).map(|[symbols]| symbols as usize)
}

/// Answers the time on air in microseconds of a payload of `length` bytes, at a
/// bandwidth of `khz` kHz (125, 250 or 500) and with a preamble of so many
/// upchirps.
///
/// # Errors
///
/// Those of [`count`], then [`RefusalKind::BadBandwidth`].
pub fn airtime(
    settings: &Settings,
    length: usize,
    khz: u16,
    preamble: u16,
) -> Result<u64, Refusal> {
    let Settings { sf, low, kind } = *settings;
    let mut answer = [0; ffi::NUMBER_CELLS];
    let (cells, cells_len) = (answer.as_mut_ptr(), answer.len());
    let low = low.into();
    // SAFETY: as in `code`.
    let number = unsafe {
        match kind {
            Kind::Explicit { cr, checksum } => ffi::lora_airtime(
                sf,
                low,
                cr,
                checksum.into(),
                length,
                khz,
                preamble,
                cells,
                cells_len,
            ),
            Kind::Agreed {
                length: agreed,
                cr,
                checksum,
            } => ffi::lora_airtime_agreed(
                sf,
                low,
                agreed,
                cr,
                checksum.into(),
                length,
                khz,
                preamble,
                cells,
                cells_len,
            ),
        }
    };
    accepted(number, answer).map(|[microseconds]| microseconds)
}

/// The answer's cells, unless the number is a refusal's. `answer` has the cells
/// that the function needs, so there is no other number.
fn accepted<const CELLS: usize>(number: u8, answer: [u64; CELLS]) -> Result<[u64; CELLS], Refusal> {
    if number == 0 {
        return Ok(answer);
    }
    Err(Refusal {
        kind: RefusalKind::from_number(number).expect("a refusal's number"),
        place: answer[0] as usize,
    })
}

fn header([length, cr, flag]: [u64; 3]) -> Header {
    Header {
        length: length as usize,
        cr: cr as u8,
        checksum: flag != 0,
    }
}
