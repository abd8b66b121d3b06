//! What is handed back instead of a result.

use std::error::Error;
use std::fmt;

/// Why an operation was refused. The number of each kind is its value, as in
/// `RefusalKind::Checksum as u8`.
#[derive(Clone, Copy, Debug, PartialEq, Eq, Hash)]
#[repr(u8)]
pub enum RefusalKind {
    /// 1: SF not 7 to 12.
    BadSf = 1,
    /// 2: CR not 1 to 4.
    BadCr = 2,
    /// 3: length above 255, or not the agreed one.
    TooLong = 3,
    /// 4: the lent output is too short. The place is the cells needed.
    OutShort = 4,
    /// 5: fewer symbols than needed. The place is the symbols needed.
    FewSymbols = 5,
    /// 6: a symbol is 2^SF or more. The place is its index.
    SymbolOver = 6,
    /// 7: a codeword at 4/5, 4/6 or 4/8 can't be read. The place is its number
    /// in the frame.
    Unreadable = 7,
    /// 9: the header's check bits are wrong.
    HeaderCheck = 9,
    /// 10: a header bit that must be 0 is 1.
    HeaderBit = 10,
    /// 11: the header's CR is 0, 5, 6 or 7.
    HeaderCr = 11,
    /// 12: the payload's checksum is wrong.
    Checksum = 12,
    /// 13: bandwidth not 125, 250 or 500.
    BadBandwidth = 13,
    /// 15: bytes of a day's file are missing, and the place is the file's length;
    /// or left over, and the place is the first of them.
    FileLength = 15,
    /// 16: a field of a day's file is outside its range, and the place is its
    /// byte; or a day's file can't hold the entries, and the place is 0; or a tally
    /// is told of a refusal whose number read doesn't give, and the place is 0.
    FileField = 16,
    /// 17: a number of a tally would pass 32 bits.
    TallyFull = 17,
}

use RefusalKind::*;

/// All kinds. 8 is not used, since at 4/7 every codeword can be read; 14 is a
/// number of the programs alone.
const KINDS: [RefusalKind; 15] = [
    BadSf,
    BadCr,
    TooLong,
    OutShort,
    FewSymbols,
    SymbolOver,
    Unreadable,
    HeaderCheck,
    HeaderBit,
    HeaderCr,
    Checksum,
    BadBandwidth,
    FileLength,
    FileField,
    TallyFull,
];

impl RefusalKind {
    /// The kind with this number, if there is one.
    pub fn from_number(number: u8) -> Option<RefusalKind> {
        KINDS.into_iter().find(|kind| *kind as u8 == number)
    }

    /// What the number means, in words.
    pub fn meaning(self) -> &'static str {
        match self {
            BadSf => "SF not 7 to 12",
            BadCr => "CR not 1 to 4",
            TooLong => "length above 255, or not the agreed one",
            OutShort => "lent output too short",
            FewSymbols => "fewer symbols than needed",
            SymbolOver => "a symbol is 2^SF or more",
            Unreadable => "a codeword at 4/5, 4/6 or 4/8 can't be read",
            HeaderCheck => "header check bits wrong",
            HeaderBit => "a header bit that must be 0 is 1",
            HeaderCr => "header CR is 0, 5, 6 or 7",
            Checksum => "payload checksum wrong",
            BadBandwidth => "bandwidth not 125, 250 or 500",
            FileLength => "bytes of a day's file missing or left over",
            FileField => {
                "a field of a day's file outside its range, or a number that read doesn't give"
            }
            TallyFull => "a number of the tally would pass 32 bits",
        }
    }
}

/// A refusal: why, and where. Nothing was written.
#[derive(Clone, Copy, Debug, PartialEq, Eq, Hash)]
pub struct Refusal {
    /// Why.
    pub kind: RefusalKind,
    /// Where, as told at the kind; 0 for a kind that tells of no place.
    pub place: usize,
}

impl Refusal {
    /// The refusal's number, 1 to 17.
    pub fn number(&self) -> u8 {
        self.kind as u8
    }
}

impl fmt::Display for Refusal {
    fn fmt(&self, f: &mut fmt::Formatter) -> fmt::Result {
        let (number, place) = (self.number(), self.place);
        write!(
            f,
            "{} (refusal {number}, place {place})",
            self.kind.meaning()
        )
    }
}

impl Error for Refusal {}
