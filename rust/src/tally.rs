//! The tally: how many frames a station heard, accepted and refused.

use crate::{accepted, ffi, Received, Refusal};

/// How many frames a station heard, accepted clean (without repairs), accepted
/// repaired (with one or more) and refused under each number.
///
/// After a clearing and any run of these calls, `heard` is the number of outcomes put
/// in since by calls that were not refused, with a tally that was taken in those of its
/// own history, and the other counts add up to it: that is proved of the library. A
/// tally is cleared when it is made.
///
/// ```
/// use chyvandra::{read, Expected, Tally, MOST_BYTES, MOST_SYMBOLS};
///
/// # fn main() -> Result<(), chyvandra::Refusal> {
/// let (mut payload, mut hurts) = ([0; MOST_BYTES], [0; MOST_SYMBOLS]);
/// let mut tally = Tally::new();
/// let frame = [124, 48, 28, 0, 56, 28, 12, 0];
/// let spoiled = [0, 48, 28, 0, 56, 28, 12, 0];
/// for symbols in [&frame[..], &spoiled, &frame[..7]] {
///     let outcome = read(7, false, Expected::Explicit, symbols, &mut payload, &mut hurts);
///     tally.hear(&outcome)?;
/// }
/// assert_eq!((tally.heard(), tally.clean(), tally.repaired()), (3, 1, 1));
/// // Cut short.
/// assert_eq!(tally.refused(5), 1);
///
/// // Two stations on one panel.
/// let mut both = Tally::new();
/// both.take_in(&tally)?;
/// both.take_in(&tally)?;
/// assert_eq!((both.heard(), both.refused(5)), (6, 2));
/// # Ok(())
/// # }
/// ```
#[derive(Clone, Debug, Default, PartialEq, Eq, Hash)]
pub struct Tally([u32; ffi::TALLY_CELLS]);

impl Tally {
    /// A cleared tally.
    pub const fn new() -> Tally {
        Tally([0; ffi::TALLY_CELLS])
    }

    /// Makes every count 0.
    pub fn clear(&mut self) {
        // SAFETY: the pointer and length are those of one live array.
        let number = unsafe { ffi::lora_tally_clear(self.0.as_mut_ptr(), self.0.len()) };
        debug_assert_eq!(number, 0, "there are cells enough");
    }

    /// Puts in what [`read`](crate::read) gave for a frame.
    ///
    /// # Errors
    ///
    /// In this order, each with place 0 and the whole tally as it was:
    /// [`RefusalKind::FileField`](crate::RefusalKind::FileField), whose number is 16,
    /// for a refusal with a number that read doesn't give;
    /// [`RefusalKind::TallyFull`](crate::RefusalKind::TallyFull).
    ///
    /// ```
    /// use chyvandra::{Refusal, RefusalKind, Tally};
    ///
    /// let of_airtime = Refusal { kind: RefusalKind::BadBandwidth, place: 0 };
    /// let mut tally = Tally::new();
    /// let refusal = tally.hear(&Err(of_airtime)).unwrap_err();
    /// assert_eq!((refusal.number(), refusal.place), (16, 0));
    /// assert_eq!(tally, Tally::new());
    /// ```
    pub fn hear(&mut self, outcome: &Result<Received, Refusal>) -> Result<(), Refusal> {
        let mut answer = [0; ffi::READ_CELLS];
        let number = match outcome {
            Ok(received) => {
                answer[ffi::READ_REPAIRS] = received.repairs as u64;
                0
            }
            Err(refusal) => refusal.number(),
        };
        // SAFETY: each pointer and length is those of one live array, and the two
        // don't overlap.
        let number = unsafe {
            ffi::lora_tally_hear(
                self.0.as_mut_ptr(),
                self.0.len(),
                number,
                answer.as_ptr(),
                answer.len(),
            )
        };
        done(number)
    }

    /// Takes in another station's tally, count by count.
    ///
    /// # Errors
    ///
    /// [`RefusalKind::TallyFull`](crate::RefusalKind::TallyFull) with place 0, and the
    /// whole tally as it was.
    ///
    /// ```
    /// use chyvandra::{RefusalKind, Tally};
    ///
    /// let mut cells = [0; 16];
    /// (cells[0], cells[1]) = (u32::MAX, u32::MAX);
    /// let full = Tally::from(cells);
    /// let mut tally = full.clone();
    /// assert_eq!(tally.take_in(&full).unwrap_err().kind, RefusalKind::TallyFull);
    /// assert_eq!(tally, full);
    /// assert!(tally.take_in(&Tally::new()).is_ok());
    /// ```
    pub fn take_in(&mut self, other: &Tally) -> Result<(), Refusal> {
        // SAFETY: each pointer and length is those of one live array, and the two
        // don't overlap, since one is lent to be written.
        let number = unsafe {
            ffi::lora_tally_take_in(
                self.0.as_mut_ptr(),
                self.0.len(),
                other.0.as_ptr(),
                other.0.len(),
            )
        };
        done(number)
    }

    /// Frames heard.
    pub fn heard(&self) -> u32 {
        self.0[ffi::TALLY_HEARD]
    }

    /// Frames accepted without repairs.
    pub fn clean(&self) -> u32 {
        self.0[ffi::TALLY_CLEAN]
    }

    /// Frames accepted with one repair or more.
    pub fn repaired(&self) -> u32 {
        self.0[ffi::TALLY_REPAIRED]
    }

    /// Frames refused with this number. After a clearing there are none of another than
    /// read gives, which is 1 to 7 and 9 to 12.
    pub fn refused(&self, number: u8) -> u32 {
        let cell = ffi::TALLY_REFUSED + usize::from(number);
        self.0.get(cell).copied().unwrap_or(0)
    }
}

/// A tally that another station sent, or one made by hand: `[0]` is heard, `[1]`
/// accepted clean, `[2]` accepted repaired, `[3 + n]` refused with the number `n`, 0 to
/// 12. It is taken as it is. That the counts add up is promised of tallies that began
/// with a clearing: one made by hand may have others, and a tally that takes it in
/// carries that on.
impl From<[u32; ffi::TALLY_CELLS]> for Tally {
    fn from(cells: [u32; ffi::TALLY_CELLS]) -> Tally {
        Tally(cells)
    }
}

/// The counts as they are sent, in the order told there.
impl From<Tally> for [u32; ffi::TALLY_CELLS] {
    fn from(tally: Tally) -> [u32; ffi::TALLY_CELLS] {
        tally.0
    }
}

/// The refusal, if it is one. Its place is 0.
fn done(number: u8) -> Result<(), Refusal> {
    accepted(number, [0]).map(|_| ())
}
