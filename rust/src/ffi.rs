//! The C interface of the static library, as `include/lora.h` has it. The
//! functions at the top of this crate are safe and do all that these do.
//!
//! A list is a pointer and then its number of elements. A flag (`low`,
//! `checksum`) is 0 for off, any other number for on; in a day's file it is 0 or
//! 1.
//!
//! Each function returns 0 for an acceptance, with the values told at the
//! function in `answer`; 1 to 17 for a refusal, with its place in `answer[0]`
//! and nothing else written; [`ANSWER_SHORT`] where `answer`, or a tally, has too few
//! cells, with nothing written. The functions of the tally answer nothing but what
//! they return, and their refusals have place 0. Cells that are not named stay as they
//! were.
//!
//! # Safety
//!
//! The same holds for each function: a pointer is aligned, and not null unless
//! the number is 0; its elements may be read, and those of `out`, `hurts`, `tally` and
//! of an `answer` that is not `const` written, until the call returns; and the lists of
//! one call do not overlap.
//! All other numbers may be anything. Any number of threads may call at once,
//! each with lists of its own that no other thread writes.

/// Returned where `answer`, or a tally, has too few cells.
pub const ANSWER_SHORT: u8 = 255;

/// Cells of `answer` that count, airtime and code need.
pub const NUMBER_CELLS: usize = 1;
/// Cells of `answer` that head needs: length, CR, checksum flag.
pub const HEAD_CELLS: usize = 3;
/// Cells of `answer` that read needs: length, CR, checksum flag, symbols used,
/// codewords repaired, drift.
pub const READ_CELLS: usize = 6;
/// Which of them is the codewords repaired.
pub const READ_REPAIRS: usize = 4;
/// Cells of `answer` that day_write needs: the file's length.
pub const DAY_WRITE_CELLS: usize = 1;
/// Cells of `answer` that day_check needs: settings, frames, refused frames.
pub const DAY_CHECK_CELLS: usize = 3;
/// Cells of `answer` that day_step needs: what stands there, the place behind it
/// in four cells, the fields in up to six.
pub const DAY_STEP_CELLS: usize = 11;

/// Cells of a tally: heard, accepted clean, accepted repaired, refused with 0 to 12.
pub const TALLY_CELLS: usize = 16;
/// Which of them is heard.
pub const TALLY_HEARD: usize = 0;
/// Which of them is accepted clean.
pub const TALLY_CLEAN: usize = 1;
/// Which of them is accepted repaired.
pub const TALLY_REPAIRED: usize = 2;
/// Which of them is refused with 0. Those for 1 to 12 are behind it.
pub const TALLY_REFUSED: usize = 3;

extern "C" {
    /// Answers the number of symbols in `answer[0]`. Checks 1, 2, 3.
    pub fn lora_count(
        sf: u8,
        low: u8,
        cr: u8,
        checksum: u8,
        length: usize,
        answer: *mut u64,
        answer_len: usize,
    ) -> u8;

    /// Answers the time on air in microseconds in `answer[0]`. Checks 1, 2, 3,
    /// 13.
    pub fn lora_airtime(
        sf: u8,
        low: u8,
        cr: u8,
        checksum: u8,
        length: usize,
        khz: u16,
        preamble: u16,
        answer: *mut u64,
        answer_len: usize,
    ) -> u8;

    /// Writes the symbols from `out[0]` on and answers their number in
    /// `answer[0]`. Checks 1, 2, 3, 4.
    pub fn lora_code(
        sf: u8,
        low: u8,
        cr: u8,
        checksum: u8,
        payload: *const u8,
        payload_len: usize,
        out: *mut u16,
        out_len: usize,
        answer: *mut u64,
        answer_len: usize,
    ) -> u8;

    /// As [`lora_count`], for frames without a header: `agreed` is the agreed
    /// length, and 3 is also given for any other `length`.
    pub fn lora_count_agreed(
        sf: u8,
        low: u8,
        agreed: usize,
        cr: u8,
        checksum: u8,
        length: usize,
        answer: *mut u64,
        answer_len: usize,
    ) -> u8;

    /// As [`lora_airtime`], for frames without a header: `agreed` is the agreed
    /// length, and 3 is also given for any other `length`.
    pub fn lora_airtime_agreed(
        sf: u8,
        low: u8,
        agreed: usize,
        cr: u8,
        checksum: u8,
        length: usize,
        khz: u16,
        preamble: u16,
        answer: *mut u64,
        answer_len: usize,
    ) -> u8;

    /// As [`lora_code`], for a frame without a header: `agreed` is the agreed
    /// length, and 3 is also given for a payload of any other.
    pub fn lora_code_agreed(
        sf: u8,
        low: u8,
        agreed: usize,
        cr: u8,
        checksum: u8,
        payload: *const u8,
        payload_len: usize,
        out: *mut u16,
        out_len: usize,
        answer: *mut u64,
        answer_len: usize,
    ) -> u8;

    /// Answers length, CR and checksum flag (0 or 1) in `answer[0]` to
    /// `answer[2]`. Checks 1, 5, 6, 7, 9, 10, 11.
    pub fn lora_head(
        sf: u8,
        symbols: *const u16,
        symbols_len: usize,
        answer: *mut u64,
        answer_len: usize,
    ) -> u8;

    /// Writes the payload from `out[0]` on and the number of repaired bits in each
    /// symbol used from `hurts[0]` on, and answers length, CR, checksum flag (0 or
    /// 1), symbols used, codewords repaired and the first symbol's drift in
    /// `answer[0]` to `answer[5]`. The drift, -2 to +1, is `answer[5] as i64`: a
    /// negative number comes back as 2^64 less its size. Checks what head checks,
    /// then 4 for `out`, 4 for `hurts`, 5, 6, 7, 12.
    pub fn lora_read(
        sf: u8,
        low: u8,
        symbols: *const u16,
        symbols_len: usize,
        out: *mut u8,
        out_len: usize,
        hurts: *mut u8,
        hurts_len: usize,
        answer: *mut u64,
        answer_len: usize,
    ) -> u8;

    /// As [`lora_read`], for a frame without a header: `agreed` is the agreed
    /// length, and length, CR and checksum flag are answered as they were agreed
    /// on. Checks 1, 2, 3, 4 for `out`, 4 for `hurts`, 5, 6, 7, 12.
    pub fn lora_read_agreed(
        sf: u8,
        low: u8,
        agreed: usize,
        cr: u8,
        checksum: u8,
        symbols: *const u16,
        symbols_len: usize,
        out: *mut u8,
        out_len: usize,
        hurts: *mut u8,
        hurts_len: usize,
        answer: *mut u64,
        answer_len: usize,
    ) -> u8;

    /// Writes the day's file from `out[0]` on and answers its length in
    /// `answer[0]`. Rows of numbers stand one behind the other: a setting is 2, a
    /// frame 5, a refused frame 3. Checks 16, then 4.
    pub fn lora_day_write(
        settings: *const u8,
        settings_len: usize,
        frames: *const u16,
        frames_len: usize,
        payloads: *const u8,
        payloads_len: usize,
        refused: *const u16,
        refused_len: usize,
        out: *mut u8,
        out_len: usize,
        answer: *mut u64,
        answer_len: usize,
    ) -> u8;

    /// Answers the numbers of settings, frames and refused frames in `answer[0]`
    /// to `answer[2]`. Checks 15 and 16, the first byte at fault first.
    pub fn lora_day_check(
        file: *const u8,
        file_len: usize,
        answer: *mut u64,
        answer_len: usize,
    ) -> u8;

    /// Answers what stands at a place: `answer[0]` is 0 at the end, 1 for a
    /// setting, 2 for a frame, 3 for a refused frame. The section is 0 at the
    /// start, 1 in the settings, 2 in the frames, 3 or more in the refused
    /// frames. But at the end, the place behind the entry is in `answer[1]` to
    /// `answer[4]` and the entry's fields from `answer[5]` on: SF and flag; or
    /// settings index, CR, flag, repairs, start and end of the payload; or
    /// settings index, number and place. Checks 15 and 16.
    pub fn lora_day_step(
        file: *const u8,
        file_len: usize,
        at: usize,
        section: u8,
        left: usize,
        settings: usize,
        answer: *mut u64,
        answer_len: usize,
    ) -> u8;

    /// Makes the [`TALLY_CELLS`] cells 0.
    pub fn lora_tally_clear(tally: *mut u32, tally_len: usize) -> u8;

    /// Puts in the outcome of a frame: the number that read returned and, if it is 0,
    /// the answer that it left. Checks 16, then 17.
    pub fn lora_tally_hear(
        tally: *mut u32,
        tally_len: usize,
        number: u8,
        answer: *const u64,
        answer_len: usize,
    ) -> u8;

    /// Adds another tally, cell by cell. Checks 17.
    pub fn lora_tally_take_in(
        tally: *mut u32,
        tally_len: usize,
        other: *const u32,
        other_len: usize,
    ) -> u8;
}
