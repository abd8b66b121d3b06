/* The digital half of a LoRa transceiver: payload bytes to symbol numbers, symbol numbers to payload, the header alone,
 * the symbol count, the time on air. Frames have an explicit header, which says length, CR and checksum flag; or none, and
 * sender and receiver have agreed on these: for them are the functions that end in _agreed. And the day's file: what was
 * received in a day, written, checked and walked. And the tally: how many frames were heard, accepted and refused. Link with
 * liblora_c.a (x86-64 Linux).
 *
 * Symbol numbers count from 0 at the preamble's chirp; a station that counts from 1 subtracts first. In block 0, and at low
 * rate in every block, only multiples of 4 are sent, the marks. There a symbol that arrives 2 below to 1 above a mark,
 * round the circle of 2^SF numbers, is read as the mark.
 *
 * A list is lent as a pointer and its number of elements. The lists of one call do not overlap, and a pointer is aligned.
 * Where the number is 0 the pointer may be NULL: nothing is read or written through it. A flag (low, checksum) is 0 for
 * off, any other number for on.
 *
 * The functions keep no state and allocate nothing. Any number of threads may call them at once, each with lists of its
 * own that no other thread writes. A call needs 5.1 KiB of stack (measured, not proved: reference/run stack).
 *
 * What accepted means: read with the sender's own SF and low-rate setting, which the frame does not carry, the symbols are
 * a frame by the rules. It is the frame that was sent if at most one symbol was changed in each block, or two at 4/8, those
 * read as the mark that was sent not counted: that is proved. With more changed, or with another SF or low-rate setting, a
 * wrong payload may be accepted: seldom with the checksum on at 4/5, 4/6 and 4/8, more often at 4/7 or with the checksum
 * off (measured: reference/run misread).
 * A frame without a header does not carry its length, CR and checksum flag either: all this holds where they are read as the
 * sender's own. Read with other agreed values, an unharmed frame may be accepted with wrong bytes, and no repair need show it:
 * with the checksum off often, and always if nothing but the length is wrong and too short; with the checksum on seldom
 * (measured by the same command).
 *
 * Ranges: SF 7 to 12, CR 1 to 4 (4/5 to 4/8), length 0 to 255, bandwidth 125, 250 or 500 kHz, preamble any 16-bit number.
 * The largest frame has 832 symbols, the longest payload 255 bytes, the longest file of a day 67,603 bytes.
 *
 * What a function returns:
 *   0          accepted; `answer` holds the values told at the function, from answer[0] on
 *   1 to 17    refused, with a number of the table; answer[0] holds the place, and nothing else is written
 *   255        `answer`, or a tally, has too few cells; nothing is written
 * The functions of the tally answer nothing but what they return, and their refusals have place 0.
 * Cells of `answer`, `out`, `hurts` and `tally` that are not named stay as they were.
 *
 *   No.                        Given when                                               Place
 *   LORA_BAD_SF            1   SF not 7 to 12                                           0
 *   LORA_BAD_CR            2   CR not 1 to 4 (code, count, airtime, read_agreed)        0
 *   LORA_TOO_LONG          3   length above 255 (code, count, airtime, read_agreed)     0
 *                              not the agreed length (code, count, airtime _agreed)     0
 *   LORA_OUT_SHORT         4   lent output too short                                    cells needed
 *   LORA_FEW_SYMBOLS       5   fewer symbols than needed                                symbols needed
 *   LORA_SYMBOL_OVER       6   a symbol is 2^SF or more                                 its index
 *   LORA_UNREADABLE        7   a codeword at 4/5, 4/6 or 4/8 can't be read              its number in the frame
 *   LORA_HEADER_CHECK      9   header check bits wrong                                  0
 *   LORA_HEADER_BIT       10   a header bit that must be 0 is 1                         0
 *   LORA_HEADER_CR        11   header CR is 0, 5, 6 or 7                                0
 *   LORA_CHECKSUM         12   payload checksum wrong                                   0
 *   LORA_BAD_BANDWIDTH    13   bandwidth not 125, 250 or 500                            0
 *   LORA_FILE_LENGTH      15   bytes of a day's file are missing                        the file's length
 *                              bytes of a day's file are left over                      the first of them
 *   LORA_FILE_FIELD       16   a field of a day's file is outside its range             its byte
 *                              entries that a day's file can't hold (day_write)         0
 *                              an outcome whose number read doesn't give (tally_hear)   0
 *   LORA_TALLY_FULL       17   a number of a tally would pass 32 bits                   0
 *
 * Codewords are numbered through the frame from 0, block after block, fillers counted. 8 is not used: at 4/7 every codeword
 * can be read. 14 is a number of the programs.
 *
 * The day's file: a first byte 1; then settings, frames and refused frames, each section after its number of entries in one
 * byte. A byte is a number, repairs and place take two, low first:
 *   a setting          SF, low-rate flag                                                        no pair twice
 *   a frame            settings index, CR, checksum flag, repairs (2), length, payload
 *   a refused frame    settings index, number (4 to 7 or 9 to 12), place (2)
 * Here a flag is 0 or 1, and an index below the number of settings. Repairs, place and length may be any number.
 */
#ifndef LORA_H
#define LORA_H

#include <stddef.h>
#include <stdint.h>

#define LORA_VERSION_MAJOR 4
#define LORA_VERSION_MINOR 2
#define LORA_VERSION_PATCH 0
#define LORA_VERSION "4.2.0"

#ifdef __cplusplus
extern "C" {
#endif

enum {
    LORA_OK = 0,
    LORA_BAD_SF = 1,
    LORA_BAD_CR = 2,
    LORA_TOO_LONG = 3,
    LORA_OUT_SHORT = 4,
    LORA_FEW_SYMBOLS = 5,
    LORA_SYMBOL_OVER = 6,
    LORA_UNREADABLE = 7,
    LORA_HEADER_CHECK = 9,
    LORA_HEADER_BIT = 10,
    LORA_HEADER_CR = 11,
    LORA_CHECKSUM = 12,
    LORA_BAD_BANDWIDTH = 13,
    LORA_FILE_LENGTH = 15,
    LORA_FILE_FIELD = 16,
    LORA_TALLY_FULL = 17,
    LORA_ANSWER_SHORT = 255
};

/* What a returned number means, in words. */
static inline const char *lora_meaning(uint8_t number)
{
    switch (number) {
    case LORA_OK: return "accepted";
    case LORA_BAD_SF: return "SF not 7 to 12";
    case LORA_BAD_CR: return "CR not 1 to 4";
    case LORA_TOO_LONG: return "length above 255, or not the agreed one";
    case LORA_OUT_SHORT: return "lent output too short";
    case LORA_FEW_SYMBOLS: return "fewer symbols than needed";
    case LORA_SYMBOL_OVER: return "a symbol is 2^SF or more";
    case LORA_UNREADABLE: return "a codeword at 4/5, 4/6 or 4/8 can't be read";
    case LORA_HEADER_CHECK: return "header check bits wrong";
    case LORA_HEADER_BIT: return "a header bit that must be 0 is 1";
    case LORA_HEADER_CR: return "header CR is 0, 5, 6 or 7";
    case LORA_CHECKSUM: return "payload checksum wrong";
    case LORA_BAD_BANDWIDTH: return "bandwidth not 125, 250 or 500";
    case LORA_FILE_LENGTH: return "bytes of a day's file missing or left over";
    case LORA_FILE_FIELD: return "a field of a day's file outside its range, or a number that read doesn't give";
    case LORA_TALLY_FULL: return "a number of the tally would pass 32 bits";
    case LORA_ANSWER_SHORT: return "answer or tally has too few cells";
    default: return "no number of this library";
    }
}

/* The sizes that are always enough, and the cells of `answer` that each function needs, with _agreed as without. */
enum {
    LORA_MAX_SYMBOLS = 832,
    LORA_MAX_PAYLOAD = 255,
    LORA_MAX_FILE = 67603,
    LORA_COUNT_CELLS = 1,
    LORA_AIRTIME_CELLS = 1,
    LORA_CODE_CELLS = 1,
    LORA_HEAD_CELLS = 3,
    LORA_READ_CELLS = 6,
    LORA_DAY_WRITE_CELLS = 1,
    LORA_DAY_CHECK_CELLS = 3,
    LORA_DAY_STEP_CELLS = 11
};

/* A tally: its number of cells, and what stands in them. Refused with the number n is LORA_TALLY_REFUSED + n, n = 0 to 12. */
enum {
    LORA_TALLY_CELLS = 16,
    LORA_TALLY_HEARD = 0,
    LORA_TALLY_CLEAN = 1,
    LORA_TALLY_REPAIRED = 2,
    LORA_TALLY_REFUSED = 3
};

/* Numbers in a row of day_write. */
enum { LORA_SETTING_ROW = 2, LORA_FRAME_ROW = 5, LORA_REFUSED_ROW = 3 };

/* Sections of a day's file, as day_step takes and answers them. */
enum { LORA_AT_START = 0, LORA_IN_SETTINGS = 1, LORA_IN_FRAMES = 2, LORA_IN_REFUSED = 3 };

/* What stands at a place of a day's file, as day_step answers it. */
enum { LORA_END = 0, LORA_SETTING = 1, LORA_FRAME = 2, LORA_REFUSED = 3 };

/* count: settings and a length; answers the number of symbols.
 * Checks 1, 2, 3. `answer` needs 1 cell: [0] number of symbols. */
uint8_t lora_count(uint8_t sf, uint8_t low, uint8_t cr, uint8_t checksum, size_t length,
                   uint64_t *answer, size_t answer_len);

/* airtime: the same, with bandwidth in kHz and preamble length n; answers the time on air in microseconds,
 * (4(n + symbols) + 17) x 2^SF x 250 / bandwidth.
 * Checks 1, 2, 3, 13. `answer` needs 1 cell: [0] microseconds. */
uint8_t lora_airtime(uint8_t sf, uint8_t low, uint8_t cr, uint8_t checksum, size_t length, uint16_t khz,
                     uint16_t preamble, uint64_t *answer, size_t answer_len);

/* code: settings and a payload; fills the lent list `out` of 16-bit symbols from out[0] on; answers their count.
 * Checks 1, 2, 3, 4. After a refusal `out` is as it was. `answer` needs 1 cell: [0] number of symbols. */
uint8_t lora_code(uint8_t sf, uint8_t low, uint8_t cr, uint8_t checksum, const uint8_t *payload, size_t payload_len,
                  uint16_t *out, size_t out_len, uint64_t *answer, size_t answer_len);

/* head: SF and symbols; answers length, CR and checksum flag from the first eight.
 * Checks 1; 5 for eight symbols; 6 among those, lowest index first; 7 over codewords 0 to 4; 9; 10; 11.
 * `answer` needs 3 cells: [0] length, [1] CR, [2] checksum flag (0 or 1). */
uint8_t lora_head(uint8_t sf, const uint16_t *symbols, size_t symbols_len, uint64_t *answer, size_t answer_len);

/* read: SF, low-rate flag and symbols; fills the lent byte buffer `out` from out[0] on with the payload, and the lent list
 * `hurts` from hurts[0] on with the number of repaired bits in each symbol used, 0 where there is none; answers length, CR,
 * checksum flag, symbols used, codewords repaired, and the first symbol's drift: its signed distance from its mark, number
 * less mark round the circle, -2 to +1. Symbols after the frame's own are ignored.
 * A codeword is repaired in one bit, and each of its bits stands in another symbol of its block: so hurts[t] is how many
 * codewords were repaired in their bit of symbol t, those of the header among them and fillers not, and the cells add up to
 * the codewords repaired. LORA_MAX_SYMBOLS cells are always enough; a caller who has no use for the list lends them too.
 * Checks what head checks; then 4 for the payload; 4 for `hurts`, the cells needed being the frame's symbols; 5 for the
 * whole frame; 6 over the rest; 7 over data codewords in frame order; 12. After a refusal `out` and `hurts` are as they
 * were.
 * `answer` needs 6 cells: [0] length, [1] CR, [2] checksum flag (0 or 1), [3] symbols used, [4] codewords repaired,
 * [5] drift. A cell has no sign, so -1 and -2 come back as 2^64 - 1 and 2^64 - 2: (int64_t)answer[5] is the drift. */
uint8_t lora_read(uint8_t sf, uint8_t low, const uint16_t *symbols, size_t symbols_len, uint8_t *out, size_t out_len,
                  uint8_t *hurts, size_t hurts_len, uint64_t *answer, size_t answer_len);

/* Frames without a header, as small sensors send them. Length, CR and checksum flag are not in the frame: sender and
 * receiver have agreed on them, and `agreed` is the agreed length. All codewords of block 0 are for data, so the frames are
 * shorter: the largest has 824 symbols. What is not told here is as with the function of the same name without _agreed.
 *
 * count_agreed, airtime_agreed and code_agreed give 3 also for a length, or a payload, that is not the agreed one. */
uint8_t lora_count_agreed(uint8_t sf, uint8_t low, size_t agreed, uint8_t cr, uint8_t checksum, size_t length,
                          uint64_t *answer, size_t answer_len);

uint8_t lora_airtime_agreed(uint8_t sf, uint8_t low, size_t agreed, uint8_t cr, uint8_t checksum, size_t length,
                            uint16_t khz, uint16_t preamble, uint64_t *answer, size_t answer_len);

uint8_t lora_code_agreed(uint8_t sf, uint8_t low, size_t agreed, uint8_t cr, uint8_t checksum, const uint8_t *payload,
                         size_t payload_len, uint16_t *out, size_t out_len, uint64_t *answer, size_t answer_len);

/* read_agreed: reads with these agreed values, which have to be the sender's, and answers them as length, CR and checksum
 * flag (0 or 1).
 * Checks 1; 2; 3 for an agreed length above 255; 4 for the payload; 4 for `hurts`, the cells needed being the frame's
 * symbols; 5 for the whole frame; 6 among its symbols, lowest index first; 7 over data codewords in frame order; 12.
 * With the length 0 and the checksum off there are no data: any eight symbols below 2^SF are accepted, with no repairs. */
uint8_t lora_read_agreed(uint8_t sf, uint8_t low, size_t agreed, uint8_t cr, uint8_t checksum, const uint16_t *symbols,
                         size_t symbols_len, uint8_t *out, size_t out_len, uint8_t *hurts, size_t hurts_len,
                         uint64_t *answer, size_t answer_len);

/* day_write: a day's entries as rows of numbers; fills the lent byte buffer `out` from out[0] on with the day's file;
 * answers its length. Rows stand one behind the other, payloads too, in the order of the frames:
 *   settings   SF, low-rate flag                                   `settings_len` is 2 for each
 *   frames     settings index, CR, checksum flag, repairs, length  `frames_len` is 5 for each
 *   payloads   as many bytes of each frame as its length says
 *   refused    settings index, number, place                       `refused_len` is 3 for each
 * Checks 16, place 0: a row cut short, a number outside its range, a pair of settings given twice, a length above 255,
 * lengths that don't add up to `payloads_len`, more than 255 rows of a kind; then 4. After a refusal `out` is as it was.
 * LORA_MAX_FILE bytes are always enough. `answer` needs 1 cell: [0] the file's length. */
uint8_t lora_day_write(const uint8_t *settings, size_t settings_len, const uint16_t *frames, size_t frames_len,
                       const uint8_t *payloads, size_t payloads_len, const uint16_t *refused, size_t refused_len,
                       uint8_t *out, size_t out_len, uint64_t *answer, size_t answer_len);

/* day_check: any bytes; answers how many entries the day's file has. A file that is accepted is the one that day_write
 * makes of its entries.
 * Checks 15 and 16 from the first byte on: the first byte at fault decides. A pair of settings given again is at fault at
 * its flag. `answer` needs 3 cells: [0] settings, [1] frames, [2] refused frames. */
uint8_t lora_day_check(const uint8_t *file, size_t file_len, uint64_t *answer, size_t answer_len);

/* day_step: any bytes and a place in them; answers the entry that stands there and the place behind it. A walk starts at
 * 0, LORA_AT_START, 0, 0 and goes on from the place that was answered, to LORA_END. A place is the next byte `at`, its
 * section (any number above 3 is as 3), how many entries the section has left, and the settings that an index may name.
 * Where none is left the next section's number of entries is read first; at the start, the first byte and the number of
 * settings.
 * Checks 15 and 16 for what it reads, as day_check does; behind the last refused frame 15 if `at` is not the file's length.
 * Walk a file that day_check accepted, and no step is refused.
 * `answer` needs 11 cells: [0] what stands there. Of LORA_END no more is answered. Of the others the place behind it:
 * [1] at, [2] section, [3] left, [4] settings; then
 *   LORA_SETTING   [5] SF, [6] low-rate flag
 *   LORA_FRAME     [5] settings index, [6] CR, [7] checksum flag, [8] repairs, [9] start and [10] end of the payload: it is
 *                  the bytes of `file` from the start on, up to the end and without it
 *   LORA_REFUSED   [5] settings index, [6] number, [7] place */
uint8_t lora_day_step(const uint8_t *file, size_t file_len, size_t at, uint8_t section, size_t left, size_t settings,
                      uint64_t *answer, size_t answer_len);

/* The tally of a station: a lent list of LORA_TALLY_CELLS numbers of 32 bits, which the caller keeps between the calls:
 *   [0] frames heard, [1] accepted clean, without repairs, [2] accepted repaired, with one or more,
 *   [3 + n] refused with the number n, n = 0 to 12; the cells of 0 and 8, which read does not give, stay 0 after a clearing
 * Cells behind the 16th are neither read nor written.
 * After a clearing and any run of these calls, [0] is the number of outcomes put in since by calls that returned 0, with a
 * tally that was taken in those of its own history, and the other 15 cells add up to it: that is proved. It holds where every
 * tally began with a clearing. One made by hand is taken as it is: its parts need not add up, and a tally that takes it in
 * carries that on.
 * Each returns 0 where it is done. If it returns any other number, the whole tally is as it was.
 *
 * tally_clear: makes all 16 cells 0. Returns 255 if `tally` has fewer, and refuses nothing. */
uint8_t lora_tally_clear(uint32_t *tally, size_t tally_len);

/* tally_hear: puts in the outcome of a frame: `number` is what lora_read or lora_read_agreed returned and `answer` what it
 * left there. One more is heard and, if `number` is 0, one more accepted, clean or repaired as answer[4] says; else one more
 * refused with the number, and `answer` is not looked at: it may be NULL with 0 cells.
 * Returns 255 if `tally` has fewer than 16 cells, or if `number` is 0 and `answer` has fewer than 6. Checks 16: read gives 1 to
 * 7 and 9 to 12 (a 255 that it returned is no outcome); then 17. */
uint8_t lora_tally_hear(uint32_t *tally, size_t tally_len, uint8_t number, const uint64_t *answer, size_t answer_len);

/* tally_take_in: adds another station's tally, cell by cell. `other` stays as it is. The two don't overlap, so a tally is not
 * taken into itself: copy it first.
 * Returns 255 if either has fewer than 16 cells. Checks 17. */
uint8_t lora_tally_take_in(uint32_t *tally, size_t tally_len, const uint32_t *other, size_t other_len);

#ifdef __cplusplus
}
#endif

#endif
