//! What an operation answers and leaves behind in every cell around it.

use crate::case::{Case, Operation};
use crate::cells::{lent, pointer, pointer_mut, put, with_margins};
use chyvandra::ffi;
use reference::random::Random;
use reference::types::{Code, Header, Kind, Read, Refusal, Settings};
use reference::{plain, product};

/// The four arrays an operation may write to, margins included.
#[derive(Clone, Debug, PartialEq)]
struct Cells {
    answer: Vec<u64>,
    symbols: Vec<u16>,
    bytes: Vec<u8>,
    hurts: Vec<u8>,
}

impl Cells {
    /// Random cells: a value that happens to be right would hide a write.
    fn new(case: &Case, random: &mut Random) -> Cells {
        Cells {
            answer: with_margins(case.answer_len, || random.number()),
            symbols: with_margins(case.out_len, || random.number() as u16),
            bytes: with_margins(case.out_len, || random.byte()),
            hurts: with_margins(case.hurts_len, || random.byte()),
        }
    }
}

/// The operations of one implementation.
struct Operations {
    code: Code,
    read: Read,
    head: fn(u8, &[u16]) -> Result<Header, Refusal>,
    count: fn(&Settings, usize) -> Result<usize, Refusal>,
    airtime: fn(&Settings, usize, u16, u16) -> Result<u64, Refusal>,
}

const PLAIN: Operations = Operations {
    code: plain::code,
    read: plain::read,
    head: plain::head,
    count: plain::count,
    airtime: plain::airtime,
};

const PRODUCT: Operations = Operations {
    code: product::code,
    read: product::read,
    head: product::head,
    count: product::count,
    airtime: product::airtime,
};

/// Where the library, bare or through its wrapper, differs from `plain`, if it does.
pub fn difference(case: &Case, random: &mut Random) -> Option<String> {
    let before = Cells::new(case, random);
    let wanted = told(&PLAIN, case, before.clone());
    let (payload, symbols) = (case.payload.clone(), case.symbols.clone());
    let library = bare(case, before.clone());
    let wrapped = told(&PRODUCT, case, before.clone());
    if (&payload, &symbols) != (&case.payload, &case.symbols) {
        return Some("the library changed its input".to_string());
    }
    for (name, got) in [("library", library), ("wrapper", wrapped)] {
        if got != wanted {
            return Some(format!(
                "before {before:?}\nplain  {wanted:?}\n{name} {got:?}"
            ));
        }
    }
    None
}

/// An implementation's answer, put into cells as the C interface puts it.
fn told(operations: &Operations, case: &Case, mut cells: Cells) -> (u8, Cells) {
    let Case {
        settings,
        length,
        khz,
        preamble,
        ..
    } = *case;
    let needs = match case.operation {
        Operation::Code | Operation::Count | Operation::Airtime => ffi::NUMBER_CELLS,
        Operation::Head => ffi::HEAD_CELLS,
        Operation::Read => ffi::READ_CELLS,
    };
    if case.answer_len < needs {
        return (ffi::ANSWER_SHORT, cells);
    }
    let result = match case.operation {
        Operation::Code => (operations.code)(&settings, &case.payload, lent(&mut cells.symbols))
            .map(|symbols| vec![symbols as u64]),
        Operation::Read => (operations.read)(
            settings.sf,
            settings.low,
            settings.kind.expected(),
            &case.symbols,
            lent(&mut cells.bytes),
            lent(&mut cells.hurts),
        )
        .map(|received| {
            let mut fields = header_fields(&received.header);
            fields.extend([received.symbols as u64, received.repairs as u64]);
            // A cell has no sign: a negative number is 2^64 less its size.
            fields.push(i64::from(received.drift) as u64);
            fields
        }),
        Operation::Head => {
            (operations.head)(settings.sf, &case.symbols).map(|header| header_fields(&header))
        }
        Operation::Count => {
            (operations.count)(&settings, length).map(|symbols| vec![symbols as u64])
        }
        Operation::Airtime => {
            (operations.airtime)(&settings, length, khz, preamble).map(|time| vec![time])
        }
    };
    (put(result, &mut cells.answer), cells)
}

fn header_fields(header: &Header) -> Vec<u64> {
    vec![
        header.length as u64,
        header.cr.into(),
        header.checksum.into(),
    ]
}

/// The library's answer through its C interface.
fn bare(case: &Case, mut cells: Cells) -> (u8, Cells) {
    let Case {
        low,
        checksum,
        length,
        khz,
        preamble,
        ref payload,
        ref symbols,
        ..
    } = *case;
    let Settings { sf, kind, .. } = case.settings;
    let cr = kind.cr();
    let agreed = match kind {
        Kind::Explicit { .. } => None,
        Kind::Agreed { length, .. } => Some(length),
    };
    let out = lent(&mut cells.symbols);
    let (out, out_len) = (pointer_mut(out), out.len());
    let bytes = lent(&mut cells.bytes);
    let (bytes, bytes_len) = (pointer_mut(bytes), bytes.len());
    let hurts = lent(&mut cells.hurts);
    let (hurts, hurts_len) = (pointer_mut(hurts), hurts.len());
    let answer = lent(&mut cells.answer);
    let (answer, answer_len) = (pointer_mut(answer), answer.len());
    let (payload, payload_len) = (pointer(payload), payload.len());
    let (symbols, symbols_len) = (pointer(symbols), symbols.len());
    // SAFETY: each pointer and length is those of one live slice, or null and 0,
    // and the slices don't overlap.
    let returned = unsafe {
        match (case.operation, agreed) {
            (Operation::Code, None) => ffi::lora_code(
                sf,
                low,
                cr,
                checksum,
                payload,
                payload_len,
                out,
                out_len,
                answer,
                answer_len,
            ),
            (Operation::Code, Some(agreed)) => ffi::lora_code_agreed(
                sf,
                low,
                agreed,
                cr,
                checksum,
                payload,
                payload_len,
                out,
                out_len,
                answer,
                answer_len,
            ),
            (Operation::Read, None) => ffi::lora_read(
                sf,
                low,
                symbols,
                symbols_len,
                bytes,
                bytes_len,
                hurts,
                hurts_len,
                answer,
                answer_len,
            ),
            (Operation::Read, Some(agreed)) => ffi::lora_read_agreed(
                sf,
                low,
                agreed,
                cr,
                checksum,
                symbols,
                symbols_len,
                bytes,
                bytes_len,
                hurts,
                hurts_len,
                answer,
                answer_len,
            ),
            (Operation::Head, _) => ffi::lora_head(sf, symbols, symbols_len, answer, answer_len),
            (Operation::Count, None) => {
                ffi::lora_count(sf, low, cr, checksum, length, answer, answer_len)
            }
            (Operation::Count, Some(agreed)) => {
                ffi::lora_count_agreed(sf, low, agreed, cr, checksum, length, answer, answer_len)
            }
            (Operation::Airtime, None) => ffi::lora_airtime(
                sf, low, cr, checksum, length, khz, preamble, answer, answer_len,
            ),
            (Operation::Airtime, Some(agreed)) => ffi::lora_airtime_agreed(
                sf, low, agreed, cr, checksum, length, khz, preamble, answer, answer_len,
            ),
        }
    };
    (returned, cells)
}
