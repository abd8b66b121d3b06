//! What a function of the day's file answers and leaves behind in every cell
//! around it.

use crate::cells::{lent, pointer, pointer_mut, put, with_margins};
use crate::day_case::{DayCase, Operation};
use chyvandra::ffi;
use reference::cases::days::Rows;
use reference::plain::day::{self, Counts, Entry, Place, Section};
use reference::product;
use reference::random::Random;
use reference::types::{DayCheck, DayStep, DayWrite};

/// The two arrays that a function may write to, margins included.
#[derive(Clone, Debug, PartialEq)]
struct Cells {
    answer: Vec<u64>,
    out: Vec<u8>,
}

/// The functions of one implementation.
struct Functions {
    write: DayWrite,
    check: DayCheck,
    step: DayStep,
}

const PLAIN: Functions = Functions {
    write: day::write_rows,
    check: day::check,
    step: day::step,
};

const PRODUCT: Functions = Functions {
    write: product::day_write,
    check: product::day_check,
    step: product::day_step,
};

/// Where the library, bare or through its wrapper, differs from `plain`, if it does.
pub fn difference(case: &DayCase, random: &mut Random) -> Option<String> {
    let before = Cells {
        answer: with_margins(case.answer_len, || random.number()),
        out: with_margins(case.out_len, || random.byte()),
    };
    let wanted = told(&PLAIN, case, before.clone());
    let (file, rows) = (case.file.clone(), case.rows.clone());
    let mut got = vec![("library", bare(case, before.clone()))];
    // A row cut short can't be said to the wrapper.
    if case.rows.whole() {
        got.push(("wrapper", told(&PRODUCT, case, before.clone())));
    }
    if (&file, &rows) != (&case.file, &case.rows) {
        return Some("the library changed its input".to_string());
    }
    let (name, got) = got.into_iter().find(|(_, got)| *got != wanted)?;
    Some(format!(
        "before {before:?}\nplain  {wanted:?}\n{name} {got:?}"
    ))
}

/// An implementation's answer, put into cells as the C interface puts it.
fn told(functions: &Functions, case: &DayCase, mut cells: Cells) -> (u8, Cells) {
    if case.answer_len < case.operation.needs() {
        return (ffi::ANSWER_SHORT, cells);
    }
    let result = match case.operation {
        Operation::Write => {
            let Rows {
                settings,
                frames,
                payloads,
                refused,
            } = &case.rows;
            let out = lent(&mut cells.out);
            (functions.write)(settings, frames, payloads, refused, out)
                .map(|length| vec![length as u64])
        }
        Operation::Check => (functions.check)(&case.file).map(
            |Counts {
                 settings,
                 frames,
                 refused,
             }| vec![settings as u64, frames as u64, refused as u64],
        ),
        Operation::Step => {
            (functions.step)(&case.file, case.place).map(|(entry, behind)| fields(entry, behind))
        }
    };
    (put(result, &mut cells.answer), cells)
}

/// What a step answers: at the end that alone.
fn fields(entry: Entry, behind: Place) -> Vec<u64> {
    let (kind, fields) = match entry {
        Entry::End => return vec![0],
        Entry::Setting(setting) => (1, vec![setting.sf.into(), setting.low.into()]),
        Entry::Frame { frame, start } => (
            2,
            vec![
                frame.setting.into(),
                frame.cr.into(),
                frame.flag.into(),
                frame.repairs.into(),
                start as u64,
                (start + frame.payload.len()) as u64,
            ],
        ),
        Entry::Refused(refused) => (
            3,
            vec![
                refused.setting.into(),
                refused.number.into(),
                refused.place.into(),
            ],
        ),
    };
    let section = match behind.section {
        Section::Start => 0,
        Section::Settings => 1,
        Section::Frames => 2,
        Section::Refused => 3,
    };
    let place = [
        behind.at as u64,
        section,
        behind.left as u64,
        behind.settings as u64,
    ];
    [&[kind], &place[..], &fields].concat()
}

/// The library's answer through its C interface.
fn bare(case: &DayCase, mut cells: Cells) -> (u8, Cells) {
    let DayCase {
        ref file,
        place: Place {
            at, left, settings, ..
        },
        section,
        ref rows,
        ..
    } = *case;
    let out = lent(&mut cells.out);
    let (out, out_len) = (pointer_mut(out), out.len());
    let answer = lent(&mut cells.answer);
    let (answer, answer_len) = (pointer_mut(answer), answer.len());
    let (file, file_len) = (pointer(file), file.len());
    // SAFETY: each pointer and length is those of one live slice, or null and 0,
    // and the slices don't overlap.
    let returned = unsafe {
        match case.operation {
            Operation::Write => ffi::lora_day_write(
                pointer(&rows.settings),
                rows.settings.len(),
                pointer(&rows.frames),
                rows.frames.len(),
                pointer(&rows.payloads),
                rows.payloads.len(),
                pointer(&rows.refused),
                rows.refused.len(),
                out,
                out_len,
                answer,
                answer_len,
            ),
            Operation::Check => ffi::lora_day_check(file, file_len, answer, answer_len),
            Operation::Step => ffi::lora_day_step(
                file, file_len, at, section, left, settings, answer, answer_len,
            ),
        }
    };
    (returned, cells)
}
