//! Arrays as they are lent, with cells around them that nobody may touch.

use reference::types::Refusal;
use std::ptr;

/// Cells on both sides of a lent array.
const MARGIN: usize = 8;

/// An array of so many cells to be lent, with its margins. The cells should be
/// random: a value that happens to be right would hide a write.
pub fn with_margins<T>(cells: usize, mut cell: impl FnMut() -> T) -> Vec<T> {
    (0..cells + 2 * MARGIN).map(|_| cell()).collect()
}

/// What is lent of it.
pub fn lent<T>(cells: &mut [T]) -> &mut [T] {
    let end = cells.len() - MARGIN;
    &mut cells[MARGIN..end]
}

/// Puts a result into an answer's cells as the C interface does, and answers the
/// number that it returns.
pub fn put(result: Result<Vec<u64>, Refusal>, answer: &mut [u64]) -> u8 {
    let (number, fields) = match result {
        Ok(fields) => (0, fields),
        Err(Refusal { number, place }) => (number, vec![place as u64]),
    };
    lent(answer)[..fields.len()].copy_from_slice(&fields);
    number
}

/// A list's pointer as C may lend it: null where the list is empty. The wrapper's
/// is never null, so both ways are compared.
pub fn pointer<T>(list: &[T]) -> *const T {
    if list.is_empty() {
        ptr::null()
    } else {
        list.as_ptr()
    }
}

/// The same for a list that may be written.
pub fn pointer_mut<T>(list: &mut [T]) -> *mut T {
    if list.is_empty() {
        ptr::null_mut()
    } else {
        list.as_mut_ptr()
    }
}
