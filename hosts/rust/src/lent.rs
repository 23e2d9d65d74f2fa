//! The seven jobs on lent buffers, with no allocation.
//!
//! Each answers how many rows or bytes it stored at the start of what it was lent; the rest keeps its values. A refused
//! call changes nothing.
use crate::sys;
use crate::Refusal;

/// An answer from its two numbers.
fn answer(call: impl FnOnce(&mut u32) -> u32) -> Result<usize, Refusal> {
    let mut second = 0;
    match call(&mut second) {
        0 => Ok(second as usize),
        number => Err(Refusal::from_numbers(number, second)),
    }
}

/// Reads a payload into a table of rows, seven numbers each. Answers how many rows were stored.
///
/// # Errors
///
/// Those of [`crate::read()`], then [`Refusal::NoRows`] with what is needed.
pub fn read(payload: &[u8], rows: &mut [u32]) -> Result<usize, Refusal> {
    // SAFETY: each pointer and length is that of a slice.
    answer(|second| unsafe {
        sys::srci_read(
            payload.as_ptr(),
            payload.len(),
            rows.as_mut_ptr(),
            rows.len(),
            second,
        )
    })
}

/// Writes a table of rows, seven numbers each, whose texts lie in a payload and in an edit text. Answers how many bytes
/// were stored.
///
/// # Errors
///
/// Those of [`crate::write()`], then [`Refusal::NoRoom`] with what is needed.
pub fn write(
    payload: &[u8],
    edit: &[u8],
    rows: &[u32],
    output: &mut [u8],
) -> Result<usize, Refusal> {
    // SAFETY: each pointer and length is that of a slice.
    answer(|second| unsafe {
        sys::srci_write(
            payload.as_ptr(),
            payload.len(),
            edit.as_ptr(),
            edit.len(),
            rows.as_ptr(),
            rows.len(),
            output.as_mut_ptr(),
            output.len(),
            second,
        )
    })
}

/// An entry point that takes a payload, or a sheet, and an output.
type Entry = unsafe extern "C" fn(*const u8, usize, *mut u8, usize, *mut u32) -> u32;

fn make(entry: Entry, given: &[u8], output: &mut [u8]) -> Result<usize, Refusal> {
    // SAFETY: each pointer and length is that of a slice.
    answer(|second| unsafe {
        entry(
            given.as_ptr(),
            given.len(),
            output.as_mut_ptr(),
            output.len(),
            second,
        )
    })
}

/// Lists a payload. Answers how many bytes were stored.
///
/// # Errors
///
/// Those of [`crate::list()`], then [`Refusal::NoRoom`] with what is needed.
pub fn list(payload: &[u8], output: &mut [u8]) -> Result<usize, Refusal> {
    make(sys::srci_list, payload, output)
}

/// Makes the public copy of a payload. Answers how many bytes were stored.
///
/// # Errors
///
/// Those of [`crate::public_copy()`], then [`Refusal::NoRoom`] with what is needed.
pub fn public_copy(payload: &[u8], output: &mut [u8]) -> Result<usize, Refusal> {
    make(sys::srci_public_copy, payload, output)
}

/// Makes the card of a payload. Answers how many bytes were stored.
///
/// # Errors
///
/// Those of [`crate::card()`], then [`Refusal::NoRoom`] with what is needed.
pub fn card(payload: &[u8], output: &mut [u8]) -> Result<usize, Refusal> {
    make(sys::srci_card, payload, output)
}

/// Makes the sheet of a payload. Answers how many bytes were stored.
///
/// # Errors
///
/// Those of [`crate::to_sheet()`], then [`Refusal::NoRoom`] with what is needed.
pub fn to_sheet(payload: &[u8], output: &mut [u8]) -> Result<usize, Refusal> {
    make(sys::srci_to_sheet, payload, output)
}

/// Makes the payload of a sheet. Answers how many bytes were stored.
///
/// # Errors
///
/// Those of [`crate::from_sheet()`], then [`Refusal::NoRoom`] with what is needed.
pub fn from_sheet(sheet: &[u8], output: &mut [u8]) -> Result<usize, Refusal> {
    make(sys::srci_from_sheet, sheet, output)
}
