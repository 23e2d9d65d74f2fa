//! Calls of the C entry points, as the Rust package declares them.
use srci::sys;

pub struct Answer {
    pub number: u32,
    pub second: u32,
}

pub fn read(payload: &[u8], rows: &mut [u32]) -> Answer {
    let mut second = UNTOUCHED;
    // SAFETY: each pointer and length is that of a slice, and srci_read has no `requires`.
    let number = unsafe {
        sys::srci_read(
            payload.as_ptr(),
            payload.len(),
            rows.as_mut_ptr(),
            rows.len(),
            &mut second,
        )
    };
    Answer { number, second }
}

pub fn write(payload: &[u8], edit: &[u8], rows: &[u32], output: &mut [u8]) -> Answer {
    let mut second = UNTOUCHED;
    // SAFETY: each pointer and length is that of a slice, and srci_write has no `requires`.
    let number = unsafe {
        sys::srci_write(
            payload.as_ptr(),
            payload.len(),
            edit.as_ptr(),
            edit.len(),
            rows.as_ptr(),
            rows.len(),
            output.as_mut_ptr(),
            output.len(),
            &mut second,
        )
    };
    Answer { number, second }
}

/// A job that takes an input and an output, by its entry point. The input is a payload or a sheet.
macro_rules! job {
    ($job:ident, $entry:ident) => {
        pub fn $job(input: &[u8], output: &mut [u8]) -> Answer {
            let mut second = UNTOUCHED;
            // SAFETY: each pointer and length is that of a slice, and the entry point has no `requires`.
            let number = unsafe {
                sys::$entry(
                    input.as_ptr(),
                    input.len(),
                    output.as_mut_ptr(),
                    output.len(),
                    &mut second,
                )
            };
            Answer { number, second }
        }
    };
}

job!(list, srci_list);
job!(public_copy, srci_public_copy);
job!(card, srci_card);
job!(to_sheet, srci_to_sheet);
job!(from_sheet, srci_from_sheet);

pub type Job = fn(&[u8], &mut [u8]) -> Answer;

/// What a job makes of an input, or the number of its refusal.
pub fn make(job: Job, input: &[u8]) -> Result<Vec<u8>, u32> {
    let mut output = vec![UNTOUCHED_BYTE; job(input, &mut []).second as usize];
    match job(input, &mut output).number {
        0 => Ok(output),
        number => Err(number),
    }
}

/// What every number of a table, and of the canaries beside it, holds before a call.
pub const UNTOUCHED: u32 = 0xA5A5_A5A5;

const CANARIES: usize = 16;

/// Reads into a table of some length that has canaries on both sides. Gives the answer and the table
/// afterwards, or says what else was changed.
pub fn read_guarded(payload: &[u8], lent: usize) -> Result<(Answer, Vec<u32>), &'static str> {
    let before = payload.to_vec();
    let mut numbers = vec![UNTOUCHED; CANARIES + lent + CANARIES];
    let answer = read(payload, &mut numbers[CANARIES..CANARIES + lent]);
    if payload != before {
        return Err("the payload was changed");
    }
    let after = numbers.split_off(CANARIES + lent);
    let table = numbers.split_off(CANARIES);
    if numbers
        .iter()
        .chain(&after)
        .any(|&number| number != UNTOUCHED)
    {
        return Err("a number beside the table was changed");
    }
    Ok((answer, table))
}

/// What every byte of an output, and of the canaries beside it, holds before a call.
pub const UNTOUCHED_BYTE: u8 = 0xA5;

/// Longer inputs are not compared with how they were before a call. The longest sheet of a payload is.
const COMPARED: usize = 1 << 27;

/// Writes to an output of some length that has canaries on both sides. Gives the answer and the output
/// afterwards, or says what else was changed.
pub fn write_guarded(
    payload: &[u8],
    edit: &[u8],
    rows: &[u32],
    lent: usize,
) -> Result<(Answer, Vec<u8>), &'static str> {
    let is_compared = payload.len() + edit.len() + 4 * rows.len() <= COMPARED;
    let before = is_compared.then(|| (payload.to_vec(), edit.to_vec(), rows.to_vec()));
    let mut bytes = vec![UNTOUCHED_BYTE; CANARIES + lent + CANARIES];
    let answer = write(payload, edit, rows, &mut bytes[CANARIES..CANARIES + lent]);
    if before.is_some_and(|(p, e, r)| payload != p || edit != e || rows != r) {
        return Err("the payload, the edit text or the rows were changed");
    }
    Ok((answer, between_canaries(bytes, lent)?))
}

/// Does a job with an output of some length that has canaries on both sides. Gives the answer and the output
/// afterwards, or says what else was changed.
pub fn guarded(job: Job, input: &[u8], lent: usize) -> Result<(Answer, Vec<u8>), &'static str> {
    let before = (input.len() <= COMPARED).then(|| input.to_vec());
    let mut bytes = vec![UNTOUCHED_BYTE; CANARIES + lent + CANARIES];
    let answer = job(input, &mut bytes[CANARIES..CANARIES + lent]);
    if before.is_some_and(|before| input != before) {
        return Err("the input was changed");
    }
    Ok((answer, between_canaries(bytes, lent)?))
}

/// An output of some length, if the canaries on both sides of it are as they were.
fn between_canaries(mut bytes: Vec<u8>, lent: usize) -> Result<Vec<u8>, &'static str> {
    let after = bytes.split_off(CANARIES + lent);
    let output = bytes.split_off(CANARIES);
    if bytes
        .iter()
        .chain(&after)
        .any(|&byte| byte != UNTOUCHED_BYTE)
    {
        return Err("a byte beside the output was changed");
    }
    Ok(output)
}
