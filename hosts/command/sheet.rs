//! A sheet in a file, of which a payload is made.
use crate::failure::Failure;
use crate::files;
use crate::text::{Field, Line};
use srci::Refusal;
use std::ffi::OsStr;

/// Bytes of the longest sheet of a payload: three and a half times as many as the payload's.
const LONGEST: usize = srci::LIMIT / 2 * 7;

pub struct Sheet<'a> {
    file: &'a OsStr,
    /// Of a sheet that is longer than every payload's, one byte more than the longest of these has.
    pub bytes: Vec<u8>,
}

impl<'a> Sheet<'a> {
    pub fn read(file: &'a OsStr) -> Result<Self, Failure> {
        let bytes = files::read(file, LONGEST)?;
        Ok(Sheet { file, bytes })
    }

    /// The payload that it makes.
    pub fn payload(&self) -> Result<Vec<u8>, Failure> {
        payload(&self.bytes).map_err(|refusal| match self.line_at_fault(refusal) {
            Some(number) => {
                let named = files::plainly_named(self.file);
                let shown = self.shown(number);
                Failure::RefusedLine(Field(&named).to_string(), number, refusal, shown)
            }
            None => Failure::Refused(files::named(self.file), refusal),
        })
    }

    /// The number, from 1, of the line that a refusal is for; none where it is for all of them. The lines before it are
    /// good, so that its text has the first byte of the sheet that is not UTF-8, or the first NUL.
    fn line_at_fault(&self, refusal: Refusal) -> Option<usize> {
        let at = match refusal {
            Refusal::BadLine(number) => return Some(number as usize),
            Refusal::NotUtf8 => std::str::from_utf8(&self.bytes).err()?.valid_up_to(),
            Refusal::InnerNul => self.bytes.iter().position(|byte| *byte == 0)?,
            _ => return None,
        };
        let before = self.bytes[..at].iter().filter(|byte| **byte == b'\n');
        Some(before.count() + 1)
    }

    /// A line by its number, with what does not show in it.
    fn shown(&self, number: usize) -> String {
        let mut lines = self.bytes.split(|byte| *byte == b'\n');
        let line = lines.nth(number - 1).unwrap_or_default();
        let is_closed = lines.next().is_some();
        match (line, is_closed) {
            ([], _) => "(it is empty)".to_string(),
            (line, true) => Line(line).to_string(),
            (line, false) => format!("{} (no newline closes it)", Line(line)),
        }
    }
}

/// The payload of a sheet. One that is longer than every payload's has been read in part: its whole lines are checked,
/// and where none is at fault it won't fit.
fn payload(sheet: &[u8]) -> Result<Vec<u8>, Refusal> {
    if sheet.len() <= LONGEST {
        return srci::from_sheet(sheet);
    }
    let last = sheet.iter().rposition(|byte| *byte == b'\n');
    let whole = last.map_or(0, |last| last + 1);
    match srci::lent::from_sheet(&sheet[..whole], &mut []) {
        Ok(_) | Err(Refusal::NoRoom(_)) => Err(Refusal::WontFit),
        Err(refusal) => Err(refusal),
    }
}
