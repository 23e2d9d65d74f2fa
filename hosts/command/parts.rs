//! A payload by its sections: each alone is a payload of one section, which the library checks, reads and writes.
use srci::{Frame, Refusal, Row};
use std::fmt::{Display, Formatter};

/// A payload of this section alone.
fn alone(section: &[u8]) -> Vec<u8> {
    // a section is a part of a payload, whose length fits
    let length = 8 + section.len() as u32;
    [&length.to_le_bytes()[..], &[0, 0, 1, 0], section].concat()
}

/// Whether a payload is accepted.
pub fn check(payload: &[u8]) -> Result<(), Refusal> {
    // a table of no rows is refused last, and only if the payload is accepted
    match srci::lent::read(payload, &mut []) {
        Ok(_) | Err(Refusal::NoRows(_)) => Ok(()),
        Err(refusal) => Err(refusal),
    }
}

/// Where in a payload a refusal comes from.
pub enum Location {
    /// A section's number from 0, and where it begins.
    Section(usize, usize),
    /// What follows the last section, and where it begins.
    After(usize),
}

impl Display for Location {
    fn fmt(&self, f: &mut Formatter) -> std::fmt::Result {
        match self {
            Location::Section(number, start) => write!(f, "section {number}, at byte {start}"),
            Location::After(start) => write!(f, "after the last section, at byte {start}"),
        }
    }
}

/// Where a refused payload is at fault, if that is in a section or after the last. Sections are checked in their order,
/// so it is the first that is refused for the same reason when it stands alone.
pub fn location(payload: &[u8], refusal: Refusal) -> Option<Location> {
    if matches!(
        refusal,
        Refusal::Oversize | Refusal::Ragged | Refusal::MainHeader
    ) {
        return None;
    }
    let (mut number, mut end) = (0, 8);
    for frame in srci::frames(payload) {
        if let Err(found) = check(&alone(frame.bytes)) {
            return (found == refusal).then_some(Location::Section(number, frame.start));
        }
        number += 1;
        end = frame.start + frame.bytes.len();
    }
    match refusal {
        Refusal::Frame => Some(Location::Section(number, end)),
        Refusal::Leftover => Some(Location::After(end)),
        _ => None,
    }
}

/// An accepted payload in which every file of the old name has the new one. Only sections that have the old name are
/// read into rows and written; all others are copied.
pub fn renamed(payload: &[u8], old: &str, new: &[u8]) -> Result<Vec<u8>, Refusal> {
    let mut made = Vec::with_capacity(payload.len());
    made.extend(&payload[..8]);
    for frame in srci::frames(payload) {
        if frame.names().any(|name| name == old) {
            made.extend(section_renamed(frame, old, new)?);
        } else {
            made.extend(frame.bytes);
        }
        if made.len() > srci::LIMIT {
            return Err(Refusal::WontFit);
        }
    }
    // within the limit, and so within 32 bits
    let length = made.len() as u32;
    made[..4].copy_from_slice(&length.to_le_bytes());
    Ok(made)
}

/// Every name that is the old one is pointed at the edit text, which is the new one, and all other rows stay.
fn section_renamed(frame: Frame, old: &str, new: &[u8]) -> Result<Vec<u8>, Refusal> {
    let payload = alone(frame.bytes);
    let mut rows = srci::read(&payload)?;
    let is_old = |row: &&mut Row| row.text(&payload, b"") == Some(old.as_bytes());
    for row in rows.iter_mut().filter(is_old) {
        row.side = Row::EDIT;
        row.a = 0;
        // a word of the command line is far shorter than 2 to the 32
        row.b = new.len() as u32;
    }
    let mut section = srci::write(&payload, new, &rows)?;
    section.drain(..8);
    Ok(section)
}
