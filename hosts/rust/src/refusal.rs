//! Why a call is refused.
use crate::tables::REFUSALS;
use std::error::Error;
use std::fmt::{Debug, Display, Formatter, Result};
use std::mem::discriminant;

/// Why a call is refused. Others may come.
#[derive(Clone, Copy, PartialEq, Eq)]
#[non_exhaustive]
pub enum Refusal {
    // [tables: refusals]
    /// The payload has more than 26,214,400 bytes.
    Oversize,
    /// The payload has fewer than 8 bytes, or a length that is no multiple of 4.
    Ragged,
    /// The main header tells another length than the payload's, or its flags are set.
    MainHeader,
    /// A section's size is missing, under 8, no multiple of 4, or past the end of the payload.
    Frame,
    /// Flags of a section, of its body or of an entry are set.
    Flag,
    /// The header of a section's body or of an entry does not fit.
    Short,
    /// A section's size is not what its headers and stored bytes make it.
    BodySize,
    /// A padding byte is not zero.
    Padding,
    /// An entry's text has size 0, its aligned size is wrong, or it runs past its section's bytes.
    EntrySize,
    /// The NUL that ends a text is missing.
    OpenText,
    /// A text is not UTF-8 as RFC 3629 defines it.
    NotUtf8,
    /// A text has a NUL inside.
    InnerNul,
    /// Bytes are left after the last section or entry that is counted.
    Leftover,
    /// The compression of contents is neither 0 (plain) nor 1 (packed).
    Compression,
    /// Plain contents tell an uncompressed size that is not that of their stored bytes.
    Unequal,
    /// The table of rows is too short. It tells the rows needed; only [`crate::lent`] answers it.
    NoRows(u32),
    /// A row breaks a rule of rows, or the table has a part of a row.
    BadRow,
    /// There would be over 65,535 sections, 65,535 bytes of names in one, or 26,214,400 bytes.
    WontFit,
    /// The output is too short. It tells the bytes needed; only [`crate::lent`] answers it.
    NoRoom(u32),
    /// A line of a sheet is malformed or misplaced. It tells the line.
    BadLine(u32),
    // [tables: end]
}

/// By their numbers from 1.
const ORDER: [Refusal; REFUSALS.len()] = [
    // [tables: order]
    Refusal::Oversize,
    Refusal::Ragged,
    Refusal::MainHeader,
    Refusal::Frame,
    Refusal::Flag,
    Refusal::Short,
    Refusal::BodySize,
    Refusal::Padding,
    Refusal::EntrySize,
    Refusal::OpenText,
    Refusal::NotUtf8,
    Refusal::InnerNul,
    Refusal::Leftover,
    Refusal::Compression,
    Refusal::Unequal,
    Refusal::NoRows(0),
    Refusal::BadRow,
    Refusal::WontFit,
    Refusal::NoRoom(0),
    Refusal::BadLine(0),
    // [tables: end]
];

impl Refusal {
    /// Every refusal, by their numbers from 1; those that have a second number tell 0.
    pub fn all() -> impl Iterator<Item = Refusal> {
        ORDER.into_iter()
    }

    /// Its number, from 1 on.
    pub fn number(self) -> u32 {
        let is_this = |refusal: &_| discriminant(refusal) == discriminant(&self);
        1 + ORDER.iter().take_while(|refusal| !is_this(refusal)).count() as u32
    }

    /// What it is called.
    pub fn name(self) -> &'static str {
        REFUSALS[self.number() as usize - 1].0
    }

    /// What it means: a sentence.
    pub fn meaning(self) -> &'static str {
        REFUSALS[self.number() as usize - 1].1
    }

    /// The rows or bytes that are needed, where these were lacking; the line's number from 1, where a line of a sheet is
    /// at fault; else 0.
    pub fn second(self) -> u32 {
        match self {
            Refusal::NoRows(needed) | Refusal::NoRoom(needed) => needed,
            Refusal::BadLine(line) => line,
            _ => 0,
        }
    }

    /// The refusal of a number, of which the entry points are proved to answer no other than these.
    pub(crate) fn from_numbers(number: u32, second: u32) -> Refusal {
        match ORDER[number as usize - 1] {
            Refusal::NoRows(_) => Refusal::NoRows(second),
            Refusal::NoRoom(_) => Refusal::NoRoom(second),
            Refusal::BadLine(_) => Refusal::BadLine(second),
            refusal => refusal,
        }
    }
}

/// The number, the name, what it means, and the second number where it has one.
impl Display for Refusal {
    fn fmt(&self, f: &mut Formatter) -> Result {
        let number = self.number();
        let (name, meaning, second) = REFUSALS[number as usize - 1];
        write!(f, "{number}, {name}: {meaning}")?;
        match second {
            "" => Ok(()),
            _ => write!(f, " ({second}: {})", self.second()),
        }
    }
}

/// As [`Display`] has it, since `unwrap` and `main` show this one.
impl Debug for Refusal {
    fn fmt(&self, f: &mut Formatter) -> Result {
        Display::fmt(self, f)
    }
}

impl Error for Refusal {}
