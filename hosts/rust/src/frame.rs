//! The sections of a payload, found by their sizes alone.
use std::fmt::{self, Debug, Formatter};

/// A section of a payload.
#[derive(Clone, Copy, PartialEq, Eq)]
pub struct Frame<'a> {
    /// Where in the payload it begins.
    pub start: usize,
    /// 0 for contents, 1 for names, 2 for arguments; others are unknown.
    pub kind: u16,
    /// All of it, its header first.
    pub bytes: &'a [u8],
}

/// Bytes of the main header and of a section's header.
const HEADER: usize = 8;

/// The sections of a payload, found by following their sizes. Nothing else is checked: it ends after as many sections
/// as the main header counts, and before one whose size is under 8, no multiple of 4, or past the end. Of an accepted
/// payload it gives every section.
///
/// ```
/// let payload = b"\x18\0\0\0\0\0\x02\0\x08\0\0\0\0\0\x07\0\x08\0\0\0\0\0\x09\0";
/// let found: Vec<_> = srci::frames(payload).map(|frame| (frame.start, frame.kind, frame.bytes.len())).collect();
/// assert_eq!(found, [(8, 7, 8), (16, 9, 8)]);
/// // the second section's size is past the end
/// assert_eq!(srci::frames(&payload[..20]).count(), 1);
/// ```
pub fn frames(payload: &[u8]) -> impl Iterator<Item = Frame<'_>> {
    let count = u16_at(payload, 6).unwrap_or_default();
    let mut start = HEADER;
    (0..count).map_while(move |_| {
        let rest = payload.get(start..)?;
        let size = u32_at(rest, 0)? as usize;
        let bytes = rest
            .get(..size)
            .filter(|_| size >= HEADER && size % 4 == 0)?;
        let frame = Frame {
            start,
            kind: u16_at(bytes, 6)?,
            bytes,
        };
        start += size;
        Some(frame)
    })
}

/// The number whose low byte is at a place.
pub(crate) fn u16_at(bytes: &[u8], at: usize) -> Option<u16> {
    let found = bytes.get(at..)?.first_chunk()?;
    Some(u16::from_le_bytes(*found))
}

pub(crate) fn u32_at(bytes: &[u8], at: usize) -> Option<u32> {
    let found = bytes.get(at..)?.first_chunk()?;
    Some(u32::from_le_bytes(*found))
}

impl<'a> Frame<'a> {
    pub const CONTENTS: u16 = 0;
    pub const NAMES: u16 = 1;
    pub const ARGUMENTS: u16 = 2;

    /// The names of a section of names; none of any other. It goes by the sizes of entries, and ends where one is wrong.
    pub fn names(self) -> Names<'a> {
        match self.kind {
            Frame::NAMES => Names {
                entries: self.bytes.get(18..).unwrap_or_default(),
                left: self.field(12),
            },
            _ => Names::default(),
        }
    }

    /// The pairs of a section of arguments; none of any other. It ends where a text does not.
    pub fn pairs(self) -> Pairs<'a> {
        match self.kind {
            Frame::ARGUMENTS => Pairs {
                texts: self.bytes.get(20..).unwrap_or_default(),
                left: self.field(16),
            },
            _ => Pairs::default(),
        }
    }

    /// Whether contents are packed.
    pub(crate) fn is_packed(self) -> bool {
        u16_at(self.bytes, 14) == Some(1)
    }

    /// What a known section counts: files, names or pairs.
    pub(crate) fn count(self) -> u32 {
        match self.kind {
            Frame::CONTENTS => self.field(24),
            Frame::NAMES => self.field(12),
            Frame::ARGUMENTS => self.field(16),
            _ => 0,
        }
    }

    fn field(self, at: usize) -> u32 {
        u32_at(self.bytes, at).unwrap_or_default()
    }
}

/// The names of a section.
#[derive(Clone, Default)]
pub struct Names<'a> {
    entries: &'a [u8],
    left: u32,
}

impl<'a> Iterator for Names<'a> {
    type Item = &'a str;

    fn next(&mut self) -> Option<&'a str> {
        self.left = self.left.checked_sub(1)?;
        let size = u32_at(self.entries, 0)? as usize;
        let entry = self.entries.get(..size)?;
        // with its terminator
        let length = u32_at(entry, 8)? as usize;
        let text = entry.get(16..)?.get(..length.checked_sub(1)?)?;
        self.entries = &self.entries[size..];
        Some(utf8(text))
    }
}

/// The pairs of a section: each name with its value.
#[derive(Clone, Default)]
pub struct Pairs<'a> {
    texts: &'a [u8],
    left: u32,
}

impl<'a> Iterator for Pairs<'a> {
    type Item = (&'a str, &'a str);

    fn next(&mut self) -> Option<(&'a str, &'a str)> {
        self.left = self.left.checked_sub(1)?;
        Some((self.text()?, self.text()?))
    }
}

impl<'a> Pairs<'a> {
    fn text(&mut self) -> Option<&'a str> {
        let end = self.texts.iter().position(|byte| *byte == 0)?;
        let text = &self.texts[..end];
        self.texts = &self.texts[end + 1..];
        Some(utf8(text))
    }
}

// None of these shows the bytes that it goes over, which can be millions.

impl Debug for Frame<'_> {
    fn fmt(&self, f: &mut Formatter) -> fmt::Result {
        let (start, kind, length) = (self.start, self.kind, self.bytes.len());
        write!(f, "Frame(kind {kind}, {length} bytes from {start})")
    }
}

impl Debug for Names<'_> {
    fn fmt(&self, f: &mut Formatter) -> fmt::Result {
        write!(f, "Names({} left)", self.left)
    }
}

impl Debug for Pairs<'_> {
    fn fmt(&self, f: &mut Formatter) -> fmt::Result {
        write!(f, "Pairs({} left)", self.left)
    }
}

/// A text of an accepted payload, which is UTF-8; of others what is not is replaced by nothing.
fn utf8(text: &[u8]) -> &str {
    std::str::from_utf8(text).unwrap_or_default()
}
