//! A row: seven numbers, by their names.
use crate::tables::ROWS;

/// A section of a payload, or an entry of the section before it.
///
// [tables: rows]
/// | tag | row | numbers |
/// |---|---|---|
/// | 0 | plain contents | `a` header field |
/// | 1 | packed contents | `a` header field, `b` start, `c` length, `d` count, `e` uncompressed bytes |
/// | 2 | names | none |
/// | 3 | arguments | none |
/// | 4 | unknown | `a` kind, `b` start, `c` length |
/// | 5 | content | `a` start, `b` length |
/// | 6 | name | `a` start, `b` length, `c` content size |
/// | 7 | pair | `a` name start, `b` name length, `c` value start, `d` value length |
// [tables: end]
///
/// Numbers that have no name are 0. A length leaves the terminator out.
///
/// ```
/// use srci::Row;
/// let pair = Row { tag: Row::PAIR, side: Row::EDIT, a: 0, b: 1, c: 2, d: 4, ..Row::default() };
/// assert_eq!(pair.text(b"payload", b"E=main"), Some(&b"E"[..]));
/// assert_eq!(pair.value(b"payload", b"E=main"), Some(&b"main"[..]));
/// assert_eq!(pair.stored(b"payload", b"E=main"), None);
/// // a value that ends outside its side, and a side that there is not
/// assert_eq!(pair.value(b"payload", b"E=mai"), None);
/// assert_eq!(Row { side: 2, ..pair }.text(b"payload", b"E=main"), None);
///
/// let unknown = Row { tag: Row::UNKNOWN, a: 7, b: 3, c: 4, ..Row::default() };
/// assert_eq!(unknown.stored(b"payload", b""), Some(&b"load"[..]));
/// assert_eq!(Row { b: u32::MAX, ..unknown }.stored(b"payload", b""), None);
/// assert_eq!(unknown.text(b"payload", b""), None);
/// ```
#[repr(C)]
#[derive(Clone, Copy, Debug, Default, PartialEq, Eq)]
pub struct Row {
    pub tag: u32,
    /// Where its texts and bytes are: [`Row::PAYLOAD`] or [`Row::EDIT`].
    pub side: u32,
    pub a: u32,
    pub b: u32,
    pub c: u32,
    pub d: u32,
    pub e: u32,
}

/// The rows of a payload, in its order.
pub type Rows = Vec<Row>;

impl Row {
    /// How many numbers a row is.
    pub const WIDTH: usize = 7;

    // [tables: tags]
    pub const PLAIN_CONTENTS: u32 = 0;
    pub const PACKED_CONTENTS: u32 = 1;
    pub const NAMES: u32 = 2;
    pub const ARGUMENTS: u32 = 3;
    pub const UNKNOWN: u32 = 4;
    pub const CONTENT: u32 = 5;
    pub const NAME: u32 = 6;
    pub const PAIR: u32 = 7;
    // [tables: end]

    pub const PAYLOAD: u32 = 0;
    pub const EDIT: u32 = 1;

    /// What the tag says the row is.
    pub fn kind(&self) -> &'static str {
        ROWS.get(self.tag as usize).map_or("no row", |row| row.0)
    }

    /// The text of a content, of a name, or of a pair's name. None for other rows, and where the text is not inside
    /// its side.
    pub fn text<'a>(&self, payload: &'a [u8], edit: &'a [u8]) -> Option<&'a [u8]> {
        match self.tag {
            Row::CONTENT | Row::NAME | Row::PAIR => self.part(payload, edit, self.a, self.b),
            _ => None,
        }
    }

    /// The text of a pair's value. None for other rows, and where the text is not inside its side.
    pub fn value<'a>(&self, payload: &'a [u8], edit: &'a [u8]) -> Option<&'a [u8]> {
        match self.tag {
            Row::PAIR => self.part(payload, edit, self.c, self.d),
            _ => None,
        }
    }

    /// The bytes of packed contents or of an unknown section. None for other rows, and where the bytes are not inside
    /// their side.
    pub fn stored<'a>(&self, payload: &'a [u8], edit: &'a [u8]) -> Option<&'a [u8]> {
        match self.tag {
            Row::PACKED_CONTENTS | Row::UNKNOWN => self.part(payload, edit, self.b, self.c),
            _ => None,
        }
    }

    fn part<'a>(
        &self,
        payload: &'a [u8],
        edit: &'a [u8],
        start: u32,
        length: u32,
    ) -> Option<&'a [u8]> {
        let side = match self.side {
            Row::PAYLOAD => payload,
            Row::EDIT => edit,
            _ => return None,
        };
        side.get(start as usize..)?.get(..length as usize)
    }
}

/// Rows as the numbers of a table.
pub(crate) fn numbers(rows: &[Row]) -> &[u32] {
    // SAFETY: a row is seven numbers in a row, by repr(C), and as aligned as a number is.
    unsafe { std::slice::from_raw_parts(rows.as_ptr().cast(), rows.len() * Row::WIDTH) }
}

/// The same, to be stored into.
pub(crate) fn numbers_mut(rows: &mut [Row]) -> &mut [u32] {
    // SAFETY: as above, and every seven numbers are a row.
    unsafe { std::slice::from_raw_parts_mut(rows.as_mut_ptr().cast(), rows.len() * Row::WIDTH) }
}
