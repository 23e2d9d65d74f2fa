//! Texts of a payload as they are printed: each stays in its field and on its line.
use std::fmt::{Display, Formatter, Result, Write};
use std::io;

/// Characters that do not show, or that change how others show: controls, separators of lines, annotations, the blank
/// pattern of Braille, and what Unicode lists as Default_Ignorable_Code_Point, marks of direction and variation
/// selectors among them.
fn is_unseen(c: char) -> bool {
    c.is_control()
        || matches!(c,
            '\u{ad}'
            | '\u{34f}'
            | '\u{61c}'
            | '\u{115f}'..='\u{1160}'
            | '\u{17b4}'..='\u{17b5}'
            | '\u{180b}'..='\u{180f}'
            | '\u{200b}'..='\u{200f}'
            | '\u{2028}'..='\u{202e}'
            | '\u{2060}'..='\u{206f}'
            | '\u{2800}'
            | '\u{3164}'
            | '\u{fe00}'..='\u{fe0f}'
            | '\u{feff}'
            | '\u{ffa0}'
            | '\u{fff0}'..='\u{fffb}'
            | '\u{1bca0}'..='\u{1bca3}'
            | '\u{1d173}'..='\u{1d17a}'
            | '\u{e0000}'..='\u{e0fff}')
}

/// Whether bytes are a text whose every character shows, but for what parts lines and fields.
pub fn shows(bytes: &[u8]) -> bool {
    let is_shown = |c| matches!(c, '\t' | '\n') || !is_unseen(c);
    std::str::from_utf8(bytes).is_ok_and(|text| text.chars().all(is_shown))
}

/// The beginning of a line of a sheet, to be shown beside a message. Tabs and the sheet's own escapes stay as they are.
pub struct Line<'a>(pub &'a [u8]);

/// Characters of a line that are shown.
const MOST_SHOWN: usize = 160;

impl Display for Line<'_> {
    fn fmt(&self, f: &mut Formatter) -> Result {
        // a character has four bytes at most
        let beginning = &self.0[..self.0.len().min(4 * (MOST_SHOWN + 1))];
        let beginning = String::from_utf8_lossy(beginning);
        let mut rest = beginning.chars();
        for c in rest.by_ref().take(MOST_SHOWN) {
            match c {
                '\t' => f.write_char(c)?,
                c if is_unseen(c) => write!(f, "\\u{{{:x}}}", c as u32)?,
                c => f.write_char(c)?,
            }
        }
        match rest.next() {
            Some(_) => f.write_str(" .."),
            None => Ok(()),
        }
    }
}

/// A text as a field of a tab-parted line.
pub struct Field<'a>(pub &'a str);

impl Display for Field<'_> {
    fn fmt(&self, f: &mut Formatter) -> Result {
        for part in self.0.split_inclusive(|c| c == '\\' || is_unseen(c)) {
            let mut shown = part.chars();
            match shown.next_back() {
                Some('\\') => write!(f, "{}\\\\", shown.as_str())?,
                Some('\t') => write!(f, "{}\\t", shown.as_str())?,
                Some('\n') => write!(f, "{}\\n", shown.as_str())?,
                Some('\r') => write!(f, "{}\\r", shown.as_str())?,
                Some(c) if is_unseen(c) => write!(f, "{}\\u{{{:x}}}", shown.as_str(), c as u32)?,
                _ => f.write_str(part)?,
            }
        }
        Ok(())
    }
}

/// A text as a JSON string.
pub struct Json<'a>(pub &'a str);

impl Display for Json<'_> {
    fn fmt(&self, f: &mut Formatter) -> Result {
        f.write_char('"')?;
        for part in self
            .0
            .split_inclusive(|c| c == '\\' || c == '"' || is_unseen(c))
        {
            let mut shown = part.chars();
            match shown.next_back() {
                Some(c @ ('\\' | '"')) => write!(f, "{}\\{c}", shown.as_str())?,
                Some(c) if is_unseen(c) => {
                    f.write_str(shown.as_str())?;
                    for unit in c.encode_utf16(&mut [0; 2]) {
                        write!(f, "\\u{unit:04x}")?;
                    }
                }
                _ => f.write_str(part)?,
            }
        }
        f.write_char('"')
    }
}

/// Prints an array, whose elements are parted by line ends too where there are to be any.
pub fn json_array<T>(
    out: &mut dyn io::Write,
    line_end: &str,
    all: impl Iterator<Item = T>,
    print: impl Fn(&mut dyn io::Write, T) -> io::Result<()>,
) -> io::Result<()> {
    write!(out, "[")?;
    for (place, one) in all.enumerate() {
        let before = if place == 0 { "" } else { "," };
        write!(out, "{before}{line_end}")?;
        print(out, one)?;
    }
    write!(out, "{line_end}]")
}
