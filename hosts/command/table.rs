//! Lines of fields: parted by tabs for programs, in columns on a terminal.
use std::fmt::{self, Display, Formatter, Write as _};
use std::io::{Result, Write};

/// How many lines wait for the widths of their columns, so that a long table needs no more memory.
const BLOCK: usize = 500;
/// A field that has more characters than this does not widen its column, and is not kept waiting.
const WIDEST: usize = 40;

/// What the tables of several payloads have together: a header line, and on a terminal the widths of their columns.
pub struct Columns {
    header: Option<&'static [&'static str]>,
    widths: Vec<usize>,
}

impl Columns {
    pub fn new(header: &'static [&'static str]) -> Self {
        Columns {
            header: Some(header),
            widths: Vec::new(),
        }
    }

    /// The fields of the header line, once.
    pub fn take_header(&mut self) -> Option<&'static [&'static str]> {
        self.header.take()
    }
}

pub struct Table<'a> {
    out: &'a mut dyn Write,
    /// Of the columns so far; none where fields are parted by tabs.
    widths: Option<&'a mut Vec<usize>>,
    waiting: Vec<Vec<String>>,
}

impl<'a> Table<'a> {
    pub fn new(out: &'a mut dyn Write, columns: &'a mut Columns, is_terminal: bool) -> Self {
        Table {
            out,
            widths: is_terminal.then_some(&mut columns.widths),
            waiting: Vec::new(),
        }
    }

    /// Prints a line, whose fields are the first and the others.
    pub fn line(&mut self, first: &[&dyn Display], others: &[&dyn Display]) -> Result<()> {
        let fields = || first.iter().chain(others).copied();
        if self.widths.is_none() {
            return parted_by_tabs(self.out, fields());
        }
        match fields().map(short).collect() {
            Some(line) => self.waiting.push(line),
            None => {
                self.flush()?;
                let widths = self.widths.as_deref().map_or(&[][..], Vec::as_slice);
                in_columns(self.out, widths, fields())?;
            }
        }
        if self.waiting.len() == BLOCK {
            self.flush()?;
        }
        Ok(())
    }

    /// Prints the lines that wait for others.
    pub fn flush(&mut self) -> Result<()> {
        let Some(widths) = &mut self.widths else {
            return Ok(());
        };
        for line in &self.waiting {
            widths.resize(widths.len().max(line.len()), 0);
            for (width, field) in widths.iter_mut().zip(line) {
                *width = (*width).max(field.chars().count());
            }
        }
        for line in self.waiting.drain(..) {
            in_columns(self.out, widths, line.iter().map(|field| field as _))?;
        }
        Ok(())
    }
}

fn parted_by_tabs<'f>(
    out: &mut dyn Write,
    fields: impl Iterator<Item = &'f dyn Display>,
) -> Result<()> {
    for (place, field) in fields.enumerate() {
        let before = if place == 0 { "" } else { "\t" };
        write!(out, "{before}{field}")?;
    }
    writeln!(out)
}

fn in_columns<'f>(
    out: &mut dyn Write,
    widths: &[usize],
    fields: impl Iterator<Item = &'f dyn Display>,
) -> Result<()> {
    // spaces that are printed if something follows them
    let mut gap = 0;
    for (place, field) in fields.enumerate() {
        let width = widths.get(place).copied().unwrap_or_default();
        match short(field) {
            Some(text) if text.is_empty() => gap += width + 2,
            Some(text) => {
                write!(out, "{:gap$}{text}", "")?;
                gap = width.saturating_sub(text.chars().count()) + 2;
            }
            None => {
                write!(out, "{:gap$}{}", "", InColumn(field))?;
                gap = 2;
            }
        }
    }
    writeln!(out)
}

/// A field as it stands in a column, if it is short.
fn short(field: &dyn Display) -> Option<String> {
    let mut text = Short(String::new());
    write!(text, "{}", InColumn(field)).ok()?;
    Some(text.0)
}

struct Short(String);

impl fmt::Write for Short {
    fn write_str(&mut self, text: &str) -> fmt::Result {
        self.0.push_str(text);
        match self.0.chars().count() {
            0..=WIDEST => Ok(()),
            _ => Err(fmt::Error),
        }
    }
}

/// A field in which nothing looks like what is between two columns: of white space it has single spaces between other
/// characters, and the rest as escapes.
struct InColumn<'a>(&'a dyn Display);

impl Display for InColumn<'_> {
    fn fmt(&self, f: &mut Formatter) -> fmt::Result {
        let mut spaces = Spaces {
            out: f,
            spaces: 0,
            is_first: true,
        };
        write!(spaces, "{}", self.0)?;
        spaces.escape_spaces()
    }
}

struct Spaces<'a, 'b> {
    out: &'a mut Formatter<'b>,
    /// How many came last, and are not printed yet.
    spaces: usize,
    /// Whether nothing else has come.
    is_first: bool,
}

impl Spaces<'_, '_> {
    fn escape_spaces(&mut self) -> fmt::Result {
        for _ in 0..std::mem::take(&mut self.spaces) {
            self.out.write_str("\\u{20}")?;
        }
        Ok(())
    }
}

impl fmt::Write for Spaces<'_, '_> {
    fn write_str(&mut self, text: &str) -> fmt::Result {
        text.chars().try_for_each(|c| self.write_char(c))
    }

    fn write_char(&mut self, c: char) -> fmt::Result {
        if c == ' ' {
            self.spaces += 1;
            return Ok(());
        }
        if self.spaces == 1 && !self.is_first {
            self.spaces = 0;
            self.out.write_char(' ')?;
        }
        self.escape_spaces()?;
        self.is_first = false;
        if c.is_whitespace() {
            return write!(self.out, "\\u{{{:x}}}", c as u32);
        }
        self.out.write_char(c)
    }
}
