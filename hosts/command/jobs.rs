//! What each command does with its operands.
use crate::arguments::Call;
use crate::commands::{EMPTY, FORCE, JSON, MERGE, NAMED};
use crate::failure::Failure;
use crate::files;
use crate::output::Output;
use crate::parts;
use crate::sheet::Sheet;
use crate::table::{Columns, Table};
use crate::text::{Field, Json};
use crate::{facts, rows};
use srci::{Frame, Refusal};
use std::ffi::OsStr;
use std::fmt::Display;
use std::io::{self, Write};
use std::os::unix::ffi::OsStrExt;

/// Packed sources, an unknown section, two names and two pairs.
const SAMPLE: &[u8] = include_bytes!("../../crates/show_card/stdin");

pub fn sample() -> Result<(), Failure> {
    let refused = |refusal| Failure::Refused("the sample".to_string(), refusal);
    let card = srci::card(SAMPLE).map_err(refused)?;
    files::print(|out| out.write_all(card.as_bytes()))
}

pub fn card(call: &Call) -> Result<(), Failure> {
    each(call, |payload| payload.print_lines(payload.by(srci::card)?))
}

pub fn list(call: &Call) -> Result<(), Failure> {
    each(call, |payload| payload.print_lines(payload.by(srci::list)?))
}

pub fn facts(call: &Call) -> Result<(), Failure> {
    let mut columns = Columns::new(&facts::FIELDS);
    each(call, |payload| {
        let facts = payload.by(|payload| srci::facts(payload, usize::MAX))?;
        if call.has(JSON) {
            return payload.print_json("facts", |line_end, out| facts::json(&facts, line_end, out));
        }
        payload.print_table(&mut columns, |first, table| {
            facts::table(&facts, first, table)
        })
    })
}

pub fn rows(call: &Call) -> Result<(), Failure> {
    let mut columns = Columns::new(&rows::FIELDS);
    each(call, |payload| {
        let rows = payload.by(srci::read)?;
        if call.has(JSON) {
            return payload.print_json("rows", |line_end, out| {
                rows::json(&payload.bytes, &rows, line_end, out)
            });
        }
        payload.print_table(&mut columns, |first, table| {
            rows::table(&payload.bytes, &rows, first, table)
        })
    })
}

pub fn check(call: &Call) -> Result<(), Failure> {
    each(call, |payload| {
        payload.by(parts::check)?;
        files::print(|out| match payload.name() {
            Some(name) => writeln!(out, "{}: accepted", Field(&name)),
            None => writeln!(out, "accepted"),
        })
    })
}

pub fn public_copy(call: &Call) -> Result<(), Failure> {
    let (payload, out) = read_and_open(call, &call.operands[0], &call.operands[1])?;
    let copy = payload.by(srci::public_copy)?;
    out.write(&copy)
}

pub fn rename(call: &Call) -> Result<(), Failure> {
    let [file, old, new, out] = [0, 1, 2, 3].map(|place| call.operands[place].as_os_str());
    if new.is_empty() && !call.has(EMPTY) {
        let what = "NEW is empty; --empty renames all the same".to_string();
        return Err(call.command.wrong(what));
    }
    let (payload, out) = read_and_open(call, file, out)?;
    payload.by(parts::check)?;
    let named = files::named(file);
    let Some(old) = old.to_str().filter(|old| payload.has_file(old)) else {
        return Err(Failure::NoSuchName(named, old.to_owned()));
    };
    if new != old && !call.has(MERGE) && new.to_str().is_some_and(|new| payload.has_file(new)) {
        return Err(Failure::NameTaken(named, new.to_owned()));
    }
    // what is put together here is checked as a whole by the library
    let renamed = parts::renamed(&payload.bytes, old, new.as_bytes())
        .and_then(|renamed| parts::check(&renamed).map(|()| renamed))
        .map_err(|refusal| Failure::Refused(format!("{named}, renamed"), refusal))?;
    out.write(&renamed)
}

pub fn sheet(call: &Call) -> Result<(), Failure> {
    let out = call.operands.get(1).map_or(OsStr::new("-"), |out| out);
    let (payload, out) = read_and_open(call, &call.operands[0], out)?;
    let sheet = payload.by(srci::to_sheet)?;
    out.write(&sheet)
}

pub fn from_sheet(call: &Call) -> Result<(), Failure> {
    let [file, out] = [0, 1].map(|place| call.operands[place].as_os_str());
    let read = || Sheet::read(file);
    let (sheet, out) = Output::open_and_read(out, call.has(FORCE), file, read)?;
    out.write(&sheet.payload()?)
}

fn read_and_open<'a>(
    call: &Call,
    file: &'a OsStr,
    out: &OsStr,
) -> Result<(Payload<'a>, Output), Failure> {
    let read = || Payload::read(file, false);
    Output::open_and_read(out, call.has(FORCE), file, read)
}

/// The payload in a FILE.
pub struct Payload<'a> {
    file: &'a OsStr,
    pub bytes: Vec<u8>,
    /// Whether it is told with its name.
    is_named: bool,
}

/// Does a job for each FILE. Of several, one that fails does not keep the others back.
fn each(call: &Call, mut job: impl FnMut(Payload) -> Result<(), Failure>) -> Result<(), Failure> {
    let are_several = call.operands.len() > 1;
    let is_named = are_several || call.has(NAMED);
    let mut status = 0;
    for file in &call.operands {
        match Payload::read(file, is_named).and_then(&mut job) {
            Ok(()) => (),
            // what cannot be printed of one cannot be of the next
            Err(failure @ Failure::NotWritten(..)) => return Err(failure),
            Err(failure) if are_several => {
                failure.tell();
                status = status.max(failure.status());
            }
            Err(failure) => return Err(failure),
        }
    }
    match status {
        0 => Ok(()),
        _ => Err(Failure::Told(status)),
    }
}

impl<'a> Payload<'a> {
    pub fn read(file: &'a OsStr, is_named: bool) -> Result<Self, Failure> {
        let bytes = files::read(file, srci::LIMIT)?;
        Ok(Payload {
            file,
            bytes,
            is_named,
        })
    }

    /// What a job makes of the payload.
    pub fn by<T>(&self, job: impl Fn(&[u8]) -> Result<T, Refusal>) -> Result<T, Failure> {
        job(&self.bytes).map_err(|refusal| {
            let named = files::named(self.file);
            if self.bytes.starts_with(b"DXBC") {
                return Failure::Container(named, refusal);
            }
            match parts::location(&self.bytes, refusal) {
                Some(location) => Failure::RefusedAt(named, refusal, location),
                None => Failure::Refused(named, refusal),
            }
        })
    }

    /// Whether it has a file of this name; the payload is accepted.
    fn has_file(&self, name: &str) -> bool {
        srci::frames(&self.bytes)
            .flat_map(Frame::names)
            .any(|found| found == name)
    }

    /// The file's name, if it is to be told.
    fn name(&self) -> Option<String> {
        self.is_named.then(|| files::plainly_named(self.file))
    }

    fn print_lines(&self, lines: impl Display) -> Result<(), Failure> {
        files::print(|out| {
            if let Some(name) = self.name() {
                writeln!(out, "==> {} <==", Field(&name))?;
            }
            write!(out, "{lines}")
        })
    }

    fn print_table(
        &self,
        columns: &mut Columns,
        print: impl FnOnce(&[&dyn Display], &mut Table) -> io::Result<()>,
    ) -> Result<(), Failure> {
        let name = self.name();
        let name = name.as_deref().map(Field);
        let first: Vec<&dyn Display> = name.iter().map(|name| name as _).collect();
        files::print(|out| {
            let header = columns.take_header();
            let mut table = Table::new(out, columns, files::is_terminal());
            if let Some(header) = header {
                let file: Vec<&dyn Display> = first.iter().map(|_| &"file" as _).collect();
                let fields: Vec<&dyn Display> = header.iter().map(|field| field as _).collect();
                table.line(&file, &fields)?;
            }
            print(&first, &mut table)?;
            table.flush()
        })
    }

    /// Prints an array, an element a line; of a payload that is told with its name an object in one line.
    fn print_json(
        &self,
        what: &str,
        print: impl FnOnce(&str, &mut dyn Write) -> io::Result<()>,
    ) -> Result<(), Failure> {
        files::print(|out| match self.name() {
            None => {
                print("\n", out)?;
                writeln!(out)
            }
            Some(name) => {
                write!(out, "{{\"file\":{},\"{what}\":", Json(&name))?;
                print("", out)?;
                writeln!(out, "}}")
            }
        })
    }
}
