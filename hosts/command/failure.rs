//! Why the command did not do what it was asked, and its exit status.
use crate::parts::Location;
use srci::Refusal;
use std::ffi::OsString;
use std::io::{self, Write};

pub enum Failure {
    /// What was refused, and why.
    Refused(String, Refusal),
    /// What was refused, why, and where in it.
    RefusedAt(String, Refusal, Location),
    /// The sheet that was refused, the number of the line at fault, why, and the line as it is shown.
    RefusedLine(String, usize, Refusal, String),
    /// What was refused, and why: it is a shader container.
    Container(String, Refusal),
    /// The payload in which no file has this name.
    NoSuchName(String, OsString),
    /// The payload in which a file has this name already.
    NameTaken(String, OsString),
    /// What is wrong, and the usage.
    Usage(String, String),
    /// Which file cannot be read, and why.
    NotRead(String, io::Error),
    /// Which file cannot be written, and why.
    NotWritten(String, io::Error),
    /// Which file cannot be removed, and why.
    NotRemoved(String, io::Error),
    /// Which editor failed, and how.
    NotEdited(OsString, String),
    /// What failed, and the sheet that is kept.
    Kept(Box<Failure>, String),
    /// What was told already: its status, of several files the greatest.
    Told(u8),
}

impl Failure {
    pub fn status(&self) -> u8 {
        match self {
            Failure::Refused(..) | Failure::RefusedAt(..) | Failure::Container(..) => 1,
            Failure::RefusedLine(..) | Failure::NoSuchName(..) | Failure::NameTaken(..) => 1,
            Failure::Usage(..) => 2,
            Failure::NotRead(..) | Failure::NotWritten(..) | Failure::NotRemoved(..) => 3,
            Failure::NotEdited(..) => 3,
            Failure::Kept(failure, _) => failure.status(),
            Failure::Told(status) => *status,
        }
    }

    /// Says it on standard error. Where that cannot be written the exit status tells enough.
    pub fn tell(&self) {
        let mut out = io::stderr();
        let _ = match self {
            Failure::Refused(what, refusal) => writeln!(out, "srci: {what}: refused {refusal}"),
            Failure::RefusedAt(what, refusal, location) => {
                writeln!(out, "srci: {what}: refused {refusal} ({location})")
            }
            Failure::RefusedLine(what, line, refusal, shown) => {
                // the line's number stands where editors and terminals look for it
                let (number, name, meaning) = (refusal.number(), refusal.name(), refusal.meaning());
                writeln!(
                    out,
                    "srci: {what}:{line}: refused {number}, {name}: {meaning}\n    {shown}"
                )
            }
            Failure::Container(what, refusal) => writeln!(
                out,
                "srci: {what}: refused {refusal}\nsrci: {what} is a shader container; the payload is \
                 its part SRCI, which has to be cut out of it"
            ),
            Failure::NoSuchName(what, name) => {
                writeln!(out, "srci: {what}: no file is named {name:?}")
            }
            Failure::NameTaken(what, name) => writeln!(
                out,
                "srci: {what}: a file is named {name:?} already; --merge renames all the same"
            ),
            Failure::Usage(what, usage) => write!(out, "srci: {what}\n{usage}"),
            Failure::NotRead(what, error) => writeln!(out, "srci: cannot read {what}: {error}"),
            // whoever reads what is printed has seen enough, as `head` has
            Failure::NotWritten(_, error) if error.kind() == io::ErrorKind::BrokenPipe => Ok(()),
            Failure::NotWritten(what, error) => {
                writeln!(out, "srci: cannot write {what}: {error}")
            }
            Failure::NotRemoved(what, error) => {
                writeln!(out, "srci: cannot remove {what}: {error}")
            }
            Failure::NotEdited(editor, how) => {
                writeln!(
                    out,
                    "srci: the editor {editor:?} failed: {how}; nothing is written"
                )
            }
            Failure::Kept(failure, sheet) => {
                failure.tell();
                writeln!(
                    out,
                    "srci: the sheet is kept as {sheet}, for 'srci from-sheet'"
                )
            }
            Failure::Told(_) => Ok(()),
        };
    }
}
