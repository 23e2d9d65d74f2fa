//! Where a result goes: to standard output, or to a file that holds the old bytes or the new ones whatever happens.
use crate::failure::Failure;
use crate::old::Old;
use crate::place::Place;
use crate::{files, system, text};
use std::ffi::{CStr, CString, OsStr, OsString};
use std::fs::File;
use std::io::{self, Write};

/// Where a result goes. A file that is to be replaced is locked until the result is there: of calls at once that rename
/// in place, each reads what the one before has written.
pub struct Output(To);

enum To {
    Standard {
        /// Whether it is to be printed whatever it is, at a terminal too.
        is_forced: bool,
    },
    File {
        out: OsString,
        place: Place,
        old: Option<Old>,
    },
}

impl Output {
    /// Finds where OUT leads. A file that is there is replaced only where that is asked for.
    fn open(out: &OsStr, is_forced: bool) -> Result<Output, Failure> {
        if files::is_stream(out, 1) {
            files::standard_output().map_err(files::not_printed)?;
            return Ok(Output(To::Standard { is_forced }));
        }
        let place = Place::find(out).map_err(not_written(out))?;
        let old = place.hold(out, is_forced).map_err(not_written(out))?;
        let out = out.to_os_string();
        Ok(Output(To::File { out, place, old }))
    }

    /// Reads FILE and finds OUT. A file is read after OUT is locked, since both can be one. A stream is read before,
    /// since others would wait for the lock as long as nothing comes.
    pub fn open_and_read<T>(
        out: &OsStr,
        is_forced: bool,
        file: &OsStr,
        read: impl FnOnce() -> Result<T, Failure>,
    ) -> Result<(T, Output), Failure> {
        if files::is_file(file) {
            let out = Output::open(out, is_forced)?;
            Ok((read()?, out))
        } else {
            let read = read()?;
            Ok((read, Output::open(out, is_forced)?))
        }
    }

    pub fn write(self, bytes: &[u8]) -> Result<(), Failure> {
        let (out, place, old) = match self.0 {
            To::Standard { is_forced } => return print(bytes, is_forced),
            To::File { out, place, old } => (out, place, old),
        };
        let written = match &old {
            Some(old) => write_over(&place, old, bytes),
            None => write_new(&place, bytes),
        };
        written.map_err(not_written(&out))
    }
}

/// Prints bytes. What a stranger has put in them can do things to a terminal that nobody sees.
fn print(bytes: &[u8], is_forced: bool) -> Result<(), Failure> {
    if files::is_terminal() && !is_forced && !text::shows(bytes) {
        let why =
            "it is a terminal, and not all of this would show; --force writes it all the same";
        return Err(files::not_printed(io::Error::other(why)));
    }
    files::print(|stdout| stdout.write_all(bytes))
}

fn not_written(out: &OsStr) -> impl Fn(io::Error) -> Failure + '_ {
    move |error| Failure::NotWritten(format!("{out:?}"), error)
}

fn write_new(place: &Place, bytes: &[u8]) -> io::Result<()> {
    let mut temporary = Temporary::create(&place.folder, 0o666)?;
    temporary.fill(bytes)?;
    // renaming would replace a file that came to be in the meantime; a second name does not
    match system::link_at(&place.folder, &temporary.name, &place.name) {
        Ok(()) => Ok(()),
        Err(_) if place.look().is_ok() => Err(replaced_meanwhile()),
        // a file system that knows no second names
        Err(_) => temporary.rename(&place.name),
    }
}

fn write_over(place: &Place, old: &Old, bytes: &[u8]) -> io::Result<()> {
    let mut temporary = Temporary::create(&place.folder, old.private_bits()?)?;
    let kept = old.give_away(&temporary.file)?;
    temporary.fill(bytes)?;
    old.share(&temporary.file, &kept)?;
    if !place.leads_to(&old.file)? {
        return Err(replaced_meanwhile());
    }
    temporary.rename(&place.name)
}

fn replaced_meanwhile() -> io::Error {
    io::Error::other("another file was put there meanwhile")
}

/// A new file beside its place. It is removed again if it is not put there, by a signal too.
struct Temporary<'a> {
    folder: &'a File,
    name: CString,
    file: File,
}

impl Temporary<'_> {
    fn create(folder: &File, mode: u32) -> io::Result<Temporary<'_>> {
        let (name, file) = system::create_temporary(folder, mode)?;
        Ok(Temporary { folder, name, file })
    }

    fn fill(&mut self, bytes: &[u8]) -> io::Result<()> {
        self.file.write_all(bytes)?;
        self.file.sync_all()
    }

    fn rename(self, name: &CStr) -> io::Result<()> {
        system::rename_at(self.folder, &self.name, name)?;
        system::keep_temporary();
        Ok(())
    }
}

impl Drop for Temporary<'_> {
    fn drop(&mut self) {
        system::remove_temporary();
    }
}
