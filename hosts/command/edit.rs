//! The sheet of a payload in the caller's editor, and the payload that is made of it.
//!
//! The sheet stands beside FILE, since an editor opens a file by its name; it is open to the caller alone. It is removed
//! in the end, and kept where it holds what was edited and not written.
use crate::arguments::Call;
use crate::commands::FORCE;
use crate::failure::Failure;
use crate::jobs::Payload;
use crate::output::Output;
use crate::sheet::Sheet;
use crate::{files, system};
use std::env;
use std::ffi::{OsStr, OsString};
use std::fs::{self, OpenOptions};
use std::io::{self, BufRead, ErrorKind, IsTerminal, Write};
use std::os::unix::ffi::OsStrExt;
use std::os::unix::fs::OpenOptionsExt;
use std::path::{Path, PathBuf};
use std::process::Command;

pub fn edit(call: &Call) -> Result<(), Failure> {
    let file = call.operands[0].as_os_str();
    let out = call.operands.get(1).map_or(file, |out| out);
    if files::is_stream(file, 0) || files::is_stream(out, 1) {
        let what = "edit takes files, and neither standard input nor standard output";
        return Err(call.command.wrong(what.to_string()));
    }
    let Some(editor) = editor() else {
        let what = "neither VISUAL nor EDITOR names an editor";
        return Err(call.command.wrong(what.to_string()));
    };
    // what a pipe gives is gone when it is looked at again
    if fs::metadata(file).is_ok_and(|there| !there.is_file()) {
        let why = io::Error::other("it is no regular file");
        return Err(Failure::NotRead(files::named(file), why));
    }
    // where no OUT is named FILE is, to be replaced
    let is_forced = call.operands.len() == 1 || call.has(FORCE);
    let open = || Output::open_and_read(out, is_forced, file, || Payload::read(file, false));
    let (payload, output) = open()?;
    // an OUT that cannot be written is told before anybody edits; and nobody waits for an editor
    drop(output);
    let sheet = payload.by(srci::to_sheet)?;

    let path = create(file, &sheet)?;
    let put = |made: Vec<u8>| {
        let (now, output) = open()?;
        if now.bytes != payload.bytes {
            let why = format!("{} has changed since it was read", files::named(file));
            return Err(Failure::NotWritten(
                format!("{out:?}"),
                io::Error::other(why),
            ));
        }
        output.write(&made)
    };
    let done = edited(&path, &sheet, &editor).and_then(|made| match made {
        Some(made) => put(made),
        None => {
            let _ = writeln!(
                io::stderr(),
                "srci: nothing has changed, and nothing is written"
            );
            Ok(())
        }
    });
    let Err(failure) = done else {
        return remove(&path);
    };
    match Sheet::read(path.as_os_str()) {
        Ok(there) if there.bytes == sheet => remove(&path).and(Err(failure)),
        Err(_) if fs::symlink_metadata(&path).is_err() => Err(failure),
        _ => Err(Failure::Kept(Box::new(failure), format!("{path:?}"))),
    }
}

/// What the caller's variables name; a word of spaces alone would have the shell run the sheet.
fn editor() -> Option<OsString> {
    let is_named = |words: &OsString| !words.as_bytes().iter().all(u8::is_ascii_whitespace);
    let named = |variable| env::var_os(variable).filter(is_named);
    named("VISUAL").or_else(|| named("EDITOR"))
}

/// As many names as are tried.
const MOST_NAMES: usize = 1000;

/// Creates the sheet beside FILE, under a name that nothing has: `sky.sheet` for `sky.srci`, then `sky-2.sheet`.
fn create(file: &OsStr, sheet: &[u8]) -> Result<PathBuf, Failure> {
    let mut number = 1;
    let (path, mut new) = loop {
        let path = beside(Path::new(file), number);
        let mut options = OpenOptions::new();
        match options.write(true).create_new(true).mode(0o600).open(&path) {
            Ok(new) => break (path, new),
            Err(error) if error.kind() == ErrorKind::AlreadyExists && number < MOST_NAMES => {
                number += 1;
            }
            Err(error) => return Err(Failure::NotWritten(format!("{path:?}"), error)),
        }
    };
    match new.write_all(sheet) {
        Ok(()) => Ok(path),
        Err(error) => {
            remove(&path)?;
            Err(Failure::NotWritten(format!("{path:?}"), error))
        }
    }
}

fn beside(file: &Path, number: usize) -> PathBuf {
    let mut name = file.file_stem().unwrap_or_default().to_os_string();
    if number > 1 {
        name.push(format!("-{number}"));
    }
    name.push(".sheet");
    file.with_file_name(name)
}

fn remove(path: &Path) -> Result<(), Failure> {
    match fs::remove_file(path) {
        Err(error) if error.kind() == ErrorKind::NotFound => Ok(()),
        removed => removed.map_err(|error| Failure::NotRemoved(format!("{path:?}"), error)),
    }
}

/// The payload that is made of the sheet once it is edited; none where the sheet did not change.
fn edited(path: &Path, sheet: &[u8], editor: &OsStr) -> Result<Option<Vec<u8>>, Failure> {
    loop {
        open_in(editor, path)?;
        let now = Sheet::read(path.as_os_str())?;
        if now.bytes == sheet {
            return Ok(None);
        }
        match now.payload() {
            Ok(made) => return Ok(Some(made)),
            Err(failure) if !can_ask() => return Err(failure),
            Err(failure) => {
                failure.tell();
                if !is_edited_again() {
                    return Err(Failure::Told(failure.status()));
                }
            }
        }
    }
}

/// Waits until the editor closes. Its words may have arguments and quotes, as git has them: a shell parts them.
fn open_in(editor: &OsStr, path: &Path) -> Result<(), Failure> {
    let mut script = editor.to_os_string();
    script.push(" \"$@\"");
    let mut call = Command::new("/bin/sh");
    call.arg("-c").arg(script).arg(editor).arg(as_operand(path));
    let failed = |how: String| Err(Failure::NotEdited(editor.to_os_string(), how));
    match system::leave_keys_to(|| call.status()) {
        Ok(status) if status.success() => Ok(()),
        Ok(status) => failed(status.to_string()),
        Err(error) => failed(error.to_string()),
    }
}

/// A path that no editor takes for an option or a command.
fn as_operand(path: &Path) -> PathBuf {
    match path.as_os_str().as_bytes() {
        [b'-' | b'+', ..] => Path::new(".").join(path),
        _ => path.to_path_buf(),
    }
}

/// Whether there is a terminal to ask at.
fn can_ask() -> bool {
    io::stdin().is_terminal() && io::stderr().is_terminal()
}

/// Asks whether the sheet is edited again; whoever leaves says no.
fn is_edited_again() -> bool {
    loop {
        let _ = write!(io::stderr(), "edit again? [Y/n] ");
        let mut answer = Vec::new();
        let read = io::stdin().lock().read_until(b'\n', &mut answer);
        if !read.is_ok_and(|length| length > 0) {
            let _ = writeln!(io::stderr());
            return false;
        }
        match String::from_utf8_lossy(&answer).trim() {
            "" | "y" | "Y" | "yes" => return true,
            "n" | "N" | "no" => return false,
            _ => (),
        }
    }
}
