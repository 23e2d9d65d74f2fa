//! Reading whole files and printing, standard input and output among them.
use crate::failure::Failure;
use crate::system;
use std::ffi::OsStr;
use std::fs::{self, File};
use std::io::{self, BufWriter, IsTerminal, Read, Write};
use std::os::fd::AsFd;

/// The bytes of a file, and of one that is longer than the most that are wanted one byte more.
pub fn read(file: &OsStr, most: usize) -> Result<Vec<u8>, Failure> {
    let opened = if is_stream(file, 0) {
        stream(&io::stdin(), 0)
    } else {
        File::open(file)
    };
    let whole = |file: File| {
        // room for all of it at once, where its length is known
        let length = file.metadata().map_or(0, |there| there.len());
        let mut bytes = Vec::with_capacity(usize::try_from(length).unwrap_or(most).min(most + 1));
        file.take(most as u64 + 1).read_to_end(&mut bytes)?;
        Ok(bytes)
    };
    opened
        .and_then(whole)
        .map_err(|error| Failure::NotRead(named(file), error))
}

/// Whether a word names a regular file, which is read without waiting for anybody.
pub fn is_file(word: &OsStr) -> bool {
    !is_stream(word, 0) && fs::metadata(word).is_ok_and(|there| there.is_file())
}

/// A file that is read, as messages name it.
pub fn named(file: &OsStr) -> String {
    if is_stream(file, 0) {
        "standard input".to_string()
    } else {
        format!("{file:?}")
    }
}

/// The same without quotes, where it is text.
pub fn plainly_named(file: &OsStr) -> String {
    match file.to_str() {
        Some(name) if !is_stream(file, 0) => name.to_string(),
        // in quotes, with escapes for what is no text
        _ => named(file),
    }
}

/// Prints to standard output, all of it or with a failure.
pub fn print(print: impl FnOnce(&mut dyn Write) -> io::Result<()>) -> Result<(), Failure> {
    let all = |out: File| {
        let mut out = BufWriter::with_capacity(1 << 16, out);
        print(&mut out)?;
        out.flush()
    };
    standard_output().and_then(all).map_err(not_printed)
}

/// Whether somebody looks at what is printed.
pub fn is_terminal() -> bool {
    standard_output().is_ok_and(|out| out.is_terminal())
}

pub fn standard_output() -> io::Result<File> {
    stream(&io::stdout(), 1)
}

pub fn not_printed(error: io::Error) -> Failure {
    Failure::NotWritten("standard output".to_string(), error)
}

/// Whether a word stands for standard input (0) or standard output (1). The system's names for them cannot be opened
/// where the stream is a socket, nor a file be put in their place.
pub fn is_stream(word: &OsStr, number: usize) -> bool {
    let names = [
        ["/dev/stdin", "/dev/fd/0", "/proc/self/fd/0"],
        ["/dev/stdout", "/dev/fd/1", "/proc/self/fd/1"],
    ];
    word == "-" || names[number].iter().any(|name| word == *name)
}

/// A standard stream as a file. Rust's own passes over a stream that is not open for its use.
fn stream(stream: &impl AsFd, number: usize) -> io::Result<File> {
    if system::was_closed(number) {
        return Err(io::Error::other("it is closed"));
    }
    stream.as_fd().try_clone_to_owned().map(File::from)
}
