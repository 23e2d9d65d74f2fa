//! The place that OUT leads to: a name in a folder that is open. Once it is found nothing is opened or put anywhere by a
//! path or a link, which others could turn elsewhere.
use crate::old::Old;
use crate::system::{self, Lock};
use std::ffi::{CStr, CString, OsStr};
use std::fs::{self, File, Metadata};
use std::io::{self, ErrorKind};
use std::os::unix::ffi::OsStrExt;
use std::os::unix::fs::MetadataExt;
use std::thread;
use std::time::{Duration, Instant};

/// How long a call waits for others that replace the same file.
const PATIENCE: Duration = Duration::from_secs(10);
const PAUSE: Duration = Duration::from_millis(5);
/// As many as the system follows.
const MOST_LINKS: usize = 40;

pub struct Place {
    pub folder: File,
    pub name: CString,
}

impl Place {
    /// Follows OUT part by part. Each link is read from what was opened, and not by its name once more.
    pub fn find(out: &OsStr) -> io::Result<Place> {
        match fs::metadata(out) {
            Ok(there) => refuse_special(&there)?,
            Err(error) if error.kind() == ErrorKind::NotFound => (),
            Err(error) => return Err(error),
        }
        let mut folder = beginning(out.as_bytes())?;
        let mut parts = parts_of(out.as_bytes())?;
        let (mut links, mut last_was_link) = (0, false);
        while let Some(name) = parts.pop() {
            let is_last = parts.is_empty();
            let there = match look(&folder, &name) {
                Err(error) if error.kind() == ErrorKind::NotFound && last_was_link => {
                    return Err(io::Error::other("it is a link to nothing"));
                }
                Err(error) if error.kind() == ErrorKind::NotFound && is_last => {
                    let own = fs::metadata(folder_of(out))?;
                    return match is_same(&own, &folder)? {
                        true => Ok(Place { folder, name }),
                        false => Err(elsewhere()),
                    };
                }
                there => there?,
            };
            if there.metadata()?.is_symlink() {
                refuse_planted(&folder, &there)?;
                let path = system::read_link(&there)?;
                if path.as_bytes().starts_with(b"/") {
                    folder = beginning(path.as_bytes())?;
                }
                parts.extend(parts_of(path.as_bytes())?);
                last_was_link |= is_last;
                links += 1;
                if links > MOST_LINKS {
                    return Err(io::Error::other("it has too many links"));
                }
            } else if is_last {
                return Ok(Place { folder, name });
            } else {
                folder = there;
            }
        }
        Err(io::Error::other("it is no name of a file"))
    }

    /// What is there, to be looked at.
    pub fn look(&self) -> io::Result<File> {
        look(&self.folder, &self.name)
    }

    /// Whether this file is there.
    pub fn leads_to(&self, file: &File) -> io::Result<bool> {
        match self.look() {
            Err(error) if error.kind() == ErrorKind::NotFound => Ok(false),
            there => is_same(&there?.metadata()?, file),
        }
    }

    /// The file that is to be replaced, or none where nothing is there. Calls that replace it are waited for.
    pub fn hold(&self, out: &OsStr, replace: bool) -> io::Result<Option<Old>> {
        let end = Instant::now() + PATIENCE;
        loop {
            let file = match self.look() {
                Err(error) if error.kind() == ErrorKind::NotFound => return Ok(None),
                there => there?,
            };
            refuse_special(&file.metadata()?)?;
            if !replace {
                return Err(io::Error::other("it is there already; --force replaces it"));
            }
            if let Some(old) = self.lock(file, out)? {
                return Ok(Some(old));
            }
            if Instant::now() > end {
                return Err(io::Error::other(
                    "another process has locked it, for 10 seconds or more",
                ));
            }
            thread::sleep(PAUSE);
        }
    }

    /// Locks what is there. There is no answer where another call holds it, or has just replaced it.
    fn lock(&self, file: File, out: &OsStr) -> io::Result<Option<Old>> {
        let mut readable = None;
        // NFS locks only what is open for writing
        for way in [system::READ, system::READ_AND_WRITE] {
            let flags = way | system::NO_FOLLOW | system::NO_WAIT;
            let opened = match system::open_at(Some(&self.folder), &self.name, flags) {
                Ok(opened) => opened,
                Err(error) if error.kind() == ErrorKind::PermissionDenied => break,
                Err(error) if self.leads_to(&file)? => return Err(error),
                Err(_) => return Ok(None),
            };
            if !is_same(&opened.metadata()?, &file)? {
                return Ok(None);
            }
            let lock = system::lock(&opened)?;
            readable = Some(opened);
            match lock {
                Lock::Had => break,
                Lock::OfAnother => return Ok(None),
                Lock::OfWriters => (),
            }
        }
        let is_out = fs::metadata(out).map_or(Ok(false), |there| is_same(&there, &file))?;
        match self.leads_to(&file)? {
            true if is_out => Ok(Some(Old { file, readable })),
            true => Err(elsewhere()),
            false => Ok(None),
        }
    }
}

/// The folder that a path begins in.
fn beginning(path: &[u8]) -> io::Result<File> {
    let name = if path.starts_with(b"/") { c"/" } else { c"." };
    system::open_at(None, name, system::LOOK | system::FOLDER)
}

/// The folder of OUT, as the system finds it.
fn folder_of(out: &OsStr) -> &OsStr {
    let out = out.as_bytes();
    match out.iter().rposition(|byte| *byte == b'/') {
        Some(slash) => OsStr::from_bytes(&out[..=slash]),
        None => OsStr::new("."),
    }
}

/// The system's own answer is another than the links' texts give. So it is with links in /proc to what was removed, or is
/// in a container.
fn elsewhere() -> io::Error {
    io::Error::other("it leads elsewhere than its links say")
}

/// The parts of a path, the last one first. What ends in a slash is a folder, and so its last part is that folder itself.
fn parts_of(path: &[u8]) -> io::Result<Vec<CString>> {
    let end = path.ends_with(b"/").then_some(&b"."[..]);
    let names = path
        .split(|byte| *byte == b'/')
        .filter(|part| !part.is_empty());
    let mut parts: Vec<CString> = names
        .chain(end)
        .map(CString::new)
        .collect::<Result<_, _>>()?;
    parts.reverse();
    Ok(parts)
}

/// What has a name in a folder, to be looked at.
fn look(folder: &File, name: &CStr) -> io::Result<File> {
    system::open_at(Some(folder), name, system::LOOK | system::NO_FOLLOW)
}

/// Linux can be told not to follow a link that a stranger has put into a folder where all may write, as /tmp. Here none
/// is followed. Those of the caller and of the folder's owner are.
fn refuse_planted(folder: &File, link: &File) -> io::Result<()> {
    let (folder, owner) = (folder.metadata()?, link.metadata()?.uid());
    let is_shared = folder.mode() & 0o002 != 0;
    let is_trusted = owner == system::user() || owner == folder.uid();
    if is_shared && !(is_trusted && system::is_known_user(owner)) {
        return Err(io::Error::other(
            "it leads through a link of another user's, in a folder where all may write",
        ));
    }
    Ok(())
}

fn is_same(one: &Metadata, other: &File) -> io::Result<bool> {
    let other = other.metadata()?;
    Ok((one.dev(), one.ino()) == (other.dev(), other.ino()))
}

fn refuse_special(there: &Metadata) -> io::Result<()> {
    match there.is_file() {
        true => Ok(()),
        false => Err(io::Error::other("it is there, and is no regular file")),
    }
}
