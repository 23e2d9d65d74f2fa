//! What Rust's own library has no words for: files by the folder that is open, attributes, locks, signals, and streams
//! that were closed from the start. With the allocator's (memory.rs) it is the only unsafe code of the command, behind
//! safe functions, with the numbers of Linux on x86-64.
use std::collections::hash_map::RandomState;
use std::ffi::{c_char, c_int, c_uint, c_void, CStr, CString};
use std::fs::{self, File};
use std::hash::{BuildHasher, Hasher};
use std::io;
use std::mem;
use std::os::fd::{AsRawFd, FromRawFd, IntoRawFd};
use std::ptr;
use std::sync::atomic::{AtomicBool, AtomicI32, AtomicPtr, Ordering::SeqCst};

extern "C" {
    fn openat(folder: c_int, name: *const c_char, flags: c_int, ...) -> c_int;
    fn readlinkat(folder: c_int, name: *const c_char, text: *mut u8, room: usize) -> isize;
    fn linkat(
        from: c_int,
        old: *const c_char,
        to: c_int,
        new: *const c_char,
        flags: c_int,
    ) -> c_int;
    fn renameat(from: c_int, old: *const c_char, to: c_int, new: *const c_char) -> c_int;
    fn unlinkat(folder: c_int, name: *const c_char, flags: c_int) -> c_int;
    fn fgetxattr(file: c_int, name: *const c_char, value: *mut c_void, room: usize) -> isize;
    fn fsetxattr(
        file: c_int,
        name: *const c_char,
        value: *const c_void,
        size: usize,
        flags: c_int,
    ) -> c_int;
    fn fremovexattr(file: c_int, name: *const c_char) -> c_int;
    fn flock(file: c_int, operation: c_int) -> c_int;
    fn fcntl(file: c_int, operation: c_int, ...) -> c_int;
    fn geteuid() -> c_uint;
    fn sigaction(signal: c_int, new: *const Action, old: *mut Action) -> c_int;
    fn raise(signal: c_int) -> c_int;
}

fn done(answer: c_int) -> io::Result<()> {
    match answer {
        -1 => Err(io::Error::last_os_error()),
        _ => Ok(()),
    }
}

// ---- files, by the folder that is open

pub const READ: c_int = 0;
pub const READ_AND_WRITE: c_int = 0o2;
/// To look at what has a name, and not into it: neither a pipe nor a device notices.
pub const LOOK: c_int = 0o10_000_000;
/// A folder, or a failure.
pub const FOLDER: c_int = 0o200_000;
/// A link is opened, or refused, and not followed.
pub const NO_FOLLOW: c_int = 0o400_000;
/// A pipe without a writer is not waited for.
pub const NO_WAIT: c_int = 0o4_000;
const CREATE_NEW: c_int = 0o100 | 0o200;
const WRITE_ONLY: c_int = 0o1;
const CLOSE_ON_EXEC: c_int = 0o2_000_000;
/// Where there is no folder: the one that the command is run in.
const HERE: c_int = -100;

/// Opens what has a name in a folder, or in the one that the command is run in.
pub fn open_at(folder: Option<&File>, name: &CStr, flags: c_int) -> io::Result<File> {
    create_at(
        folder.map_or(HERE, |folder| folder.as_raw_fd()),
        name,
        flags,
        0,
    )
}

fn create_at(folder: c_int, name: &CStr, flags: c_int, mode: u32) -> io::Result<File> {
    // SAFETY: the name ends with a NUL, and a descriptor that is answered is nobody else's
    unsafe {
        let file = openat(folder, name.as_ptr(), flags | CLOSE_ON_EXEC, mode as c_uint);
        done(file)?;
        Ok(File::from_raw_fd(file))
    }
}

/// Where a link leads that is open to be looked at.
pub fn read_link(link: &File) -> io::Result<CString> {
    let mut text = vec![0; 4096];
    // SAFETY: the text has this much room, and the name ends with a NUL
    let length = unsafe {
        readlinkat(
            link.as_raw_fd(),
            c"".as_ptr(),
            text.as_mut_ptr(),
            text.len(),
        )
    };
    text.truncate(usize::try_from(length).map_err(|_| io::Error::last_os_error())?);
    Ok(CString::new(text)?)
}

/// Gives a file a second name in its folder, which nothing may have.
pub fn link_at(folder: &File, old: &CStr, new: &CStr) -> io::Result<()> {
    let folder = folder.as_raw_fd();
    // SAFETY: the names end with a NUL
    done(unsafe { linkat(folder, old.as_ptr(), folder, new.as_ptr(), 0) })
}

/// Gives a file another name in its folder; what had it is gone.
pub fn rename_at(folder: &File, old: &CStr, new: &CStr) -> io::Result<()> {
    let folder = folder.as_raw_fd();
    // SAFETY: the names end with a NUL
    done(unsafe { renameat(folder, old.as_ptr(), folder, new.as_ptr()) })
}

pub fn user() -> u32 {
    // SAFETY: it cannot fail
    unsafe { geteuid() }
}

/// Whether a user's number stands for one user.
pub fn is_known_user(number: u32) -> bool {
    is_known(number, "/proc/self/uid_map")
}

/// Whether a group's number stands for one group.
pub fn is_known_group(number: u32) -> bool {
    is_known(number, "/proc/self/gid_map")
}

/// In a container all users that its map does not have are shown by one number, and so are all groups.
fn is_known(number: u32, map: &str) -> bool {
    let has_all = |map: String| map.split_whitespace().eq(["0", "0", "4294967295"]);
    number != 65_534 || fs::read_to_string(map).is_ok_and(has_all)
}

// ---- attributes of an open file

const NO_DATA: i32 = 61;
const NOT_SUPPORTED: i32 = 95;
/// Linux has no longer ones.
const LONGEST_ATTRIBUTE: usize = 65_536;

/// The answer, or none where the file has no such attribute, or its file system has none at all.
fn if_there<T>(answer: io::Result<T>) -> io::Result<Option<T>> {
    match answer {
        Err(error) if matches!(error.raw_os_error(), Some(NO_DATA | NOT_SUPPORTED)) => Ok(None),
        answer => answer.map(Some),
    }
}

pub fn attribute(file: &File, name: &CStr) -> io::Result<Option<Vec<u8>>> {
    let mut value = vec![0; LONGEST_ATTRIBUTE];
    // SAFETY: the value has this much room, and the name ends with a NUL
    let size = unsafe {
        fgetxattr(
            file.as_raw_fd(),
            name.as_ptr(),
            value.as_mut_ptr().cast(),
            value.len(),
        )
    };
    let size = if_there(usize::try_from(size).map_err(|_| io::Error::last_os_error()))?;
    Ok(size.map(|size| {
        value.truncate(size);
        value
    }))
}

pub fn set_attribute(file: &File, name: &CStr, value: &[u8]) -> io::Result<()> {
    // SAFETY: the value has this length, and the name ends with a NUL
    done(unsafe {
        fsetxattr(
            file.as_raw_fd(),
            name.as_ptr(),
            value.as_ptr().cast(),
            value.len(),
            0,
        )
    })
}

pub fn remove_attribute(file: &File, name: &CStr) -> io::Result<()> {
    // SAFETY: the name ends with a NUL
    let removed = done(unsafe { fremovexattr(file.as_raw_fd(), name.as_ptr()) });
    if_there(removed).map(|_| ())
}

// ---- locks

const EXCLUSIVE: c_int = 2;
const DO_NOT_WAIT: c_int = 4;
const BAD_FILE: i32 = 9;
const WOULD_BLOCK: i32 = 11;
const NO_LOCKS: i32 = 37;
const NO_SUCH_CALL: i32 = 38;

pub enum Lock {
    /// It is this call's until the file is closed, or its file system has none.
    Had,
    OfAnother,
    /// Its file system gives it only to a file that is open for writing.
    OfWriters,
}

pub fn lock(file: &File) -> io::Result<Lock> {
    // SAFETY: the file is open
    match done(unsafe { flock(file.as_raw_fd(), EXCLUSIVE | DO_NOT_WAIT) }) {
        Ok(()) => Ok(Lock::Had),
        Err(error) => match error.raw_os_error() {
            Some(NO_LOCKS | NO_SUCH_CALL | NOT_SUPPORTED) => Ok(Lock::Had),
            Some(WOULD_BLOCK) => Ok(Lock::OfAnother),
            Some(BAD_FILE) => Ok(Lock::OfWriters),
            _ => Err(error),
        },
    }
}

// ---- the temporary file, and the signals that end the command

/// The folder and the name of the one temporary file, for a signal to remove it. Neither is ever closed or freed.
static TEMPORARY_IN: AtomicI32 = AtomicI32::new(-1);
static TEMPORARY: AtomicPtr<c_char> = AtomicPtr::new(ptr::null_mut());

/// Creates a file to write to, under a name that nobody else has. Until `keep_temporary` a signal removes it.
pub fn create_temporary(folder: &File, mode: u32) -> io::Result<(CString, File)> {
    let random = RandomState::new().build_hasher().finish();
    let name = CString::new(format!(".srci-{random:016x}.tmp"))?;
    let folder = folder.try_clone()?.into_raw_fd();
    // the name is known before the file is there, so that no signal can come between
    TEMPORARY_IN.store(folder, SeqCst);
    TEMPORARY.store(name.clone().into_raw(), SeqCst);
    ENDING.into_iter().try_for_each(remove_before)?;
    let file = create_at(folder, &name, WRITE_ONLY | CREATE_NEW | NO_FOLLOW, mode)?;
    Ok((name, file))
}

/// Removes the temporary file, if there is one. It allocates nothing, and can be called at any time.
pub fn remove_temporary() {
    let name = TEMPORARY.load(SeqCst);
    if !name.is_null() {
        // SAFETY: the name ends with a NUL and is never freed, nor is the folder ever closed
        unsafe { unlinkat(TEMPORARY_IN.load(SeqCst), name, 0) };
        // only now: a signal that comes before removes it, or finds it removed
        keep_temporary();
    }
}

/// The temporary file has its place, or is gone.
pub fn keep_temporary() {
    TEMPORARY.store(ptr::null_mut(), SeqCst);
}

/// The signals by which a process is ended from outside: HUP, INT, QUIT, USR1, USR2, ALRM, TERM, XCPU, XFSZ, VTALRM, PROF,
/// IO and PWR. KILL cannot be caught.
const ENDING: [c_int; 13] = [1, 2, 3, 10, 12, 14, 15, 24, 25, 26, 27, 29, 30];
const IGNORED: usize = 1;
const ONCE: c_int = -0x8000_0000;

/// `struct sigaction`.
#[repr(C)]
struct Action {
    handler: usize,
    blocked: [u64; 16],
    flags: c_int,
    restorer: usize,
}

/// Has a signal handled, unless it is ignored, and answers what it did before.
fn handle(signal: c_int, handler: extern "C" fn(c_int), flags: c_int) -> io::Result<Action> {
    // SAFETY: all zeros are an action, both are valid for the calls, and the handlers here make none but safe calls
    unsafe {
        let mut before: Action = mem::zeroed();
        done(sigaction(signal, ptr::null(), &mut before))?;
        if before.handler != IGNORED {
            let mut action: Action = mem::zeroed();
            action.handler = handler as usize;
            action.flags = flags;
            done(sigaction(signal, &action, ptr::null_mut()))?;
        }
        Ok(before)
    }
}

/// From now on this signal removes the temporary file before it ends the command, unless it is ignored.
fn remove_before(signal: c_int) -> io::Result<()> {
    handle(signal, remove_and_end, ONCE).map(|_| ())
}

extern "C" fn remove_and_end(signal: c_int) {
    remove_temporary();
    // ONCE has restored what the signal does by itself, and that is done when this function is left
    // SAFETY: it can be called in a handler
    unsafe { raise(signal) };
}

// ---- a program that has the terminal

/// The signals that keys of a terminal send to all who wait there: INT and QUIT.
const KEYS: [c_int; 2] = [2, 3];
const RESTART: c_int = 0x1000_0000;

/// Waits for a program that has the terminal. Until it ends, the keys are meant for it, and do not end the command.
pub fn leave_keys_to<T>(program: impl FnOnce() -> io::Result<T>) -> io::Result<T> {
    // signals that were ignored would be by the program, too; those that are handled are not
    let [first, second] = KEYS.map(|signal| handle(signal, pass_over, RESTART));
    let before = [first?, second?];
    let ended = program();
    for (signal, action) in KEYS.into_iter().zip(before) {
        // SAFETY: it is the action that the signal had
        done(unsafe { sigaction(signal, &action, ptr::null_mut()) })?;
    }
    ended
}

extern "C" fn pass_over(_: c_int) {}

// ---- standard streams

/// Whether each was closed when the command was started. Rust opens /dev/null in its place before `main`.
static CLOSED: [AtomicBool; 2] = [AtomicBool::new(false), AtomicBool::new(false)];
/// Asks for a descriptor's flags, which only an open one has.
const GET_FLAGS: c_int = 1;

#[used]
#[link_section = ".init_array"]
static BEFORE_RUST: extern "C" fn() = look_at_streams;

extern "C" fn look_at_streams() {
    for (stream, closed) in CLOSED.iter().enumerate() {
        // SAFETY: it only asks
        closed.store(unsafe { fcntl(stream as c_int, GET_FLAGS) } == -1, SeqCst);
    }
}

/// Whether standard input (0) or standard output (1) was closed when the command was started.
pub fn was_closed(stream: usize) -> bool {
    CLOSED[stream].load(SeqCst)
}
