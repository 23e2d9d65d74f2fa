//! SRCI payloads of compiled shaders: what an attachment card tells of source files and compiler arguments.
//!
//! The seven jobs [`read()`], [`write()`], [`list()`], [`public_copy()`], [`card()`], [`to_sheet()`] and [`from_sheet()`]
//! are done by `libsrci.a`, whose every function is proved: whatever bytes and rows come, each call ends, stays inside its
//! buffers, and answers what its definition gives.
//! This package finds the sizes that a job needs, allocates once, and puts names to the numbers. It is tested, and not
//! itself proved.
//!
//! Of what strangers post, ask [`names()`] and [`facts()`], which are bounded, rather than [`read()`], and show the
//! [`first_lines()`] of a card.
//!
//! ```
//! // a payload with the file `a` and the compiler argument `E`, `main`
//! let payload = b"\x4c\0\0\0\0\0\x02\0\
//!     \x28\0\0\0\0\0\x01\0\0\0\0\0\x01\0\0\0\x14\0\x14\0\0\0\0\0\0\0\x02\0\0\0\x05\0\0\0a\0\0\0\0\0\
//!     \x1c\0\0\0\0\0\x02\0\0\0\0\0\x07\0\0\0\x01\0\0\0E\0main\0\0";
//! let card = srci::card(payload)?;
//! assert_eq!(card, "\
//!     // Shader Source Info: 2 section(s)\n\
//!     //   [0] SourceNames: 1 file(s)\n\
//!     //   [1] Arguments: 1 pair(s)\n");
//!
//! // the file, and what it is renamed to
//! let mut rows = srci::read(payload)?;
//! assert_eq!(rows[1].text(payload, b""), Some(&b"a"[..]));
//! rows[1] = srci::Row { side: srci::Row::EDIT, a: 0, b: 8, ..rows[1] };
//! let renamed = srci::write(payload, b"sky.hlsl", &rows)?;
//! assert_eq!(srci::card(&renamed)?, card);
//! # Ok::<(), srci::Refusal>(())
//! ```
mod facts;
mod frame;
mod lines;
mod refusal;
mod row;
mod tables;

pub mod lent;
pub mod sys;

pub use facts::{facts, names, Facts, Section};
pub use frame::{frames, Frame, Names, Pairs};
pub use lines::first_lines;
pub use refusal::Refusal;
pub use row::{Row, Rows};
pub use tables::{ROWS, VERSION};

/// Bytes of the longest payload.
pub const LIMIT: usize = 26_214_400;

/// Reads a payload into its rows. A payload has at most half as many rows as it has bytes, and a row takes 28 bytes:
/// 367 MB for the longest payload of empty pairs.
///
/// ```
/// let nothing = [8, 0, 0, 0, 0, 0, 0, 0];
/// assert_eq!(srci::read(&nothing), Ok(vec![]));
/// assert_eq!(srci::read(&nothing[..7]), Err(srci::Refusal::Ragged));
/// ```
///
/// # Errors
///
/// A refusal from 1 to 15, where the payload is not accepted.
pub fn read(payload: &[u8]) -> Result<Rows, Refusal> {
    match lent::read(payload, &mut []) {
        Err(Refusal::NoRows(needed)) => {
            let mut rows = vec![Row::default(); needed as usize];
            lent::read(payload, row::numbers_mut(&mut rows))?;
            Ok(rows)
        }
        answer => answer.map(|_| Rows::new()),
    }
}

/// Writes rows, whose texts and bytes lie in a payload and in an edit text, as a payload.
///
/// ```
/// use srci::Row;
/// let names = Row { tag: Row::NAMES, ..Row::default() };
/// let name = Row { tag: Row::NAME, side: Row::EDIT, a: 0, b: 8, c: 1, ..Row::default() };
/// let payload = srci::write(b"", b"sky.hlsl", &[names, name])?;
/// assert_eq!(srci::read(&payload)?[1].text(&payload, b""), Some(&b"sky.hlsl"[..]));
/// // a name follows names
/// assert_eq!(srci::write(b"", b"sky.hlsl", &[name]), Err(srci::Refusal::BadRow));
/// # Ok::<(), srci::Refusal>(())
/// ```
///
/// # Errors
///
/// The first of these: a row that breaks a rule (17), or a text of it that is not UTF-8 (11) or has a NUL inside (12);
/// what passes a limit (18).
pub fn write(payload: &[u8], edit: &[u8], rows: &[Row]) -> Result<Vec<u8>, Refusal> {
    made(|output| lent::write(payload, edit, row::numbers(rows), output))
}

/// Lists a payload. The listing tells packed sizes and unknown sections; a card does not.
///
/// ```
/// let nothing = [8, 0, 0, 0, 0, 0, 0, 0];
/// assert_eq!(srci::list(&nothing)?, "// Shader Source Info: 0 section(s)\n");
/// # Ok::<(), srci::Refusal>(())
/// ```
///
/// # Errors
///
/// A refusal from 1 to 15, where the payload is not accepted.
pub fn list(payload: &[u8]) -> Result<String, Refusal> {
    made(|output| lent::list(payload, output)).map(text)
}

/// Makes the public copy of a payload, from which nothing but the payload's public facts can be learnt.
///
/// ```
/// // packed contents of 4 stored bytes, count 2
/// let payload = b"\x28\0\0\0\0\0\x01\0\
///     \x20\0\0\0\0\0\0\0\x09\0\0\0\0\0\x01\0\x04\0\0\0\x2c\x01\0\0\x02\0\0\0abcd";
/// let copy = srci::public_copy(payload)?;
/// let contents = srci::read(&copy)?[0];
/// assert_eq!(contents.stored(&copy, b""), Some(&b""[..]));
/// assert_eq!((contents.a, contents.d, contents.e), (0, 2, 0));
/// # Ok::<(), srci::Refusal>(())
/// ```
///
/// # Errors
///
/// A refusal from 1 to 15, where the payload is not accepted.
pub fn public_copy(payload: &[u8]) -> Result<Vec<u8>, Refusal> {
    made(|output| lent::public_copy(payload, output))
}

/// Makes the card of a payload: the listing of its public copy.
///
/// ```
/// let nothing = [8, 0, 0, 0, 0, 0, 0, 0];
/// assert_eq!(srci::card(&nothing)?, "// Shader Source Info: 0 section(s)\n");
/// let refused = srci::card(b"").unwrap_err();
/// assert_eq!((refused.number(), refused.name()), (2, "ragged"));
/// # Ok::<(), srci::Refusal>(())
/// ```
///
/// # Errors
///
/// A refusal from 1 to 15, where the payload is not accepted.
pub fn card(payload: &[u8]) -> Result<String, Refusal> {
    made(|output| lent::card(payload, output)).map(text)
}

/// Makes the sheet of a payload, for a text editor: lines of UTF-8 that show everything in the payload, packed and
/// unknown bytes too. Secrecy, which covers the public copy and the card, does not cover it.
///
/// A line has a word and fields, parted by tabs: `contents`, header field; `content`, text; `packed`, header field, count,
/// uncompressed bytes, bytes; `names`; `name`, content size, text; `arguments`; `pair`, name, value; `unknown`, kind,
/// bytes. Numbers are decimal, bytes are pairs of hexadecimal digits, and in a text backslash, tab and newline are
/// `\\`, `\t` and `\n`. The sheet is at most three and a half times as long as the payload.
///
/// ```
/// // the compiler argument `E`, `main`
/// let payload = b"\x24\0\0\0\0\0\x01\0\x1c\0\0\0\0\0\x02\0\0\0\0\0\x07\0\0\0\x01\0\0\0E\0main\0\0";
/// assert_eq!(srci::to_sheet(payload)?, b"arguments\npair\tE\tmain\n");
/// # Ok::<(), srci::Refusal>(())
/// ```
///
/// # Errors
///
/// A refusal from 1 to 15, where the payload is not accepted.
pub fn to_sheet(payload: &[u8]) -> Result<Vec<u8>, Refusal> {
    made(|output| lent::to_sheet(payload, output))
}

/// Makes the payload of a sheet, whose lines are those of [`to_sheet()`]: the payload's sheet is this one, byte for byte.
/// Each line is closed by a newline, the last one too, and nothing is passed over: neither an empty line nor a carriage
/// return. A sheet may be of any length.
///
/// ```
/// let sheet = b"arguments\npair\tE\tmain\n";
/// let payload = srci::from_sheet(sheet)?;
/// assert_eq!(srci::to_sheet(&payload)?, sheet);
/// // a name follows names
/// assert_eq!(srci::from_sheet(b"arguments\nname\t1\ta\n"), Err(srci::Refusal::BadLine(2)));
/// # Ok::<(), srci::Refusal>(())
/// ```
///
/// # Errors
///
/// The first of these: a line that is malformed or misplaced (20), or a text of it that is not UTF-8 (11) or has a NUL
/// inside (12); what passes a limit (18).
pub fn from_sheet(sheet: &[u8]) -> Result<Vec<u8>, Refusal> {
    made(|output| lent::from_sheet(sheet, output))
}

/// What a job stores in an output of the length that it needs.
fn made(job: impl Fn(&mut [u8]) -> Result<usize, Refusal>) -> Result<Vec<u8>, Refusal> {
    match job(&mut []) {
        Err(Refusal::NoRoom(needed)) => {
            let mut output = vec![0; needed as usize];
            job(&mut output)?;
            Ok(output)
        }
        answer => answer.map(|_| Vec::new()),
    }
}

fn text(listing: Vec<u8>) -> String {
    String::from_utf8(listing).expect("the lines of a listing are ASCII by their definition")
}
