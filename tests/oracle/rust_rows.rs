//! What the Rust makes of a payload, as the rows of document 01.
use chunks::srci::{parse_srci, SourceContentData, SourceInfo, SourceInfoSectionData};
use std::panic::{catch_unwind, UnwindSafe};
use std::sync::atomic::{AtomicBool, Ordering};

pub enum Parsed {
    /// The numbers of the rows.
    Rows(Vec<u32>),
    /// `parse_srci` gives `None`.
    Refused,
    /// `parse_srci` panics: it accepts the layout, and then cannot write a text with a NUL inside.
    Panicked,
}

/// The rows of a parsed payload. A text's place is found by its address.
pub fn rows_of(payload: &[u8], parsed: &SourceInfo) -> Vec<u32> {
    let place = |bytes: &[u8]| -> u32 {
        let at = bytes.as_ptr() as usize - payload.as_ptr() as usize;
        assert!(at + bytes.len() <= payload.len());
        at as u32
    };
    let mut rows = Vec::new();
    for section in &parsed.sections {
        match &section.data {
            SourceInfoSectionData::SourceContents(contents) => {
                let field = contents.aligned_size_in_bytes;
                match &contents.data {
                    SourceContentData::Uncompressed(entries) => {
                        rows.extend([0, 0, field, 0, 0, 0, 0]);
                        for entry in entries {
                            let text = entry.content.as_bytes();
                            rows.extend([5, 0, place(text), text.len() as u32, 0, 0, 0]);
                        }
                    }
                    SourceContentData::Zlib {
                        data,
                        count,
                        uncompressed_size_in_bytes,
                    } => rows.extend([
                        1,
                        0,
                        field,
                        place(data),
                        data.len() as u32,
                        *count,
                        *uncompressed_size_in_bytes,
                    ]),
                }
            }
            SourceInfoSectionData::SourceNames(names) => {
                rows.extend([2, 0, 0, 0, 0, 0, 0]);
                for entry in &names.entries {
                    let name = entry.name.as_bytes();
                    let size = entry.content_size_in_bytes;
                    rows.extend([6, 0, place(name), name.len() as u32, size, 0, 0]);
                }
            }
            SourceInfoSectionData::Arguments(arguments) => {
                rows.extend([3, 0, 0, 0, 0, 0, 0]);
                for pair in &arguments.arguments {
                    let (name, value) = (pair.name.as_bytes(), pair.value.as_bytes());
                    rows.extend([
                        7,
                        0,
                        place(name),
                        name.len() as u32,
                        place(value),
                        value.len() as u32,
                        0,
                    ]);
                }
            }
            SourceInfoSectionData::Unknown { section_type, data } => rows.extend([
                4,
                0,
                u32::from(*section_type),
                place(data),
                data.len() as u32,
                0,
                0,
            ]),
        }
    }
    rows
}

static CATCHING: AtomicBool = AtomicBool::new(false);

/// Keeps the panics that `catch` catches from being printed. Every other panic still is.
pub fn hush() {
    let print = std::panic::take_hook();
    std::panic::set_hook(Box::new(move |info| {
        if !CATCHING.load(Ordering::Relaxed) {
            print(info);
        }
    }));
}

/// What the Rust gives, or `None` where it panics.
pub fn catch<T>(call: impl FnOnce() -> T + UnwindSafe) -> Option<T> {
    CATCHING.store(true, Ordering::Relaxed);
    let caught = catch_unwind(call);
    CATCHING.store(false, Ordering::Relaxed);
    caught.ok()
}

pub fn parse(payload: &[u8]) -> Parsed {
    match catch(|| parse_srci(payload)) {
        Some(Some(parsed)) => Parsed::Rows(rows_of(payload, &parsed)),
        Some(None) => Parsed::Refused,
        None => Parsed::Panicked,
    }
}
