//! What the Rust makes of a payload: the listing, the public copy and the card.
use crate::rust_rows::catch;
use chunks::srci::{
    parse_srci, SourceContentData, SourceInfo, SourceInfoSection, SourceInfoSectionData,
};
use chunks::ChunkWriter;
use std::borrow::Cow;

pub enum Made {
    /// What is made of the parsed payload.
    Bytes(Vec<u8>),
    /// `parse_srci` gives `None`.
    Refused,
    /// `parse_srci` panics: a text has a NUL inside.
    Panicked,
}

/// What `Display` gives.
pub fn list(payload: &[u8]) -> Made {
    made(payload, |parsed| parsed.to_string().into_bytes())
}

/// What `write_payload` gives of the sections that are made public.
pub fn copy(payload: &[u8]) -> Made {
    made(payload, |mut parsed| {
        make_public(&mut parsed.sections);
        document(parsed.sections).write_payload()
    })
}

/// What `Display` gives of the public copy, parsed anew.
pub fn card(payload: &[u8]) -> Made {
    match copy(payload) {
        Made::Bytes(copy) => list(&copy),
        none => none,
    }
}

/// What is made of a payload, if the Rust parses it.
pub fn made(payload: &[u8], make: fn(SourceInfo) -> Vec<u8>) -> Made {
    match catch(|| parse_srci(payload).map(make)) {
        Some(Some(bytes)) => Made::Bytes(bytes),
        Some(None) => Made::Refused,
        None => Made::Panicked,
    }
}

/// A document that keeps no original: `write_payload` writes its sections.
pub fn document(sections: Vec<SourceInfoSection>) -> SourceInfo {
    let mut document = parse_srci(&[8, 0, 0, 0, 0, 0, 0, 0]).unwrap();
    document.sections = sections;
    document
}

/// Edits sections as document 01 says of the public copy.
pub fn make_public(sections: &mut Vec<SourceInfoSection>) {
    sections.retain(|section| !matches!(section.data, SourceInfoSectionData::Unknown { .. }));
    for section in sections {
        match &mut section.data {
            SourceInfoSectionData::SourceContents(contents) => {
                contents.aligned_size_in_bytes = 0;
                match &mut contents.data {
                    SourceContentData::Uncompressed(entries) => {
                        for entry in entries {
                            entry.content = Cow::Borrowed("");
                        }
                    }
                    SourceContentData::Zlib {
                        data,
                        uncompressed_size_in_bytes,
                        ..
                    } => {
                        *data = Cow::Borrowed(&[]);
                        *uncompressed_size_in_bytes = 0;
                    }
                }
            }
            SourceInfoSectionData::SourceNames(names) => {
                for entry in &mut names.entries {
                    entry.content_size_in_bytes = 1;
                }
            }
            SourceInfoSectionData::Arguments(_) | SourceInfoSectionData::Unknown { .. } => {}
        }
    }
}
