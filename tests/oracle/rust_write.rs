//! What writing must answer, without this repository: the rules of rows checked by hand, the bytes by the
//! Rust's `write_payload`.
use crate::boundaries::LIMIT;
use crate::compare::WIDTH;
use crate::rust_made::document;
use crate::rust_rows::catch;
use chunks::srci::{
    SourceArgument, SourceArguments, SourceContent, SourceContentData, SourceContents,
    SourceInfoSection, SourceInfoSectionData, SourceName, SourceNames,
};
use chunks::ChunkWriter;
use std::borrow::Cow;

pub enum Expected {
    Written(Vec<u8>),
    /// The number of the refusal, one of 11, 12, 17 and 18.
    Refused(u32),
    /// No rule is broken, and `write_payload` panics.
    Panicked,
}

pub fn expected(payload: &[u8], edit: &[u8], rows: &[u32]) -> Expected {
    let sections = match sections_of(payload, edit, rows) {
        Ok(sections) => sections,
        Err(number) => return Expected::Refused(number),
    };
    if !fits(&sections) {
        return Expected::Refused(18);
    }
    let document = document(sections);
    match catch(|| document.write_payload()) {
        Some(bytes) => Expected::Written(bytes),
        None => Expected::Panicked,
    }
}

/// The sections of a table, or the number of its first fault.
fn sections_of<'a>(
    payload: &'a [u8],
    edit: &'a [u8],
    rows: &[u32],
) -> Result<Vec<SourceInfoSection<'a>>, u32> {
    if rows.len() % WIDTH != 0 {
        return Err(17);
    }
    let mut sections: Vec<SourceInfoSection> = Vec::new();
    for row in rows.chunks(WIDTH) {
        let &[tag, side, a, b, c, d, e] = row else {
            unreachable!()
        };
        let bytes = match side {
            0 => payload,
            1 => edit,
            _ => return Err(17),
        };
        let part = |start: u32, length: u32| {
            let (start, length) = (start as usize, length as usize);
            bytes.get(start..start + length).ok_or(17u32)
        };
        let zero = |unused: &[u32]| {
            if unused.iter().all(|&n| n == 0) {
                Ok(())
            } else {
                Err(17u32)
            }
        };
        let begun = match tag {
            0 => {
                zero(&[side, b, c, d, e])?;
                plain(a)
            }
            1 => SourceInfoSectionData::SourceContents(SourceContents {
                aligned_size_in_bytes: a,
                flags: 0,
                data: SourceContentData::Zlib {
                    data: Cow::Borrowed(part(b, c)?),
                    count: d,
                    uncompressed_size_in_bytes: e,
                },
            }),
            2 => {
                zero(&[side, a, b, c, d, e])?;
                SourceInfoSectionData::SourceNames(SourceNames {
                    flags: 0,
                    entries: vec![],
                })
            }
            3 => {
                zero(&[side, a, b, c, d, e])?;
                SourceInfoSectionData::Arguments(SourceArguments {
                    flags: 0,
                    arguments: vec![],
                })
            }
            4 => {
                zero(&[d, e])?;
                if !(3..=65_535).contains(&a) || c % 4 != 0 {
                    return Err(17);
                }
                SourceInfoSectionData::Unknown {
                    section_type: a as u16,
                    data: Cow::Borrowed(part(b, c)?),
                }
            }
            // an entry of the section that is open, which the rows before it began
            5..=7 => {
                match (tag, sections.last_mut().map(|section| &mut section.data)) {
                    (
                        5,
                        Some(SourceInfoSectionData::SourceContents(SourceContents {
                            data: SourceContentData::Uncompressed(entries),
                            ..
                        })),
                    ) => {
                        zero(&[c, d, e])?;
                        let content = text(part(a, b)?)?;
                        entries.push(SourceContent { flags: 0, content });
                    }
                    (6, Some(SourceInfoSectionData::SourceNames(names))) => {
                        zero(&[d, e])?;
                        names.entries.push(SourceName {
                            flags: 0,
                            name: text(part(a, b)?)?,
                            content_size_in_bytes: c,
                        });
                    }
                    (7, Some(SourceInfoSectionData::Arguments(arguments))) => {
                        zero(&[e])?;
                        // both lie inside their side before either is read
                        let (name, value) = (part(a, b)?, part(c, d)?);
                        arguments.arguments.push(SourceArgument {
                            name: text(name)?,
                            value: text(value)?,
                        });
                    }
                    _ => return Err(17),
                }
                continue;
            }
            _ => return Err(17),
        };
        sections.push(SourceInfoSection {
            flags: 0,
            data: begun,
        });
    }
    Ok(sections)
}

/// A plain contents section without entries.
pub fn plain<'a>(field: u32) -> SourceInfoSectionData<'a> {
    SourceInfoSectionData::SourceContents(SourceContents {
        aligned_size_in_bytes: field,
        flags: 0,
        data: SourceContentData::Uncompressed(vec![]),
    })
}

fn text(bytes: &[u8]) -> Result<Cow<'_, str>, u32> {
    let text = core::str::from_utf8(bytes).map_err(|_| 11u32)?;
    if text.bytes().any(|byte| byte == 0) {
        return Err(12);
    }
    Ok(Cow::Borrowed(text))
}

fn up_to_4(length: u128) -> u128 {
    length.div_ceil(4) * 4
}

/// Whether sections are few and short enough.
pub fn fits(sections: &[SourceInfoSection]) -> bool {
    let mut total = 8;
    for section in sections {
        total += up_to_4(match &section.data {
            SourceInfoSectionData::SourceContents(contents) => {
                28 + match &contents.data {
                    SourceContentData::Uncompressed(entries) => entries
                        .iter()
                        .map(|entry| up_to_4(12 + entry.content.len() as u128 + 1))
                        .sum(),
                    SourceContentData::Zlib { data, .. } => data.len() as u128,
                }
            }
            SourceInfoSectionData::SourceNames(names) => {
                let bytes: u128 = names
                    .entries
                    .iter()
                    .map(|entry| up_to_4(16 + entry.name.len() as u128 + 1))
                    .sum();
                if bytes > 65_535 {
                    return false;
                }
                18 + bytes
            }
            SourceInfoSectionData::Arguments(arguments) => {
                let pairs = arguments.arguments.iter();
                20 + pairs
                    .map(|pair| (pair.name.len() + 1) as u128 + (pair.value.len() + 1) as u128)
                    .sum::<u128>()
            }
            SourceInfoSectionData::Unknown { data, .. } => 8 + data.len() as u128,
        });
    }
    sections.len() <= 65_535 && total <= LIMIT as u128
}
