//! The sheet as a bot's author would write it over the published Rust: made of what is parsed, with `String`s, and read
//! with `split` into sections, which `write_payload` writes.
use crate::rust_made::{document, made, Made};
use crate::rust_write::{fits, plain};
use chunks::srci::{
    SourceArgument, SourceArguments, SourceContent, SourceContentData, SourceContents, SourceInfo,
    SourceInfoSection, SourceInfoSectionData, SourceName, SourceNames,
};
use chunks::ChunkWriter;
use std::borrow::Cow;

/// The sheet of a payload.
pub fn to_sheet(payload: &[u8]) -> Made {
    made(payload, |parsed| sheet_of(&parsed).into_bytes())
}

/// The lines of a parsed payload.
pub fn sheet_of(parsed: &SourceInfo) -> String {
    let mut sheet = String::new();
    for section in &parsed.sections {
        match &section.data {
            SourceInfoSectionData::SourceContents(contents) => {
                let field = contents.aligned_size_in_bytes;
                match &contents.data {
                    SourceContentData::Uncompressed(entries) => {
                        sheet += &format!("contents\t{field}\n");
                        for entry in entries {
                            sheet += &format!("content\t{}\n", escaped(&entry.content));
                        }
                    }
                    SourceContentData::Zlib {
                        data,
                        count,
                        uncompressed_size_in_bytes: size,
                    } => {
                        sheet += &format!("packed\t{field}\t{count}\t{size}\t{}\n", hex(data));
                    }
                }
            }
            SourceInfoSectionData::SourceNames(names) => {
                sheet += "names\n";
                for entry in &names.entries {
                    let size = entry.content_size_in_bytes;
                    sheet += &format!("name\t{size}\t{}\n", escaped(&entry.name));
                }
            }
            SourceInfoSectionData::Arguments(arguments) => {
                sheet += "arguments\n";
                for pair in &arguments.arguments {
                    let (name, value) = (escaped(&pair.name), escaped(&pair.value));
                    sheet += &format!("pair\t{name}\t{value}\n");
                }
            }
            SourceInfoSectionData::Unknown { section_type, data } => {
                sheet += &format!("unknown\t{section_type}\t{}\n", hex(data));
            }
        }
    }
    sheet
}

/// Backslashes first: those of the other escapes are not to be escaped.
fn escaped(text: &str) -> String {
    text.replace('\\', r"\\")
        .replace('\t', r"\t")
        .replace('\n', r"\n")
}

fn hex(bytes: &[u8]) -> String {
    let digit = |value: u8| char::from_digit(value.into(), 16).unwrap();
    let pairs = bytes
        .iter()
        .map(|byte| [digit(byte >> 4), digit(byte & 15)]);
    pairs.flatten().collect()
}

/// The payload of a sheet, or the two numbers of its refusal, whose first is one of 20, 11, 12 and 18.
pub fn from_sheet(sheet: &[u8]) -> Result<Vec<u8>, (u32, u32)> {
    read_sheet(sheet).map(|document| document.write_payload())
}

/// What a sheet says, as a document that fits a payload: `write_payload` panics on some that do not.
pub fn read_sheet(sheet: &[u8]) -> Result<SourceInfo<'_>, (u32, u32)> {
    let mut sections = Vec::new();
    let lines = sheet.split_inclusive(|&byte| byte == b'\n');
    for (number, line) in (1u64..).zip(lines) {
        // only the last can be without a newline
        let taken = match line.strip_suffix(b"\n") {
            Some(line) => take(&mut sections, line),
            None => Err(20),
        };
        taken.map_err(|refusal| match refusal {
            20 => (20, u32::try_from(number).unwrap_or(u32::MAX)),
            _ => (refusal, 0),
        })?;
    }
    if !fits(&sections) {
        return Err((18, 0));
    }
    Ok(document(sections))
}

/// Adds what a line says to the sections of the lines before it, or gives the number of its fault. No text is looked
/// into before all else of the line is right.
fn take<'a>(sections: &mut Vec<SourceInfoSection<'a>>, line: &'a [u8]) -> Result<(), u32> {
    let fields: Vec<&[u8]> = line.split(|&byte| byte == b'\t').collect();
    let open = sections.last_mut().map(|section| &mut section.data);
    let begun = match (&fields[..], open) {
        ([b"contents", field], _) => plain(number(field)?),
        ([b"packed", field, count, size, bytes], _) => {
            SourceInfoSectionData::SourceContents(SourceContents {
                aligned_size_in_bytes: number(field)?,
                flags: 0,
                data: SourceContentData::Zlib {
                    count: number(count)?,
                    uncompressed_size_in_bytes: number(size)?,
                    data: Cow::Owned(unhex(bytes)?),
                },
            })
        }
        ([b"names"], _) => SourceInfoSectionData::SourceNames(SourceNames {
            flags: 0,
            entries: vec![],
        }),
        ([b"arguments"], _) => SourceInfoSectionData::Arguments(SourceArguments {
            flags: 0,
            arguments: vec![],
        }),
        ([b"unknown", kind, bytes], _) => {
            let section_type = u16::try_from(number(kind)?).map_err(|_| 20u32)?;
            let data = unhex(bytes)?;
            if section_type < 3 || data.len() % 4 != 0 {
                return Err(20);
            }
            SourceInfoSectionData::Unknown {
                section_type,
                data: Cow::Owned(data),
            }
        }
        // the others are entries of the section that the lines before them left open
        (
            [b"content", content],
            Some(SourceInfoSectionData::SourceContents(SourceContents {
                data: SourceContentData::Uncompressed(entries),
                ..
            })),
        ) => {
            let content = checked(unescaped(content)?)?;
            entries.push(SourceContent { flags: 0, content });
            return Ok(());
        }
        ([b"name", size, name], Some(SourceInfoSectionData::SourceNames(names))) => {
            let content_size_in_bytes = number(size)?;
            names.entries.push(SourceName {
                flags: 0,
                name: checked(unescaped(name)?)?,
                content_size_in_bytes,
            });
            return Ok(());
        }
        ([b"pair", name, value], Some(SourceInfoSectionData::Arguments(arguments))) => {
            let (name, value) = (unescaped(name)?, unescaped(value)?);
            arguments.arguments.push(SourceArgument {
                name: checked(name)?,
                value: checked(value)?,
            });
            return Ok(());
        }
        _ => return Err(20),
    };
    sections.push(SourceInfoSection {
        flags: 0,
        data: begun,
    });
    Ok(())
}

/// `parse` takes a plus and zeros at the start too, so the number must give back the same digits.
fn number(field: &[u8]) -> Result<u32, u32> {
    let digits = core::str::from_utf8(field).map_err(|_| 20u32)?;
    match digits.parse::<u32>() {
        Ok(number) if number.to_string() == digits => Ok(number),
        _ => Err(20),
    }
}

fn unhex(field: &[u8]) -> Result<Vec<u8>, u32> {
    let digit = |byte: u8| match byte {
        b'0'..=b'9' => Ok(byte - b'0'),
        b'a'..=b'f' => Ok(byte - b'a' + 10),
        _ => Err(20u32),
    };
    let pairs = field.chunks(2).map(|pair| match *pair {
        [high, low] => Ok(digit(high)? << 4 | digit(low)?),
        _ => Err(20),
    });
    pairs.collect()
}

/// The bytes that a text's field stands for. Split at its backslashes, it has an empty part where two meet and where one
/// ends it.
fn unescaped(field: &[u8]) -> Result<Cow<'_, [u8]>, u32> {
    if !field.contains(&b'\\') {
        return Ok(Cow::Borrowed(field));
    }
    let mut parts = field.split(|&byte| byte == b'\\');
    let mut bytes = parts.next().unwrap_or_default().to_vec();
    while let Some(part) = parts.next() {
        let (meant, rest) = match part {
            [b't', rest @ ..] => (b'\t', rest),
            [b'n', rest @ ..] => (b'\n', rest),
            // a second backslash, unless the field ends here
            [] => (b'\\', parts.next().ok_or(20u32)?),
            _ => return Err(20),
        };
        bytes.push(meant);
        bytes.extend_from_slice(rest);
    }
    Ok(Cow::Owned(bytes))
}

fn checked(bytes: Cow<'_, [u8]>) -> Result<Cow<'_, str>, u32> {
    let text = match bytes {
        Cow::Borrowed(bytes) => core::str::from_utf8(bytes).ok().map(Cow::Borrowed),
        Cow::Owned(bytes) => String::from_utf8(bytes).ok().map(Cow::Owned),
    };
    match text {
        None => Err(11),
        Some(text) if text.contains('\0') => Err(12),
        Some(text) => Ok(text),
    }
}
