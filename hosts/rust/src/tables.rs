//! The version, the refusals and the rows, as hosts/tables has them; its `spread.py` writes this file.

/// The version of this package.
pub const VERSION: &str = "0.2.0";

/// The name of each refusal, what it means and what its second number is, by the numbers from 1.
#[rustfmt::skip]
pub(crate) const REFUSALS: [(&str, &str, &str); 20] = [
    ("oversize", "The payload has more than 26,214,400 bytes.", ""),
    ("ragged", "The payload has fewer than 8 bytes, or a length that is no multiple of 4.", ""),
    ("main header", "The main header tells another length than the payload's, or its flags are set.", ""),
    ("frame", "A section's size is missing, under 8, no multiple of 4, or past the end of the payload.", ""),
    ("flag", "Flags of a section, of its body or of an entry are set.", ""),
    ("short", "The header of a section's body or of an entry does not fit.", ""),
    ("body size", "A section's size is not what its headers and stored bytes make it.", ""),
    ("padding", "A padding byte is not zero.", ""),
    ("entry size", "An entry's text has size 0, its aligned size is wrong, or it runs past its section's bytes.", ""),
    ("open text", "The NUL that ends a text is missing.", ""),
    ("not UTF-8", "A text is not UTF-8 as RFC 3629 defines it.", ""),
    ("inner NUL", "A text has a NUL inside.", ""),
    ("leftover", "Bytes are left after the last section or entry that is counted.", ""),
    ("compression", "The compression of contents is neither 0 (plain) nor 1 (packed).", ""),
    ("unequal", "Plain contents tell an uncompressed size that is not that of their stored bytes.", ""),
    ("no rows", "The table of rows is too short.", "rows needed"),
    ("bad row", "A row breaks a rule of rows, or the table has a part of a row.", ""),
    ("won't fit", "There would be over 65,535 sections, 65,535 bytes of names in one, or 26,214,400 bytes.", ""),
    ("no room", "The output is too short.", "bytes needed"),
    ("bad line", "A line of a sheet is malformed or misplaced.", "line"),
];

/// What a row is called, by its tag, and what its numbers A to E are; those that have no name are 0.
#[rustfmt::skip]
pub const ROWS: [(&str, [&str; 5]); 8] = [
    ("plain contents", ["header field", "", "", "", ""]),
    ("packed contents", ["header field", "start", "length", "count", "uncompressed bytes"]),
    ("names", ["", "", "", "", ""]),
    ("arguments", ["", "", "", "", ""]),
    ("unknown", ["kind", "start", "length", "", ""]),
    ("content", ["start", "length", "", "", ""]),
    ("name", ["start", "length", "content size", "", ""]),
    ("pair", ["name start", "name length", "value start", "value length", ""]),
];
