//! The rows of a payload, printed with their texts.
use crate::table::Table;
use crate::text::{json_array, Field, Json};
use srci::Row;
use std::fmt::Display;
use std::io::{Result, Write};

pub const FIELDS: [&str; 10] = [
    "tag", "row", "side", "A", "B", "C", "D", "E", "text", "value",
];

/// A text of an accepted payload, which is UTF-8.
fn text(part: Option<&[u8]>) -> Option<&str> {
    std::str::from_utf8(part?).ok()
}

/// Each line begins with these fields.
pub fn table(
    payload: &[u8],
    rows: &[Row],
    first: &[&dyn Display],
    table: &mut Table,
) -> Result<()> {
    for row in rows {
        let Row {
            tag,
            side,
            a,
            b,
            c,
            d,
            e,
        } = row;
        let [text, value] = [row.text(payload, b""), row.value(payload, b"")]
            .map(|part| Field(text(part).unwrap_or_default()));
        table.line(
            first,
            &[tag, &row.kind(), side, a, b, c, d, e, &text, &value],
        )?;
    }
    Ok(())
}

/// An array of the rows, which are parted by line ends too where there are to be any.
pub fn json(payload: &[u8], rows: &[Row], line_end: &str, out: &mut dyn Write) -> Result<()> {
    json_array(out, line_end, rows.iter(), |out, row| {
        let Row {
            tag,
            side,
            a,
            b,
            c,
            d,
            e,
        } = row;
        let kind = row.kind();
        write!(out, "{{\"tag\":{tag},\"row\":\"{kind}\",\"side\":{side}")?;
        write!(out, ",\"a\":{a},\"b\":{b},\"c\":{c},\"d\":{d},\"e\":{e}")?;
        if let Some(text) = text(row.text(payload, b"")).map(Json) {
            write!(out, ",\"text\":{text}")?;
        }
        if let Some(value) = text(row.value(payload, b"")).map(Json) {
            write!(out, ",\"value\":{value}")?;
        }
        write!(out, "}}")
    })
}
