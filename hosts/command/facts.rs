//! All that a card may show, printed.
use crate::table::Table;
use crate::text::{json_array, Field, Json};
use srci::{Facts, Row};
use std::fmt::Display;
use std::io::{Result, Write};

pub const FIELDS: [&str; 5] = ["section", "fact", "count", "name", "value"];

/// Each line begins with these fields.
pub fn table(facts: &Facts, first: &[&dyn Display], table: &mut Table) -> Result<()> {
    for (place, section) in facts.sections().enumerate() {
        table.line(first, &[&place, &section.kind(), &section.count, &"", &""])?;
        for name in section.names {
            table.line(
                first,
                &[
                    &place,
                    &srci::ROWS[Row::NAME as usize].0,
                    &"",
                    &Field(name),
                    &"",
                ],
            )?;
        }
        for (name, value) in section.pairs {
            let kind = srci::ROWS[Row::PAIR as usize].0;
            table.line(first, &[&place, &kind, &"", &Field(name), &Field(value)])?;
        }
    }
    Ok(())
}

/// An array of the sections, which are parted by line ends too where there are to be any.
pub fn json(facts: &Facts, line_end: &str, out: &mut dyn Write) -> Result<()> {
    json_array(out, line_end, facts.sections(), |out, section| {
        let (kind, count) = (section.kind(), section.count);
        write!(out, "{{\"section\":\"{kind}\",\"count\":{count}")?;
        match section.tag {
            Row::NAMES => {
                write!(out, ",\"names\":")?;
                json_array(out, "", section.names, |out, name| {
                    write!(out, "{}", Json(name))
                })?;
            }
            Row::ARGUMENTS => {
                write!(out, ",\"pairs\":")?;
                json_array(out, "", section.pairs, |out, (name, value)| {
                    write!(out, "{{\"name\":{},\"value\":{}}}", Json(name), Json(value))
                })?;
            }
            _ => {}
        }
        write!(out, "}}")
    })
}
