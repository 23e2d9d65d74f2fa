//! The public facts of a payload, walked in its public copy, so that nothing else can be told.
use crate::frame::{frames, Frame, Names, Pairs};
use crate::{public_copy, Refusal, Row, ROWS};
use std::fmt::{self, Debug, Formatter};
use std::iter::Take;

/// All that a card may show of a payload, up to a bound: what [`facts()`] answers.
#[derive(Clone)]
pub struct Facts {
    copy: Vec<u8>,
    most: usize,
}

/// A section with its public facts.
#[derive(Clone, Debug)]
#[non_exhaustive]
pub struct Section<'a> {
    /// [`Row::PLAIN_CONTENTS`], [`Row::PACKED_CONTENTS`], [`Row::NAMES`] or [`Row::ARGUMENTS`].
    pub tag: u32,
    /// How many files, names or pairs it counts; of packed contents as it says itself.
    pub count: u32,
    /// Its names, as far as the bound allows; none but in a section of names.
    pub names: Take<Names<'a>>,
    /// Its pairs, as far as the bound allows; none but in a section of arguments.
    pub pairs: Take<Pairs<'a>>,
}

impl Section<'_> {
    /// What it is called, as a row is.
    pub fn kind(&self) -> &'static str {
        ROWS[self.tag as usize].0
    }
}

/// All that a card may show of a payload: its known sections with their counts, names and pairs, of which at most `most`
/// are told in all. Whatever is posted, it takes the time and memory of the public copy, and then what the bound allows.
///
/// ```
/// // a payload with the file `a` and the compiler argument `E`, `main`
/// let payload = b"\x4c\0\0\0\0\0\x02\0\
///     \x28\0\0\0\0\0\x01\0\0\0\0\0\x01\0\0\0\x14\0\x14\0\0\0\0\0\0\0\x02\0\0\0\x05\0\0\0a\0\0\0\0\0\
///     \x1c\0\0\0\0\0\x02\0\0\0\0\0\x07\0\0\0\x01\0\0\0E\0main\0\0";
/// let facts = srci::facts(payload, 1000)?;
/// let told: Vec<_> = facts.sections().map(|section| (section.kind(), section.count)).collect();
/// assert_eq!(told, [("names", 1), ("arguments", 1)]);
/// let pairs: Vec<_> = facts.sections().flat_map(|section| section.pairs).collect();
/// assert_eq!(pairs, [("E", "main")]);
/// assert_eq!(facts.left_out(), 0);
///
/// // both sections and the name
/// assert_eq!(srci::facts(payload, 3)?.left_out(), 1);
/// # Ok::<(), srci::Refusal>(())
/// ```
///
/// # Errors
///
/// A refusal from 1 to 15, where the payload is not accepted.
pub fn facts(payload: &[u8], most: usize) -> Result<Facts, Refusal> {
    Ok(Facts {
        copy: public_copy(payload)?,
        most,
    })
}

impl Facts {
    /// The sections in their order, as far as the bound allows. A section counts against the bound before its entries.
    pub fn sections(&self) -> impl Iterator<Item = Section<'_>> {
        let mut left = self.most;
        frames(&self.copy).map_while(move |frame| {
            left = left.checked_sub(1)?;
            let entries = entries(frame).min(left);
            left -= entries;
            Some(Section {
                tag: tag(frame),
                count: frame.count(),
                names: frame.names().take(entries),
                pairs: frame.pairs().take(entries),
            })
        })
    }

    /// How many sections, names and pairs are not told because of the bound.
    pub fn left_out(&self) -> usize {
        let all: usize = frames(&self.copy).map(|frame| 1 + entries(frame)).sum();
        all.saturating_sub(self.most)
    }
}

impl Debug for Facts {
    fn fmt(&self, f: &mut Formatter) -> fmt::Result {
        f.debug_struct("Facts")
            .field("most", &self.most)
            .field("left_out", &self.left_out())
            .finish_non_exhaustive()
    }
}

/// How many entries of a section are public.
fn entries(frame: Frame) -> usize {
    match frame.kind {
        Frame::CONTENTS => 0,
        _ => frame.count() as usize,
    }
}

fn tag(frame: Frame) -> u32 {
    match frame.kind {
        Frame::CONTENTS if frame.is_packed() => Row::PACKED_CONTENTS,
        Frame::CONTENTS => Row::PLAIN_CONTENTS,
        Frame::NAMES => Row::NAMES,
        _ => Row::ARGUMENTS,
    }
}

/// The names of a payload's files in their order, at most `most` of them, and how many are left out.
///
/// ```
/// let names = srci::Row { tag: srci::Row::NAMES, ..srci::Row::default() };
/// let name = srci::Row { tag: srci::Row::NAME, side: srci::Row::EDIT, a: 0, b: 8, ..names };
/// let payload = srci::write(b"", b"sky.hlsl", &[names, name, name])?;
/// assert_eq!(srci::names(&payload, 1)?, (vec!["sky.hlsl".to_string()], 1));
/// # Ok::<(), srci::Refusal>(())
/// ```
///
/// # Errors
///
/// A refusal from 1 to 15, where the payload is not accepted.
pub fn names(payload: &[u8], most: usize) -> Result<(Vec<String>, usize), Refusal> {
    let copy = public_copy(payload)?;
    let all: usize = frames(&copy)
        .filter(|frame| frame.kind == Frame::NAMES)
        .map(entries)
        .sum();
    let told = frames(&copy).flat_map(Frame::names).take(most);
    Ok((told.map(str::to_string).collect(), all.saturating_sub(most)))
}
