//! Pairs of payloads, and what their public copies and cards tell of them: two copies are equal just where the public
//! facts are, which are read off what the Rust parses; and there the calls that make copies and cards tell no more.
use crate::boundaries;
use crate::call::{card, make, public_copy, Job};
use crate::compare::fail;
use crate::damage::damage;
use crate::payloads::{any_payload, Random, GOOD};
use crate::rust_made::document;
use crate::rust_rows::catch;
use chunks::srci::{
    parse_srci, SourceArgument, SourceContent, SourceContentData, SourceInfoSection,
    SourceInfoSectionData, SourceName, SourceNames,
};
use chunks::ChunkWriter;
use std::borrow::Cow;
use std::panic::AssertUnwindSafe;

#[derive(PartialEq)]
enum Fact {
    Names(Vec<String>),
    Arguments(Vec<(String, String)>),
    Plain(usize),
    Packed(u32),
}

/// The public fact of a section; an unknown one has none.
fn fact(section: &SourceInfoSection) -> Option<Fact> {
    match &section.data {
        SourceInfoSectionData::SourceContents(contents) => Some(match &contents.data {
            SourceContentData::Uncompressed(entries) => Fact::Plain(entries.len()),
            SourceContentData::Zlib { count, .. } => Fact::Packed(*count),
        }),
        SourceInfoSectionData::SourceNames(names) => {
            let entries = names.entries.iter();
            Some(Fact::Names(entries.map(|e| e.name.to_string()).collect()))
        }
        SourceInfoSectionData::Arguments(arguments) => {
            let pairs = arguments.arguments.iter();
            let texts = pairs.map(|pair| (pair.name.to_string(), pair.value.to_string()));
            Some(Fact::Arguments(texts.collect()))
        }
        SourceInfoSectionData::Unknown { .. } => None,
    }
}

/// The public facts of a payload that the Rust accepts.
fn facts(payload: &[u8]) -> Option<Vec<Fact>> {
    let parsed = catch(|| parse_srci(payload))??;
    Some(parsed.sections.iter().filter_map(fact).collect())
}

/// What a job makes of a payload that the Rust accepts.
fn made(job: Job, payload: &[u8]) -> Vec<u8> {
    make(job, payload).unwrap_or_else(|number| fail(payload, 0, &format!("the number is {number}")))
}

#[derive(Default)]
pub struct PairTotals {
    secret: u64,
    public: u64,
    damaged: u64,
    others: u64,
    others_equal: u64,
    calls: u64,
}

impl PairTotals {
    /// Whether the copies of two payloads are equal, which the facts must be too. `None` where the Rust refuses one.
    fn compare_pair(&mut self, payload: &[u8], other: &[u8]) -> Option<bool> {
        let is_told = facts(payload)? == facts(other)?;
        let is_equal = made(public_copy, payload) == made(public_copy, other);
        if is_equal != is_told {
            let what = format!(
                "that the copies are equal is {is_equal}, the facts {is_told}; other: {other:02x?}"
            );
            fail(payload, payload.len(), &what);
        }
        if is_equal {
            self.compare_calls(public_copy, payload, other);
            self.compare_calls(card, payload, other);
        }
        Some(is_equal)
    }

    /// With outputs of one length, which hold different bytes, a job must give one answer for two payloads, and store
    /// the same bytes.
    fn compare_calls(&mut self, job: Job, payload: &[u8], other: &[u8]) {
        let bytes = made(job, payload);
        let needed = bytes.len();
        for lent in [needed + 5, needed, needed - 1, needed / 2, 0] {
            let (number, stored) = if lent < needed {
                (19, &[][..])
            } else {
                (0, &bytes[..])
            };
            for (payload, held) in [(payload, 0), (other, 0xFF)] {
                let mut output = vec![held; lent];
                let answer = job(payload, &mut output);
                let mut expected = stored.to_vec();
                expected.resize(lent, held);
                let told = (answer.number, answer.second as usize, output);
                if told != (number, needed, expected) {
                    fail(payload, lent, "payloads with equal facts differ in it");
                }
                self.calls += 1;
            }
        }
    }

    /// Each small payload, changed many times in one place.
    pub fn compare_small(&mut self, random: &mut Random) {
        for payload in boundaries::small() {
            for _ in 0..2_000 {
                self.compare_changed(random, &payload);
            }
        }
    }

    pub fn compare_random(&mut self, count: u64, random: &mut Random) {
        let mut last = any_payload(random, 0);
        for _ in 0..count {
            let payload = any_payload(random, 0);
            self.compare_changed(random, &payload);
            let mut damaged = payload.clone();
            damage(random, &mut damaged);
            if self.compare_pair(&payload, &damaged).is_some() {
                self.damaged += 1;
            }
            if let Some(is_equal) = self.compare_pair(&payload, &last) {
                self.others += 1;
                self.others_equal += u64::from(is_equal);
            }
            last = payload;
        }
    }

    /// A payload, and what a change of a secret and a change of a fact make of it.
    fn compare_changed(&mut self, random: &mut Random, payload: &[u8]) {
        let changed = change(payload, |sections| change_secret(random, sections));
        if payload == changed || self.compare_pair(payload, &changed) != Some(true) {
            fail(
                &changed,
                0,
                "a secret shows in the copy, or was not changed",
            );
        }
        self.secret += 1;
        let changed = change(payload, |sections| change_public(random, sections));
        if self.compare_pair(payload, &changed) != Some(false) {
            fail(
                &changed,
                0,
                "a public fact was changed, and the copy was not",
            );
        }
        self.public += 1;
    }

    pub fn print(&self) {
        println!("{} pairs with a secret changed, copies equal", self.secret);
        println!(
            "{} pairs with a fact changed, copies not equal",
            self.public
        );
        println!("{} pairs with damage that the Rust accepts", self.damaged);
        println!(
            "{} pairs of two payloads, {} of them with equal copies",
            self.others, self.others_equal
        );
        println!(
            "{} calls on pairs with equal copies, the same on both payloads",
            self.calls
        );
    }
}

/// The payload that the Rust writes of changed sections.
fn change(payload: &[u8], edit: impl FnOnce(&mut Vec<SourceInfoSection>)) -> Vec<u8> {
    let changed = catch(AssertUnwindSafe(|| {
        let mut sections = parse_srci(payload)?.sections;
        edit(&mut sections);
        Some(document(sections).write_payload())
    }));
    match changed.flatten() {
        Some(changed) => changed,
        None => fail(payload, 0, "the Rust does not write it with a change"),
    }
}

fn flip(random: &mut Random, number: &mut u32) {
    *number ^= 1 << random.below(32);
}

/// Another text: one with more at its end or its start, or none.
fn change_text(random: &mut Random, text: &mut Cow<str>) {
    let piece = core::str::from_utf8(GOOD[random.below(GOOD.len())]).unwrap();
    match random.below(3) {
        0 if !text.is_empty() => text.to_mut().clear(),
        1 => text.to_mut().insert_str(0, piece),
        _ => text.to_mut().push_str(piece),
    }
}

fn unknown<'a>(random: &mut Random) -> SourceInfoSection<'a> {
    let count = 4 * random.below(4);
    SourceInfoSection {
        flags: 0,
        data: SourceInfoSectionData::Unknown {
            section_type: 3 + random.below(65_533) as u16,
            data: Cow::Owned(random.bytes(count)),
        },
    }
}

/// Changes one thing that the copy must not tell. Every payload has one: the unknown sections.
fn change_secret(random: &mut Random, sections: &mut Vec<SourceInfoSection>) {
    let at = random.below(sections.len() + 1);
    match sections.get_mut(at).map(|section| &mut section.data) {
        Some(SourceInfoSectionData::SourceContents(contents)) => {
            match (&mut contents.data, random.below(4)) {
                (SourceContentData::Uncompressed(entries), 1..) if !entries.is_empty() => {
                    let entry = random.below(entries.len());
                    change_text(random, &mut entries[entry].content);
                }
                (SourceContentData::Zlib { data, .. }, 1) if !data.is_empty() => {
                    let byte = random.below(data.len());
                    data.to_mut()[byte] ^= 1 << random.below(8);
                }
                (SourceContentData::Zlib { data, .. }, 2) => data.to_mut().push(0),
                (
                    SourceContentData::Zlib {
                        uncompressed_size_in_bytes,
                        ..
                    },
                    3,
                ) => flip(random, uncompressed_size_in_bytes),
                _ => flip(random, &mut contents.aligned_size_in_bytes),
            }
        }
        Some(SourceInfoSectionData::SourceNames(names)) if !names.entries.is_empty() => {
            let entry = random.below(names.entries.len());
            flip(random, &mut names.entries[entry].content_size_in_bytes);
        }
        Some(SourceInfoSectionData::Unknown { section_type, data }) => match random.below(3) {
            0 => data.to_mut().extend_from_slice(&[0; 4]),
            1 => *section_type = if *section_type == 3 { 4 } else { 3 },
            _ => {
                sections.remove(at);
            }
        },
        _ => sections.insert(at, unknown(random)),
    }
}

/// Changes one public fact. Every payload has one: how many sections of a known kind there are.
fn change_public(random: &mut Random, sections: &mut Vec<SourceInfoSection>) {
    if random.one_in(4) && swap(random, sections) {
        return;
    }
    let at = random.below(sections.len() + 1);
    match sections.get_mut(at).map(|section| &mut section.data) {
        Some(SourceInfoSectionData::SourceContents(contents)) => match &mut contents.data {
            SourceContentData::Uncompressed(entries) => match random.below(3) {
                0 if !entries.is_empty() => {
                    entries.pop();
                }
                1 => {
                    let count = entries.len() as u32;
                    contents.data = packed(count);
                }
                _ => entries.push(empty_content()),
            },
            SourceContentData::Zlib { count, .. } => {
                if random.one_in(2) {
                    flip(random, count);
                } else {
                    let count = (*count).min(5) as usize;
                    let entries = std::iter::repeat_with(empty_content).take(count);
                    contents.data = SourceContentData::Uncompressed(entries.collect());
                }
            }
        },
        Some(SourceInfoSectionData::SourceNames(names)) => {
            let place = random.below(names.entries.len() + 1);
            match (names.entries.get_mut(place), random.below(4)) {
                (None, _) => names.entries.push(SourceName {
                    flags: 0,
                    name: Cow::Borrowed(""),
                    content_size_in_bytes: random.field(),
                }),
                (Some(_), 0) => {
                    names.entries.remove(place);
                }
                (Some(entry), _) => change_text(random, &mut entry.name),
            }
        }
        Some(SourceInfoSectionData::Arguments(arguments)) => {
            let place = random.below(arguments.arguments.len() + 1);
            match (arguments.arguments.get_mut(place), random.below(5)) {
                (None, _) => arguments.arguments.push(SourceArgument {
                    name: Cow::Borrowed(""),
                    value: Cow::Borrowed(""),
                }),
                (Some(_), 0) => {
                    arguments.arguments.remove(place);
                }
                // the texts stay as long together
                (Some(pair), 1) if !pair.name.is_empty() => {
                    let last = pair.name.to_mut().pop().unwrap();
                    pair.value.to_mut().insert(0, last);
                }
                (Some(pair), 2) => change_text(random, &mut pair.name),
                (Some(pair), _) => change_text(random, &mut pair.value),
            }
        }
        _ => sections.insert(
            at,
            SourceInfoSection {
                flags: 0,
                data: SourceInfoSectionData::SourceNames(SourceNames {
                    flags: 0,
                    entries: vec![],
                }),
            },
        ),
    }
}

fn empty_content<'a>() -> SourceContent<'a> {
    SourceContent {
        flags: 0,
        content: Cow::Borrowed(""),
    }
}

fn packed<'a>(count: u32) -> SourceContentData<'a> {
    SourceContentData::Zlib {
        data: Cow::Borrowed(&[]),
        count,
        uncompressed_size_in_bytes: 0,
    }
}

/// Swaps two sections of known kinds whose facts differ, if it meets such.
fn swap(random: &mut Random, sections: &mut [SourceInfoSection]) -> bool {
    if sections.is_empty() {
        return false;
    }
    let [one, two] = [0; 2].map(|_| random.below(sections.len()));
    match (fact(&sections[one]), fact(&sections[two])) {
        (Some(first), Some(second)) if first != second => {
            sections.swap(one, two);
            true
        }
        _ => false,
    }
}
