//! Payloads: builders for well-formed ones, and random ones.

pub struct Random(u64);

impl Random {
    pub fn new(seed: u64) -> Self {
        Random(seed.wrapping_mul(0x9E37_79B9_7F4A_7C15) | 1)
    }

    pub fn next(&mut self) -> u32 {
        self.0 ^= self.0 << 13;
        self.0 ^= self.0 >> 7;
        self.0 ^= self.0 << 17;
        (self.0.wrapping_mul(0x2545_F491_4F6C_DD1D) >> 32) as u32
    }

    pub fn below(&mut self, bound: usize) -> usize {
        self.next() as usize % bound
    }

    pub fn one_in(&mut self, bound: usize) -> bool {
        self.below(bound) == 0
    }

    /// A number such as a field may hold: mostly any, now and then the least or the greatest.
    pub fn field(&mut self) -> u32 {
        match self.below(4) {
            0 => 0,
            1 => u32::MAX,
            _ => self.next(),
        }
    }

    pub fn bytes(&mut self, count: usize) -> Vec<u8> {
        (0..count).map(|_| self.next() as u8).collect()
    }
}

fn push_u32(out: &mut Vec<u8>, value: u32) {
    out.extend_from_slice(&value.to_le_bytes());
}

fn pad(out: &mut Vec<u8>) {
    while out.len() % 4 != 0 {
        out.push(0);
    }
}

/// A section around its body.
pub fn section(kind: u16, body: &[u8]) -> Vec<u8> {
    let mut out = vec![0; 6];
    out.extend_from_slice(&kind.to_le_bytes());
    out.extend_from_slice(body);
    pad(&mut out);
    let size = out.len() as u32;
    out[..4].copy_from_slice(&size.to_le_bytes());
    out
}

/// An entry: its aligned size, flags of 0, the size of its text, further fields, and the text.
fn push_entry(out: &mut Vec<u8>, fields: &[u32], text: &[u8]) {
    let mut entry = vec![0; 8];
    push_u32(&mut entry, text.len() as u32 + 1);
    for &field in fields {
        push_u32(&mut entry, field);
    }
    entry.extend_from_slice(text);
    entry.push(0);
    pad(&mut entry);
    let size = entry.len() as u32;
    entry[..4].copy_from_slice(&size.to_le_bytes());
    out.extend_from_slice(&entry);
}

fn contents_body(field: u32, packed: bool, stored: &[u8], unpacked: u32, count: u32) -> Vec<u8> {
    let mut out = Vec::new();
    push_u32(&mut out, field);
    out.extend_from_slice(&[0, 0, u8::from(packed), 0]);
    push_u32(&mut out, stored.len() as u32);
    push_u32(&mut out, unpacked);
    push_u32(&mut out, count);
    out.extend_from_slice(stored);
    out
}

pub fn contents(field: u32, texts: &[Vec<u8>]) -> Vec<u8> {
    let mut stored = Vec::new();
    for text in texts {
        push_entry(&mut stored, &[], text);
    }
    let size = stored.len() as u32;
    section(
        0,
        &contents_body(field, false, &stored, size, texts.len() as u32),
    )
}

pub fn packed(field: u32, stored: &[u8], unpacked: u32, count: u32) -> Vec<u8> {
    section(0, &contents_body(field, true, stored, unpacked, count))
}

/// Names with the sizes of their contents. The entries may take at most 65,535 bytes.
pub fn names(entries: &[(Vec<u8>, u32)]) -> Vec<u8> {
    let mut stored = Vec::new();
    for (name, size) in entries {
        push_entry(&mut stored, &[*size], name);
    }
    let mut out = vec![0; 4];
    push_u32(&mut out, entries.len() as u32);
    out.extend_from_slice(&u16::try_from(stored.len()).unwrap().to_le_bytes());
    out.extend_from_slice(&stored);
    section(1, &out)
}

pub fn arguments(pairs: &[(Vec<u8>, Vec<u8>)]) -> Vec<u8> {
    let mut stored = Vec::new();
    for (name, value) in pairs {
        stored.extend_from_slice(name);
        stored.push(0);
        stored.extend_from_slice(value);
        stored.push(0);
    }
    let mut out = vec![0; 4];
    push_u32(&mut out, stored.len() as u32);
    push_u32(&mut out, pairs.len() as u32);
    out.extend_from_slice(&stored);
    section(2, &out)
}

pub fn payload(sections: &[Vec<u8>]) -> Vec<u8> {
    let mut out = vec![0; 6];
    out.extend_from_slice(&u16::try_from(sections.len()).unwrap().to_le_bytes());
    for section in sections {
        out.extend_from_slice(section);
    }
    set_length(&mut out);
    out
}

/// Makes the length field right.
pub fn set_length(payload: &mut [u8]) {
    let length = payload.len() as u32;
    if let Some(field) = payload.get_mut(..4) {
        field.copy_from_slice(&length.to_le_bytes());
    }
}

pub const GOOD: [&[u8]; 16] = [
    b"a",
    b"ab",
    b"main",
    b"shader.hlsl",
    b"/",
    b"\x01",
    b"\x7F",
    b"\xC2\x80",
    b"\xDF\xBF",
    b"\xE0\xA0\x80",
    b"\xED\x9F\xBF",
    b"\xEE\x80\x80",
    b"\xEF\xBF\xBF",
    b"\xF0\x90\x80\x80",
    b"\xF1\x80\x80\x80",
    b"\xF4\x8F\xBF\xBF",
];

pub const BAD: [&[u8]; 14] = [
    b"\x00",
    b"\x80",
    b"\xBF",
    b"\xC0\x80",
    b"\xC1\xBF",
    b"\xC2",
    b"\xE0\x9F\xBF",
    b"\xE1\x80",
    b"\xED\xA0\x80",
    b"\xF0\x8F\xBF\xBF",
    b"\xF1\x80\x80",
    b"\xF4\x90\x80\x80",
    b"\xF5\x80\x80\x80",
    b"\xFF",
];

/// A text, of good pieces mostly; now and then a long one, or one with a NUL or ill-formed bytes.
fn text(random: &mut Random, bad_one_in: usize) -> Vec<u8> {
    let mut out = Vec::new();
    let pieces = if random.one_in(12) { 60 } else { 4 };
    for _ in 0..random.below(pieces) {
        out.extend_from_slice(GOOD[random.below(GOOD.len())]);
    }
    if bad_one_in != 0 && random.one_in(bad_one_in) {
        let piece = BAD[random.below(BAD.len())];
        let at = random.below(out.len() + 1);
        out.splice(at..at, piece.iter().copied());
    }
    out
}

fn any_section(random: &mut Random, bad_one_in: usize) -> Vec<u8> {
    match random.below(5) {
        0 => {
            let texts: Vec<_> = (0..random.below(4))
                .map(|_| text(random, bad_one_in))
                .collect();
            contents(random.field(), &texts)
        }
        1 => {
            let count = random.below(10);
            let stored = random.bytes(count);
            packed(random.field(), &stored, random.field(), random.field())
        }
        2 => {
            let entries: Vec<_> = (0..random.below(4))
                .map(|_| (text(random, bad_one_in), random.field()))
                .collect();
            names(&entries)
        }
        3 => {
            let pairs: Vec<_> = (0..random.below(5))
                .map(|_| (text(random, bad_one_in), text(random, bad_one_in)))
                .collect();
            arguments(&pairs)
        }
        _ => {
            let kind = [3, 4, 0xFF, 0x100, 0x101, 0x8000, u16::MAX][random.below(7)];
            let count = 4 * random.below(5);
            section(kind, &random.bytes(count))
        }
    }
}

/// A payload whose layout is right. One text in so many is not; 0 for none.
pub fn any_payload(random: &mut Random, bad_one_in: usize) -> Vec<u8> {
    let count = if random.one_in(20) { 12 } else { 4 };
    let sections: Vec<_> = (0..random.below(count))
        .map(|_| any_section(random, bad_one_in))
        .collect();
    payload(&sections)
}
