//! The payloads at the edges: cut short, one off, at the limits.
use crate::compare::Compare;
use crate::payloads::{arguments, contents, names, packed, payload, section, set_length};

pub const LIMIT: usize = 26_214_400;

pub fn compare_all(totals: &mut impl Compare) {
    samples(totals);
    for payload in small() {
        totals.compare(&payload);
        cut_short(totals, &payload);
        fields_changed(totals, &payload);
    }
    two_byte_names(totals);
    marked_texts(totals);
    at_the_limit(totals);
}

fn bytes(text: &[u8]) -> Vec<u8> {
    text.to_vec()
}

/// Small well-formed payloads, of every kind of section, whose texts have every padding.
pub fn small() -> Vec<Vec<u8>> {
    let text = |n: usize| b"abcdefgh"[..n].to_vec();
    let mut all = vec![
        payload(&[]),
        payload(&[contents(0, &[])]),
        payload(&[packed(9, b"", 900, 5)]),
        payload(&[packed(0, b"xyz", u32::MAX, u32::MAX)]),
        payload(&[names(&[])]),
        payload(&[arguments(&[])]),
        payload(&[section(3, b"")]),
        payload(&[section(u16::MAX, b"12345678")]),
    ];
    for n in 0..5 {
        all.push(payload(&[contents(7, &[text(n)])]));
        all.push(payload(&[names(&[(text(n), u32::MAX)])]));
        all.push(payload(&[arguments(&[(text(n), text(1))])]));
    }
    all.push(payload(&[contents(0, &[text(1), text(0), text(4)])]));
    all.push(payload(&[names(&[
        (text(1), 0),
        (text(0), 5),
        (text(4), 1),
    ])]));
    all.push(payload(&[arguments(&[
        (text(0), text(0)),
        (text(1), text(2)),
        (text(0), text(0)),
    ])]));
    all.push(payload(&[
        arguments(&[(bytes(b"E"), bytes(b"main"))]),
        section(4, b"1234"),
        names(&[(bytes("é.hlsl".as_bytes()), 4)]),
        packed(1, b"p", 2, 3),
        contents(0, &[bytes("漢字".as_bytes())]),
        section(3, b""),
    ]));
    all
}

/// Every prefix, as it is and with its length field made right.
fn cut_short(totals: &mut impl Compare, payload: &[u8]) {
    for length in 0..payload.len() {
        let mut cut = payload[..length].to_vec();
        totals.compare(&cut);
        set_length(&mut cut);
        totals.compare(&cut);
    }
}

/// At every place, the byte and the two and four bytes from there on, each changed to what lies at an edge.
fn fields_changed(totals: &mut impl Compare, payload: &[u8]) {
    for at in 0..payload.len() {
        for width in [1, 2, 4] {
            let Some(field) = payload.get(at..at + width) else {
                continue;
            };
            let mut old = [0; 4];
            old[..width].copy_from_slice(field);
            let old = u32::from_le_bytes(old);
            for new in [
                0,
                1,
                2,
                3,
                0x7F,
                0x80,
                0x100,
                0x7FFF_FFFF,
                0x8000_0000,
                u32::MAX - 7,
                u32::MAX - 3,
                u32::MAX,
                old.wrapping_add(1),
                old.wrapping_sub(1),
                old.wrapping_add(4),
                old.wrapping_sub(4),
                old.wrapping_add(0x100),
            ] {
                let mut changed = payload.to_vec();
                changed[at..at + width].copy_from_slice(&new.to_le_bytes()[..width]);
                if changed != payload {
                    totals.compare(&changed);
                }
            }
        }
    }
}

/// Every two bytes as a name.
fn two_byte_names(totals: &mut impl Compare) {
    for first in 0..=255 {
        for second in 0..=255 {
            totals.compare(&payload(&[names(&[(vec![first, second], 3)])]));
        }
    }
}

/// Texts of every length up to 72, with something odd at every place: code that takes bytes in blocks
/// must find it in each place of a block.
fn marked_texts(totals: &mut impl Compare) {
    let marks: [&[u8]; 6] = [
        b"\0",
        b"\x80",
        b"\xFF",
        "é".as_bytes(),
        "漢".as_bytes(),
        b"\xE6\xBC",
    ];
    for length in 0..72 {
        for at in 0..=length {
            for mark in marks {
                let mut text = vec![b'x'; length];
                text.splice(at..at, mark.iter().copied());
                totals.compare(&payload(&[contents(0, &[text.clone()])]));
                totals.compare(&payload(&[names(&[(text.clone(), 1)])]));
                totals.compare(&payload(&[arguments(&[(text.clone(), vec![])])]));
                totals.compare(&payload(&[arguments(&[(vec![], text)])]));
            }
        }
    }
}

/// The largest payloads, and those that are longer.
fn at_the_limit(totals: &mut impl Compare) {
    // one content of 26,214,351 bytes makes a payload of the greatest length
    let largest = payload(&[contents(0, &[vec![b'a'; LIMIT - 49]])]);
    assert_eq!(largest.len(), LIMIT);
    totals.compare(&largest);
    totals.compare(&payload(&[section(3, &vec![1; LIMIT - 16])]));
    // the Rust accepts the next length
    totals.compare_refused(&payload(&[section(3, &vec![1; LIMIT - 12])]), 1);
    totals.compare_refused(&vec![0; LIMIT + 1], 1);
    // the greatest entry bytes, 65,532, in one name and in many
    totals.compare(&payload(&[names(&[(vec![b'n'; 65_515], 1)])]));
    totals.compare(&payload(&[names(&vec![(vec![b'n'; 3], 1); 3_276])]));
    // the greatest section count
    totals.compare(&payload(&vec![names(&[]); 65_535]));
    totals.compare(&payload(&vec![section(3, b""); 65_535]));
}

/// Document 01's samples of reading.
fn samples(totals: &mut impl Compare) {
    totals.compare_refused(b"", 2);
    totals.compare_refused(&[0; 7], 2);
    totals.compare(&[8, 0, 0, 0, 0, 0, 0, 0]);
    let mut empty_names = payload(&[names(&[])]);
    assert_eq!(empty_names.len(), 28);
    totals.compare(&empty_names);
    empty_names[27] = 1;
    totals.compare_refused(&empty_names, 8);
    let mut empty_content = payload(&[contents(0, &[vec![]])]);
    assert_eq!(empty_content.len(), 52);
    totals.compare(&empty_content);
    empty_content[44] = 0;
    totals.compare_refused(&empty_content, 9);
    totals.compare(&payload(&[packed(0, b"", 900, 5)]));
    for (name, number) in [
        (&b"\xC0\x80"[..], 11),
        (b"\xED\xA0\x80", 11),
        (b"\xF4\x90\x80\x80", 11),
        (b"a\0b", 12),
    ] {
        totals.compare_refused(&payload(&[names(&[(bytes(name), 0)])]), number);
    }
    totals.compare(&payload(&[names(&[(bytes(b"\xEF\xBF\xBF"), 0)])]));
    totals.compare(&payload(&[
        names(&[(bytes(b"a"), 5)]),
        arguments(&[(bytes(b"E"), bytes(b"main"))]),
    ]));
}
