//! The tables at the edges: document 01's samples, one off in every number, at the limits, far past them.
use crate::boundaries::LIMIT;
use crate::compare::WIDTH;
use crate::write::WriteTotals;

const NAMES: [u32; WIDTH] = [2, 0, 0, 0, 0, 0, 0];
const PLAIN: [u32; WIDTH] = [0, 0, 0, 0, 0, 0, 0];
const ARGUMENTS: [u32; WIDTH] = [3, 0, 0, 0, 0, 0, 0];

fn content(side: u32, length: usize) -> [u32; WIDTH] {
    [5, side, 0, length as u32, 0, 0, 0]
}

fn name(side: u32, length: usize) -> [u32; WIDTH] {
    [6, side, 0, length as u32, 1, 0, 0]
}

fn pair(side: u32, name: usize, value: usize) -> [u32; WIDTH] {
    [7, side, 0, name as u32, 0, value as u32, 0]
}

fn packed(side: u32, length: usize) -> [u32; WIDTH] {
    [1, side, 0, 0, length as u32, 5, 900]
}

fn unknown(side: u32, length: usize) -> [u32; WIDTH] {
    [4, side, 3, 0, length as u32, 0, 0]
}

pub fn compare_all(totals: &mut WriteTotals) {
    samples(totals);
    numbers_changed(totals);
    two_byte_texts(totals);
    at_the_limits(totals);
    sums(totals);
    long_sides(totals);
}

fn must(totals: &mut WriteTotals, number: u32, payload: &[u8], edit: &[u8], rows: &[[u32; WIDTH]]) {
    let got = totals.compare(payload, edit, &rows.concat());
    assert_eq!(
        got, number,
        "the rules give another number than the document"
    );
}

/// Document 01's samples of writing.
fn samples(totals: &mut WriteTotals) {
    must(totals, 0, b"", b"", &[]);
    must(totals, 0, b"", b"", &[NAMES]);
    must(totals, 0, b"", b"", &[PLAIN, content(0, 0)]);
    must(totals, 0, b"", b"", &[packed(0, 0)]);
    must(totals, 17, b"", b"", &[[4, 0, 2, 0, 0, 0, 0]]);
    must(totals, 17, b"abcd", b"", &[unknown(0, 3)]);
    must(totals, 11, b"\xC0\x80", b"", &[NAMES, name(0, 2)]);
    must(totals, 11, b"", b"\xED\xA0\x80", &[NAMES, name(1, 3)]);
    must(totals, 11, b"\xF4\x90\x80\x80", b"", &[NAMES, name(0, 4)]);
    must(totals, 0, b"\xEF\xBF\xBF", b"", &[NAMES, name(0, 3)]);
    must(totals, 12, b"a\0b", b"", &[NAMES, name(0, 3)]);
    must(totals, 12, b"a\0b", b"", &[ARGUMENTS, pair(0, 1, 3)]);
    // name before value, 11 before 12 in one text, an earlier row before a later one
    must(
        totals,
        12,
        b"\0\xFF",
        b"",
        &[ARGUMENTS, [7, 0, 0, 1, 1, 1, 0]],
    );
    must(
        totals,
        11,
        b"\0\xFF",
        b"",
        &[ARGUMENTS, [7, 0, 1, 1, 0, 1, 0]],
    );
    must(totals, 11, b"\0\xFF", b"", &[NAMES, name(0, 2)]);
    must(totals, 12, b"\0", b"", &[NAMES, name(0, 1), [9; 7]]);
    must(
        totals,
        17,
        b"\0",
        b"",
        &[NAMES, [6, 0, 0, 1, 0, 1, 0], name(0, 1)],
    );
    // a pair's value outside its side comes before its name's fault
    must(totals, 17, b"\xFF", b"", &[ARGUMENTS, pair(0, 1, 2)]);
    // a table that is no whole rows comes first of all
    for extra in 1..WIDTH {
        let mut rows = [NAMES, name(0, 1)].concat();
        rows.extend(vec![0; extra]);
        assert_eq!(totals.compare(b"\0", b"", &rows), 17);
        assert_eq!(totals.compare(b"", b"", &rows[2 * WIDTH..]), 17);
    }
}

/// In a small table with every tag and both sides, each number changed to what lies at an edge, each row
/// moved to every other place, and each row left out.
fn numbers_changed(totals: &mut WriteTotals) {
    let payload = "abcé\u{6F22}z0123".as_bytes();
    let edit = "\u{1F600}xy".as_bytes();
    let table = [
        [0, 0, 77, 0, 0, 0, 0],
        [5, 0, 0, 5, 0, 0, 0],
        [5, 1, 0, 6, 0, 0, 0],
        [1, 0, 9, 1, 7, 3, 4],
        [1, 1, 9, 1, 2, 3, 4],
        [2, 0, 0, 0, 0, 0, 0],
        [6, 0, 5, 3, 8, 0, 0],
        [6, 1, 6, 0, 8, 0, 0],
        [3, 0, 0, 0, 0, 0, 0],
        [7, 0, 0, 3, 13, 0, 0],
        [7, 1, 0, 4, 4, 2, 0],
        [4, 0, 3, 9, 4, 0, 0],
        [4, 1, 65_535, 2, 4, 0, 0],
        [2, 0, 0, 0, 0, 0, 0],
    ];
    must(totals, 0, payload, edit, &table);
    for at in 0..table.len() {
        for number in 0..WIDTH {
            let old = table[at][number];
            let edges = (0..20).chain([
                255,
                256,
                65_535,
                65_536,
                65_539,
                0x7FFF_FFFF,
                0x8000_0000,
                u32::MAX - 13,
                u32::MAX - 5,
                u32::MAX - 3,
                u32::MAX - 1,
                u32::MAX,
                old.wrapping_add(1),
                old.wrapping_sub(1),
                old.wrapping_add(256),
                0u32.wrapping_sub(old),
                // so that the sum with the number beside it passes 32 bits
                0u32.wrapping_sub(table[at][number - number.min(1)]),
                0u32.wrapping_sub(table[at][(number + 1).min(6)]),
            ]);
            for new in edges {
                let mut changed = table;
                changed[at][number] = new;
                totals.compare(payload, edit, &changed.concat());
            }
        }
        for to in 0..table.len() {
            let mut moved = table.to_vec();
            let row = moved.remove(at);
            totals.compare(payload, edit, &moved.concat());
            moved.insert(to, row);
            totals.compare(payload, edit, &moved.concat());
        }
    }
    // both sides cut short under the same rows
    for length in 0..payload.len() {
        totals.compare(&payload[..length], edit, &table.concat());
    }
    for length in 0..edit.len() {
        totals.compare(payload, &edit[..length], &table.concat());
    }
}

/// Every two bytes as a text of each kind of entry.
fn two_byte_texts(totals: &mut WriteTotals) {
    for first in 0..=255 {
        for second in 0..=255 {
            let bytes = [first, second];
            totals.compare(&bytes, b"", &[PLAIN, content(0, 2)].concat());
            totals.compare(b"", &bytes, &[NAMES, name(1, 2)].concat());
            totals.compare(&bytes, b"", &[ARGUMENTS, [7, 0, 0, 1, 1, 1, 0]].concat());
        }
    }
}

fn at_the_limits(totals: &mut WriteTotals) {
    // sections
    must(totals, 0, b"", b"", &vec![NAMES; 65_535]);
    must(totals, 18, b"", b"", &vec![NAMES; 65_536]);
    must(totals, 18, b"", b"", &vec![unknown(0, 0); 65_536 + 1]);
    // 17, 11 and 12 come before 18
    let mut many = vec![NAMES; 65_536];
    many.push(name(0, 1));
    must(totals, 11, b"\xFF", b"", &many);
    must(totals, 12, b"\0", b"", &many);
    must(totals, 17, b"", b"", &many);
    // entry bytes
    let long = vec![b'n'; 65_600];
    must(totals, 0, &long, b"", &[NAMES, name(0, 65_515)]);
    for length in 65_516..65_600 {
        must(totals, 18, &long, b"", &[NAMES, name(0, length)]);
    }
    for count in [3_276, 3_277, 2 * 3_277, 214_748, 214_749] {
        let mut rows = vec![NAMES];
        rows.extend(vec![name(1, 3); count]);
        let number = if count == 3_276 { 0 } else { 18 };
        must(totals, number, b"", &long, &rows);
    }
    // payload bytes
    let most = vec![b'a'; LIMIT];
    for side in [0, 1] {
        let (payload, edit) = if side == 0 {
            (&most[..], &b""[..])
        } else {
            (&b""[..], &most[..])
        };
        for (rows, free) in [
            (vec![PLAIN, content(side, 0)], 49),
            (vec![ARGUMENTS, pair(side, 0, 0)], 30),
            (vec![packed(side, 0)], 36),
            (vec![unknown(side, 0)], 16),
        ] {
            for length in [LIMIT - free, LIMIT - free + 1, LIMIT - free + 4, LIMIT] {
                let mut rows = rows.clone();
                let row = rows.last_mut().unwrap();
                let at = if row[0] == 5 || row[0] == 7 { 3 } else { 4 };
                row[at] = length as u32;
                let number = match (length == LIMIT - free, row[0]) {
                    (true, _) => 0,
                    (false, 4) if length % 4 != 0 => 17,
                    _ => 18,
                };
                must(totals, number, payload, edit, &rows);
            }
        }
    }
    // the most rows that can be written
    let mut pairs = vec![ARGUMENTS];
    pairs.extend(vec![pair(0, 0, 0); (LIMIT - 28) / 2]);
    must(totals, 0, b"", b"", &pairs);
    pairs.push(pair(0, 0, 0));
    must(totals, 18, b"", b"", &pairs);
}

/// Many rows that name one long text: sums that pass 16 and 32 bits, some by little.
fn sums(totals: &mut WriteTotals) {
    let long = vec![b'a'; 1 << 25];
    let all = |section: [u32; WIDTH], entry: [u32; WIDTH], count: usize| {
        let mut rows = vec![section];
        rows.extend(vec![entry; count]);
        rows
    };
    let quarter = 25_000_000;
    must(
        totals,
        18,
        &long,
        b"",
        &all(PLAIN, content(0, quarter), 200),
    );
    must(totals, 18, &long, b"", &all(NAMES, name(0, quarter), 200));
    must(
        totals,
        18,
        b"",
        &long,
        &all(ARGUMENTS, pair(1, quarter, quarter), 100),
    );
    // entries of 2^25 bytes, 128 of them: 2^32, which is 0 in 32 bits
    must(
        totals,
        18,
        &long,
        b"",
        &all(PLAIN, content(0, (1 << 25) - 13), 128),
    );
    must(
        totals,
        18,
        &long,
        b"",
        &all(NAMES, name(0, (1 << 25) - 17), 128),
    );
    must(
        totals,
        18,
        b"",
        &long,
        &all(ARGUMENTS, pair(1, (1 << 24) - 1, (1 << 24) - 1), 128),
    );
    // sections of 2^25 bytes
    must(
        totals,
        18,
        &long,
        b"",
        &vec![packed(0, (1 << 25) - 28); 128],
    );
    must(
        totals,
        18,
        b"",
        &long,
        &vec![unknown(1, (1 << 25) - 8); 128],
    );
    // 2^32 less the main header, so that the payload's length is 0 in 32 bits
    let mut rows = vec![unknown(0, (1 << 25) - 8); 127];
    rows.push(unknown(0, (1 << 25) - 16));
    must(totals, 18, &long, b"", &rows);
}

/// Sides longer than 2^32 bytes: starts and lengths whose sum passes 32 bits, inside and outside. Most of
/// the bytes are zeros that are never read.
fn long_sides(totals: &mut WriteTotals) {
    let mut long = vec![0; (1 << 32) + 8];
    let end = long.len();
    long[end - 16..].copy_from_slice(b"0123456789abcdef");
    let top = u32::MAX - 7;
    // start 2^32 - 8, so 16 bytes are left
    must(totals, 0, &long, b"", &[[4, 0, 3, top, 16, 0, 0]]);
    must(totals, 17, &long, b"", &[[4, 0, 3, top, 20, 0, 0]]);
    must(totals, 0, b"", &long, &[NAMES, [6, 1, top, 16, 0, 0, 0]]);
    must(totals, 17, b"", &long, &[NAMES, [6, 1, top, 17, 0, 0, 0]]);
    must(
        totals,
        0,
        b"",
        &long,
        &[ARGUMENTS, [7, 1, u32::MAX, 9, u32::MAX, 0, 0]],
    );
    must(
        totals,
        17,
        b"",
        &long,
        &[ARGUMENTS, [7, 1, u32::MAX, 9, u32::MAX, 10, 0]],
    );
    must(
        totals,
        0,
        b"",
        &long,
        &[packed(0, 0), [1, 1, 0, top + 1, 15, 0, 0]],
    );
    must(
        totals,
        17,
        b"",
        &long,
        &[packed(0, 0), [1, 1, 0, u32::MAX, u32::MAX, 0, 0]],
    );
    // lengths near 2^32
    for length in [
        u32::MAX,
        u32::MAX - 3,
        u32::MAX - 7,
        u32::MAX - 27,
        u32::MAX - 35,
    ] {
        must(totals, 18, &long, b"", &[packed(0, length as usize)]);
        must(
            totals,
            18,
            b"",
            &long,
            &vec![packed(1, length as usize); 1_000_000],
        );
    }
    must(
        totals,
        18,
        &long,
        b"",
        &[unknown(0, (u32::MAX - 3) as usize)],
    );
    must(
        totals,
        18,
        b"",
        &long,
        &vec![unknown(1, (u32::MAX - 7) as usize); 60_000],
    );
}
