//! The public copies at the edges: what is dropped or made 0 at its least and greatest, in each place.
use crate::boundaries::LIMIT;
use crate::compare::Compare;
use crate::payloads::{arguments, contents, names, packed, payload, section};

pub fn compare_all(totals: &mut impl Compare) {
    fields(totals);
    dropped(totals);
    paddings(totals);
    at_the_limit(totals);
}

/// Every bit of each number that the copy does not keep.
fn fields(totals: &mut impl Compare) {
    for bit in 0..32 {
        for number in [1 << bit, !(1 << bit), u32::MAX >> bit] {
            totals.compare(&payload(&[contents(number, &[])]));
            totals.compare(&payload(&[contents(number, &[b"a".to_vec()])]));
            totals.compare(&payload(&[packed(number, b"ab", 1, 2)]));
            totals.compare(&payload(&[packed(3, b"ab", number, 2)]));
            totals.compare(&payload(&[packed(3, b"", number, 2)]));
            totals.compare(&payload(&[names(&[
                (b"a".to_vec(), number),
                (vec![], !number),
            ])]));
        }
    }
}

/// Unknown sections before, between and after the others, and alone: the count of sections is that of the others.
fn dropped(totals: &mut impl Compare) {
    let known = [
        names(&[(b"a".to_vec(), 7)]),
        contents(9, &[b"text".to_vec()]),
        arguments(&[(b"E".to_vec(), b"main".to_vec())]),
        packed(1, b"xyz", 2, 3),
    ];
    for places in 0u32..1 << 5 {
        for body in [&b""[..], b"1234", b"\0\0\0\0\xFF\xFF\xFF\xFF"] {
            let mut sections = Vec::new();
            for place in 0..=known.len() {
                if places >> place & 1 == 1 {
                    sections.push(section(3 + place as u16, body));
                }
                sections.extend(known.get(place).cloned());
            }
            totals.compare(&payload(&sections));
        }
    }
    // bytes that look like a section inside one that is dropped
    totals.compare(&payload(&[section(3, &names(&[])), section(4, &known[1])]));
    for count in [1, 2, 255, 256, 257, 65_534, 65_535] {
        let mut sections = vec![section(3, b""); count];
        totals.compare(&payload(&sections));
        for at in [0, count / 2, count - 1] {
            sections[at] = names(&[]);
            totals.compare(&payload(&sections));
        }
    }
}

/// Texts of every padding, beside sections that are dropped.
fn paddings(totals: &mut impl Compare) {
    for first in 0..9 {
        for second in 0..9 {
            let [a, b] = [first, second].map(|length| vec![b'a'; length]);
            totals.compare(&payload(&[
                section(3, b"1234"),
                contents(5, &[a.clone(), b.clone()]),
                names(&[(a.clone(), 0), (b.clone(), 2)]),
                packed(6, &a, 900, 4),
                section(9, b""),
                arguments(&[(a.clone(), b.clone())]),
                contents(8, std::slice::from_ref(&b)),
            ]));
        }
    }
}

/// Long payloads whose copies are short, and long ones whose copies are as long.
fn at_the_limit(totals: &mut impl Compare) {
    totals.compare(&payload(&[packed(1, &vec![1; LIMIT - 36], 2, 3)]));
    totals.compare(&payload(&[
        section(3, &vec![1; LIMIT - 16 - 20]),
        names(&[]),
    ]));
    totals.compare(&payload(&[contents(7, &vec![vec![]; (LIMIT - 36) / 16])]));
    totals.compare(&payload(&[contents(
        7,
        &vec![vec![b'a'; 3]; (LIMIT - 36) / 16],
    )]));
    totals.compare(&payload(&[contents(
        7,
        &vec![vec![b'a'; 4]; (LIMIT - 36) / 20],
    )]));
    // as many names of 3 bytes as a section takes, in as many sections as a payload takes
    let full = names(&vec![(vec![b'n'; 3], 9); 3_276]);
    totals.compare(&payload(&vec![full.clone(); (LIMIT - 8) / full.len()]));
    totals.compare(&payload(&[arguments(&[(vec![b'n'; LIMIT - 31], vec![])])]));
    totals.compare(&payload(&vec![packed(9, b"abcd", 8, 7); 65_535]));
    totals.compare(&payload(&vec![contents(9, &[b"abcd".to_vec()]); 65_535]));
}
