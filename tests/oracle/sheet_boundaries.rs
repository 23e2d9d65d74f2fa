//! The sheets at the edges: one off in every word, number, digit and escape, lines in every wrong place, faults before
//! and after each other, at the limits, far past them.
use crate::boundaries::LIMIT;
use crate::compare::Compare;
use crate::list_boundaries::digit_edges;
use crate::payloads::{arguments, contents, names, packed, payload, section};
use crate::sheet::SheetTotals;

pub fn compare_all(totals: &mut SheetTotals) {
    samples(totals);
    numbers_made(totals);
    texts_made(totals);
    places(totals);
    words(totals);
    field_counts(totals);
    numbers_read(totals);
    kinds_and_lengths(totals);
    hex_digits(totals);
    single_bytes(totals);
    two_byte_fields(totals);
    marked_texts(totals);
    unclosed(totals);
    empty_lines(totals);
    bytes_between(totals);
    orders(totals);
    at_the_limits(totals);
    past_the_limits(totals);
}

/// A line of each kind, and the lines that it needs before it.
const LINES: [(&str, &str); 8] = [
    ("", "contents\t7"),
    ("", "packed\t1\t2\t3\tab"),
    ("", "names"),
    ("", "arguments"),
    ("", "unknown\t3\t0102beef"),
    ("contents\t0\n", "content\ttext"),
    ("names\n", "name\t5\tsky.hlsl"),
    ("arguments\n", "pair\tE\tmain"),
];

/// Each text of a line, as what stands before it and after it.
const TEXTS: [(&str, &str); 4] = [
    ("contents\t0\ncontent\t", "\n"),
    ("names\nname\t1\t", "\n"),
    ("arguments\npair\t", "\tv\n"),
    ("arguments\npair\tn\t", "\n"),
];

/// Each number of a line.
const NUMBERS: [(&str, &str); 6] = [
    ("contents\t", "\n"),
    ("packed\t", "\t0\t0\t\n"),
    ("packed\t0\t", "\t0\t\n"),
    ("packed\t0\t0\t", "\t\n"),
    ("unknown\t", "\t\n"),
    ("names\nname\t", "\ta\n"),
];

/// Each place of bytes in a line.
const BYTES: [(&str, &str); 2] = [("packed\t0\t0\t0\t", "\n"), ("unknown\t9\t", "\n")];

/// A field with what stands before it and after it.
fn around(&(before, after): &(&str, &str), field: impl AsRef<[u8]>) -> Vec<u8> {
    [before.as_bytes(), field.as_ref(), after.as_bytes()].concat()
}

fn line_count(sheet: &[u8]) -> u32 {
    sheet.iter().filter(|&&byte| byte == b'\n').count() as u32
}

/// The document's numbers for a sheet, and then those of the Rust and of the call.
fn must(totals: &mut SheetTotals, number: u32, second: u32, sheet: impl AsRef<[u8]>) {
    let got = totals.compare_sheet(sheet.as_ref());
    assert_eq!(
        got,
        (number, second),
        "the Rust gives other numbers than the document for {}",
        sheet.as_ref()[..sheet.as_ref().len().min(400)].escape_ascii()
    );
}

fn must_write(totals: &mut SheetTotals, sheet: impl AsRef<[u8]>, payload: &[u8]) {
    must(totals, 0, payload.len() as u32, &sheet);
    assert_eq!(
        crate::rust_sheet::from_sheet(sheet.as_ref()).as_deref(),
        Ok(payload)
    );
    totals.compare(payload);
}

/// The sheet is accepted, whatever it writes.
fn must_accept(totals: &mut SheetTotals, sheet: impl AsRef<[u8]>) {
    let (number, _) = totals.compare_sheet(sheet.as_ref());
    let shown = &sheet.as_ref()[..sheet.as_ref().len().min(400)];
    assert_eq!(number, 0, "{}", shown.escape_ascii());
}

/// A small sheet of each kind of line, and its payload by hand.
fn samples(totals: &mut SheetTotals) {
    must_write(totals, "", &[8, 0, 0, 0, 0, 0, 0, 0]);
    let bytes = |text: &str| text.as_bytes().to_vec();
    must_write(
        totals,
        "names\nname\t5\ta\narguments\npair\tE\tmain\n",
        &payload(&[
            names(&[(bytes("a"), 5)]),
            arguments(&[(bytes("E"), bytes("main"))]),
        ]),
    );
    must_write(
        totals,
        "contents\t7\ncontent\t\ncontent\ta\\\\b\\tc\\nd\\\\n\n",
        &payload(&[contents(7, &[vec![], bytes("a\\b\tc\nd\\n")])]),
    );
    must_write(
        totals,
        "packed\t4294967295\t5\t900\t\npacked\t1\t2\t3\t00ff7a\n",
        &payload(&[
            packed(u32::MAX, b"", 900, 5),
            packed(1, b"\x00\xFF\x7A", 3, 2),
        ]),
    );
    must_write(
        totals,
        "unknown\t3\t\nunknown\t65535\t0123456789abcdef\n",
        &payload(&[
            section(3, b""),
            section(u16::MAX, b"\x01\x23\x45\x67\x89\xAB\xCD\xEF"),
        ]),
    );
    must_write(
        totals,
        "arguments\npair\t\t\npair\t\\t\t\\\\t\npair\t\r\t\u{FEFF}\ncontents\t0\nnames\n",
        &payload(&[
            arguments(&[
                (vec![], vec![]),
                (bytes("\t"), bytes("\\t")),
                (bytes("\r"), bytes("\u{FEFF}")),
            ]),
            contents(0, &[]),
            names(&[]),
        ]),
    );
}

/// Payloads whose numbers are where the digits grow by one, in each place.
fn numbers_made(totals: &mut SheetTotals) {
    for number in digit_edges(u32::MAX.into()) {
        let number = number as u32;
        totals.compare(&payload(&[contents(number, &[vec![]])]));
        totals.compare(&payload(&[packed(number, b"a", 0, 0)]));
        totals.compare(&payload(&[packed(0, b"a", number, 0)]));
        totals.compare(&payload(&[packed(0, b"a", 0, number)]));
        totals.compare(&payload(&[names(&[(b"a".to_vec(), number)])]));
    }
    for bit in 0..32 {
        for number in [1 << bit, !(1 << bit)] {
            totals.compare(&payload(&[packed(number, b"", !number, number ^ 1)]));
        }
    }
}

/// Payloads whose texts hold every ASCII byte; and texts of every length up to 72 with what a sheet escapes, or what
/// it does not, at every place.
fn texts_made(totals: &mut SheetTotals) {
    let mut compare = |text: Vec<u8>| {
        totals.compare(&payload(&[contents(0, &[text.clone(), vec![]])]));
        totals.compare(&payload(&[names(&[(text.clone(), 1)])]));
        totals.compare(&payload(&[arguments(&[(text.clone(), vec![])])]));
        totals.compare(&payload(&[arguments(&[(vec![], text)])]));
    };
    for byte in 1..128 {
        compare(vec![byte]);
        compare(vec![byte; 40]);
    }
    for length in 0..72 {
        for at in 0..=length {
            for mark in ["\\", "\t", "\n", "\\\t\n", "\r"] {
                let mut text = vec![b'x'; length];
                text.splice(at..at, mark.bytes());
                compare(text);
            }
        }
    }
    for byte in 0..=255 {
        totals.compare(&payload(&[packed(0, &[byte], 0, 0)]));
        totals.compare(&payload(&[section(3, &[byte, !byte, 0, byte])]));
    }
}

/// Each kind of line first of all, and directly after each other kind.
fn places(totals: &mut SheetTotals) {
    let is_right = |before: &str, line: &str| match line.split('\t').next() {
        Some("content") => matches!(before, "contents" | "content"),
        Some("name") => matches!(before, "names" | "name"),
        Some("pair") => matches!(before, "arguments" | "pair"),
        _ => true,
    };
    let mut check = |before: &str, word: &str, line: &str| {
        let sheet = format!("{before}{line}\n");
        if is_right(word, line) {
            must_accept(totals, sheet);
        } else {
            must(totals, 20, line_count(before.as_bytes()) + 1, &sheet);
            // what follows does not count
            must(
                totals,
                20,
                line_count(before.as_bytes()) + 1,
                sheet + "names\nbad",
            );
        }
    };
    for (_, line) in LINES {
        check("", "", line);
        for (needed, other) in LINES {
            let word = other.split('\t').next().unwrap();
            check(&format!("{needed}{other}\n"), word, line);
            // and after two of them
            check(&format!("{needed}{other}\n{other}\n"), word, line);
            // the section that would be right is there, before another
            let (opening, _) = LINES.iter().find(|(_, l)| *l == line).unwrap();
            check(&format!("{opening}{needed}{other}\n"), word, line);
        }
    }
}

/// Each word with a byte changed to each other one, dropped, doubled or put before it, and in capitals.
fn words(totals: &mut SheetTotals) {
    for (before, line) in LINES {
        let word = line.split('\t').next().unwrap();
        let number = line_count(before.as_bytes()) + 1;
        let mut wrong = |line: Vec<u8>| {
            let sheet = [before.as_bytes(), &line, b"\n"].concat();
            must(totals, 20, number, sheet);
        };
        for at in 0..word.len() {
            for byte in 0..=255 {
                if byte != line.as_bytes()[at] {
                    let mut changed = line.as_bytes().to_vec();
                    changed[at] = byte;
                    wrong(changed);
                }
            }
            let mut dropped = line.as_bytes().to_vec();
            let byte = dropped.remove(at);
            // `contents` without its last byte is another word, with fields as it should have; and it is misplaced
            wrong(dropped);
            let mut doubled = line.as_bytes().to_vec();
            doubled.insert(at, byte);
            wrong(doubled);
        }
        wrong(line.to_uppercase().into_bytes());
        for extra in [" ", "\t", "\r", "\0", "s", "\u{FEFF}", "\\"] {
            wrong(format!("{extra}{line}").into_bytes());
            wrong(
                line.replacen(word, &format!("{word}{extra}"), 1)
                    .into_bytes(),
            );
        }
        // the rest of the line without its word
        wrong(line.as_bytes()[word.len()..].to_vec());
        wrong(word.as_bytes()[..1].to_vec());
    }
}

/// Each kind of line with fields left out, and with more.
fn field_counts(totals: &mut SheetTotals) {
    for (before, line) in LINES {
        let number = line_count(before.as_bytes()) + 1;
        let fields: Vec<&str> = line.split('\t').collect();
        let mut wrong = |fields: &[&str]| {
            let sheet = format!("{before}{}\n", fields.join("\t"));
            must(totals, 20, number, sheet);
        };
        for count in 0..fields.len() {
            wrong(&fields[..count]);
        }
        for at in 1..fields.len() {
            let mut fewer = fields.clone();
            fewer.remove(at);
            wrong(&fewer);
        }
        for at in 0..=fields.len() {
            for extra in ["", "0", "a", "names"] {
                let mut more = fields.clone();
                more.insert(at, extra);
                wrong(&more);
                more.insert(at, extra);
                wrong(&more);
            }
        }
    }
}

/// Each number at its least and greatest, past it by little and by much, and written as a number is not.
fn numbers_read(totals: &mut SheetTotals) {
    let right = ["3", "9", "10", "65535"];
    let unless_kind = ["0", "1", "2", "65536", "4294967294", "4294967295"];
    let mut wrong: Vec<Vec<u8>> = [
        "",
        "00",
        "01",
        "03",
        "0000000003",
        "00000000000000000003",
        "000000000000000000000000000000000000000003",
        "4294967296",
        "4294967299",
        "4294967305",
        "5000000000",
        "9999999999",
        "10000000000",
        "42949672950",
        "42949672960",
        "42949672963",
        // 64 bits and 128 bits, and by little past them
        "18446744073709551615",
        "18446744073709551616",
        "18446744073709551619",
        "184467440737095516160",
        "99999999999999999999",
        "340282366920938463463374607431768211456",
        "340282366920938463463374607431768211459",
        "3402823669209384634633746074317682114560",
        "9999999999999999999999999999999999999999",
        "+3",
        "-3",
        "-0",
        "+0",
        " 3",
        "3 ",
        "3\r",
        "3\0",
        "\x003",
        "0x3",
        "3h",
        "a",
        "3a",
        "3.0",
        "3e1",
        "3_0",
        "3,000",
        "\\t",
        "3\\n",
        "\u{FF13}",
        "\u{0663}",
        "null",
    ]
    .map(|field| field.as_bytes().to_vec())
    .to_vec();
    for digits in [10, 11, 20, 21, 40, 100, 10_000] {
        wrong.push(vec![b'9'; digits]);
        wrong.push(vec![b'0'; digits]);
        let mut power = vec![b'0'; digits + 1];
        power[0] = b'1';
        wrong.push(power);
    }
    wrong.push(b"3\x80".to_vec());
    wrong.push(b"\xFF3".to_vec());
    for place in &NUMBERS {
        let number = line_count(place.0.as_bytes()) + 1;
        let is_kind = place.0.starts_with("unknown");
        for field in right {
            must_accept(totals, around(place, field));
        }
        for field in unless_kind {
            if is_kind {
                must(totals, 20, number, around(place, field));
            } else {
                must_accept(totals, around(place, field));
            }
        }
        for field in &wrong {
            must(totals, 20, number, around(place, field));
        }
        for edge in digit_edges(1 << 34) {
            totals.compare_sheet(&around(place, edge.to_string()));
            totals.compare_sheet(&around(place, format!("0{edge}")));
        }
        for shift in [16, 31, 32, 33, 63, 64] {
            for less in 0..12u128 {
                let near = (1u128 << shift) + 6 - less;
                totals.compare_sheet(&around(place, near.to_string()));
            }
        }
        for byte in 0..=255 {
            totals.compare_sheet(&around(place, [byte]));
            totals.compare_sheet(&around(place, [b'3', byte]));
            totals.compare_sheet(&around(place, [byte, b'3']));
        }
    }
}

fn kinds_and_lengths(totals: &mut SheetTotals) {
    for kind in [0u64, 1, 2, 3, 4, 255, 256, 65_534, 65_535] {
        for length in 0..=9 {
            let sheet = format!("names\nunknown\t{kind}\t{}\n", "0f".repeat(length));
            if kind >= 3 && length % 4 == 0 {
                must_accept(totals, sheet);
            } else {
                must(totals, 20, 2, sheet);
            }
        }
    }
    // what 16 or 32 bits would take for 3
    for kind in [65_536u64, 65_539, 131_071, 131_075, 4_294_967_299] {
        must(totals, 20, 1, format!("unknown\t{kind}\t\n"));
    }
    for kind in 3..=u16::MAX {
        totals.compare(&payload(&[section(kind, b"")]));
    }
    // packed bytes have any length
    for length in 0..=9 {
        let sheet = format!("packed\t0\t0\t0\t{}\n", "0f".repeat(length));
        must(totals, 0, 36 + (length as u32).div_ceil(4) * 4, sheet);
    }
}

/// Digits one off, odd in number, and in capitals; and every length up to 36 bytes with something odd at every place.
fn hex_digits(totals: &mut SheetTotals) {
    let wrong = [
        "0",
        "f",
        "000",
        "00000",
        "0g",
        "g0",
        "0A",
        "A0",
        "aF",
        "AB",
        "ABCDEF01",
        "0x00",
        " 00",
        "00 ",
        "0 0",
        "00 00",
        "+f",
        "-1",
        "00\r",
        "\\t",
        "\0\0",
        "é",
        "0000000é",
        "000000000",
    ];
    for place in &BYTES {
        for field in wrong {
            must(totals, 20, 1, around(place, field));
        }
        let [digits, step] = [72, if place.0.starts_with("packed") { 1 } else { 4 }];
        for length in (0..=digits).step_by(2 * step) {
            let mut field = vec![b'd'; length];
            must_accept(totals, around(place, &field));
            for at in 0..length {
                for mark in *b"gGAF/:@`\x7F\x80\xFF\0 " {
                    field[at] = mark;
                    must(totals, 20, 1, around(place, &field));
                }
                for mark in *b"09af" {
                    field[at] = mark;
                    must_accept(totals, around(place, &field));
                }
                field[at] = b'd';
            }
            field.push(b'd');
            must(totals, 20, 1, around(place, &field));
        }
    }
}

/// Every byte as a text, inside one, and after a backslash.
fn single_bytes(totals: &mut SheetTotals) {
    for place in &TEXTS {
        let line = line_count(place.0.as_bytes()) + 1;
        for byte in 0..=255u8 {
            for around_it in [
                [&b""[..], b""],
                [b"a", b""],
                [b"", b"a"],
                ["é".as_bytes(), b"bc"],
            ] {
                let field = [around_it[0], &[byte], around_it[1]].concat();
                match byte {
                    // it closes the line, which has all its fields but where another text is to follow
                    b'\n' if place.1 == "\n" => must(totals, 20, line + 1, around(place, field)),
                    b'\t' | b'\n' | b'\\' => must(totals, 20, line, around(place, field)),
                    0 => must(totals, 12, 0, around(place, field)),
                    1..=127 => must_accept(totals, around(place, field)),
                    _ => must(totals, 11, 0, around(place, field)),
                }
                let escape = [around_it[0], &[b'\\', byte], around_it[1]].concat();
                if matches!(byte, b'\\' | b't' | b'n') {
                    must_accept(totals, around(place, &escape));
                    // a pair of backslashes before it changes nothing, a single one all
                    let more = [b"\\\\", &escape[..]].concat();
                    must_accept(totals, around(place, more));
                } else {
                    must(totals, 20, line, around(place, escape));
                }
            }
        }
        for count in 0..40 {
            let backslashes = vec![b'\\'; count];
            if count % 2 == 0 {
                must_accept(totals, around(place, backslashes));
            } else {
                must(totals, 20, line, around(place, &backslashes));
                must_accept(totals, around(place, [&backslashes[..], b"t"].concat()));
                must_accept(totals, around(place, [&backslashes[..], b"nt"].concat()));
                must(
                    totals,
                    20,
                    line,
                    around(place, [&backslashes[..], b"r"].concat()),
                );
            }
        }
    }
}

/// Every two bytes as a text, as the two texts of a pair, as packed bytes, and as a sheet.
fn two_byte_fields(totals: &mut SheetTotals) {
    for first in 0..=255 {
        for second in 0..=255 {
            totals.compare_sheet(&around(&TEXTS[1], [first, second]));
            totals.compare_sheet(&around(
                &("arguments\npair\t", "\n"),
                [first, b'\t', second],
            ));
            totals.compare_sheet(&around(&BYTES[0], [first, second]));
            must(totals, 20, 1, [first, second]);
        }
    }
}

/// Texts of every length up to 72, with something odd at every place: code that takes bytes in blocks must find it in
/// each place of a block.
fn marked_texts(totals: &mut SheetTotals) {
    let marks: [&[u8]; 14] = [
        b"\\\\",
        b"\\t",
        b"\\n",
        b"\\x",
        b"\\",
        b"\\\\\\",
        b"\t",
        b"\n",
        b"\r",
        b"\0",
        b"\x80",
        b"\xE6\xBC",
        "漢".as_bytes(),
        "\\漢".as_bytes(),
    ];
    for length in 0..72 {
        for at in 0..=length {
            for mark in marks {
                let mut text = vec![b'x'; length];
                text.splice(at..at, mark.iter().copied());
                for place in &TEXTS {
                    totals.compare_sheet(&around(place, &text));
                }
            }
        }
    }
}

/// Each kind of line without its newline, also where its texts are faulty; and a sheet cut short at every place.
fn unclosed(totals: &mut SheetTotals) {
    for (before, line) in LINES {
        let number = line_count(before.as_bytes()) + 1;
        must_accept(totals, format!("{before}{line}\n"));
        must(totals, 20, number, format!("{before}{line}"));
        must(totals, 20, number, format!("{before}{line}\r"));
        must(totals, 20, number + 1, format!("{before}{line}\n\0"));
    }
    for (before, _) in TEXTS {
        let number = line_count(before.as_bytes()) + 1;
        for end in [&b""[..], b"\xFF", b"\0", b"\\", b"\\x", b"\tv", b"\xFF\t\0"] {
            let sheet = [before.as_bytes(), end].concat();
            must(totals, 20, number, sheet);
        }
    }
    let whole = LINES
        .map(|(before, line)| format!("{before}{line}\n"))
        .concat();
    for length in 0..=whole.len() {
        let cut = &whole.as_bytes()[..length];
        if cut.is_empty() || cut.ends_with(b"\n") {
            must_accept(totals, cut);
        } else {
            must(totals, 20, line_count(cut) + 1, cut);
        }
    }
}

fn empty_lines(totals: &mut SheetTotals) {
    must(totals, 20, 1, "\n");
    must(totals, 20, 1, "\n\n");
    must(totals, 20, 1, "\r\n");
    must(totals, 20, 1, " \n");
    must(totals, 20, 1, "\t\n");
    let whole = LINES
        .map(|(before, line)| format!("{before}{line}\n"))
        .concat();
    let lines: Vec<&str> = whole.split_inclusive('\n').collect();
    for at in 0..=lines.len() {
        for empty in ["\n", "\r\n", "\t\n", "\0\n", "\u{FEFF}\n"] {
            let mut more = lines.clone();
            more.insert(at, empty);
            must(totals, 20, at as u32 + 1, more.concat());
        }
    }
}

/// Every byte before, between and after the fields of a sheet that has each kind of line.
fn bytes_between(totals: &mut SheetTotals) {
    let whole = LINES
        .map(|(before, line)| format!("{before}{line}\n"))
        .concat();
    for at in 0..=whole.len() {
        for byte in 0..=255 {
            let mut sheet = whole.clone().into_bytes();
            sheet.insert(at, byte);
            totals.compare_sheet(&sheet);
            if let Some(replaced) = whole.as_bytes().get(at) {
                if *replaced != byte {
                    let mut sheet = whole.clone().into_bytes();
                    sheet[at] = byte;
                    totals.compare_sheet(&sheet);
                }
            }
        }
        if at < whole.len() {
            let mut sheet = whole.clone().into_bytes();
            sheet.remove(at);
            totals.compare_sheet(&sheet);
        }
    }
    // the newlines of another system: a carriage return is a part of a last text, and malformed elsewhere
    must(totals, 20, 1, "names\r\nname\t5\ta\r\n");
    must(totals, 20, 1, "contents\t0\r\ncontent\ta\r\n");
    must_accept(totals, "names\nname\t5\ta\r\n");
    must(totals, 20, 1, "packed\t0\t0\t0\tab\r\n");
    must(totals, 20, 1, "\u{FEFF}names\n");
}

/// Which of two faults counts.
fn orders(totals: &mut SheetTotals) {
    let mut of = |number: u32, second: u32, sheet: &[u8]| must(totals, number, second, sheet);
    // an earlier line before a later one
    of(11, 0, b"names\nname\t0\t\xFF\nbad\n");
    of(12, 0, b"names\nname\t0\t\0\nbad\n");
    of(20, 2, b"names\nbad\nname\t0\t\xFF\n");
    of(20, 2, b"names\nbad\nworse\n");
    of(11, 0, b"names\nname\t0\t\xFF\nname\t0\t\0\n");
    of(12, 0, b"names\nname\t0\t\0\nname\t0\t\xFF\n");
    of(
        11,
        0,
        b"contents\t0\ncontent\t\xC3\ncontent\t\xA9\nunclosed",
    );
    of(12, 0, b"contents\t0\ncontent\t\0\n\n");
    of(
        20,
        3,
        b"contents\t0\ncontent\ta\ncontent\t\\0\ncontent\t\0\n",
    );
    // the whole line before its texts
    of(20, 2, b"names\nname\t00\t\xFF\n");
    of(20, 2, b"names\nname\t4294967296\t\0\n");
    of(20, 2, b"names\nname\t0\t\xFF\t\n");
    of(20, 2, b"names\npair\t\xFF\t\0\n");
    of(20, 1, b"content\t\xFF\n");
    of(20, 2, b"contents\t0\ncontent\t\xFF\\\n");
    of(20, 2, b"contents\t0\ncontent\t\\x\xFF\n");
    of(20, 2, b"contents\t0\ncontent\t\0\\\0\n");
    of(20, 2, b"arguments\npair\t\xFF\t\\r\n");
    of(20, 2, b"arguments\npair\t\0\t\\\n");
    of(20, 2, b"arguments\npair\t\\\t\xFF\n");
    of(20, 2, b"arguments\npair\t\xFF\n");
    of(20, 2, b"arguments\npair\t\xFF\t\0");
    // name before value, and 11 before 12 in one text
    of(11, 0, b"arguments\npair\t\xFF\t\0\n");
    of(12, 0, b"arguments\npair\t\0\t\xFF\n");
    of(11, 0, b"arguments\npair\tn\t\0\xFF\n");
    of(11, 0, b"names\nname\t0\t\0a\xFF\n");
    of(11, 0, b"names\nname\t0\t\xFF\0\n");
    of(12, 0, b"arguments\npair\ta\0\tv\n");
    of(12, 0, b"arguments\npair\tn\t\0\n");
    // a character is not parted by an escape
    for escape in [&b"\\t"[..], b"\\n", b"\\\\"] {
        of(
            11,
            0,
            &[b"names\nname\t0\t\xC3", escape, b"\xA9\n"].concat(),
        );
        of(
            11,
            0,
            &[b"names\nname\t0\t\xF0\x9F", escape, b"\x98\x80\n"].concat(),
        );
        of(
            11,
            0,
            &[b"arguments\npair\t\xC3\t\xA9", escape, b"\n"].concat(),
        );
    }
    for text in [
        "\u{80}",
        "\u{7FF}",
        "\u{800}",
        "\u{D7FF}",
        "\u{E000}",
        "\u{FFFF}",
        "\u{10FFFF}",
    ] {
        for place in &TEXTS {
            must_accept(totals, around(place, format!("\\t{text}\\\\")));
        }
    }
    let wrong: [&[u8]; 9] = [
        b"\xC0\x80",
        b"\xC1\xBF",
        b"\xE0\x9F\xBF",
        b"\xED\xA0\x80",
        b"\xF0\x8F\xBF\xBF",
        b"\xF4\x90\x80\x80",
        b"\xF5\x80\x80\x80",
        b"\xE6\xBC",
        b"\xFE",
    ];
    for text in wrong {
        for place in &TEXTS {
            must(totals, 11, 0, around(place, text));
            must(
                totals,
                11,
                0,
                around(place, [b"\\n", text, b"\\t"].concat()),
            );
        }
        // outside of texts it is as any byte
        for place in NUMBERS.iter().chain(&BYTES) {
            let line = line_count(place.0.as_bytes()) + 1;
            must(totals, 20, line, around(place, text));
        }
    }
}

fn at_the_limits(totals: &mut SheetTotals) {
    // sections, of each kind
    for (needed, line) in LINES {
        if needed.is_empty() {
            let line = format!("{line}\n");
            must_accept(totals, line.repeat(65_535));
            for count in [65_536, 65_537, 131_071, 131_072] {
                must(totals, 18, 0, line.repeat(count));
            }
        }
    }
    // 20, 11 and 12 come before 18, and before 19
    let many = "names\n".repeat(65_536);
    must(totals, 20, 65_537, format!("{many}bad\n"));
    must(totals, 20, 65_537, format!("{many}names"));
    must(
        totals,
        20,
        65_538,
        format!("{many}name\t0\ta\nname\t00\ta\n"),
    );
    must(
        totals,
        11,
        0,
        [many.as_bytes(), b"name\t0\t\xFF\n"].concat(),
    );
    must(totals, 12, 0, format!("{many}name\t0\t\0\nbad"));
    // a faulty line's number where 16 bits end
    let few = "arguments\n".to_string() + &"pair\t\t\n".repeat(65_533);
    for more in 0..4 {
        let before = few.clone() + &"pair\t\t\n".repeat(more);
        let line = 65_535 + more as u32;
        must(totals, 20, line, format!("{before}bad\n"));
        must(totals, 20, line, format!("{before}pair\t\t"));
        must(
            totals,
            11,
            0,
            [before.as_bytes(), b"pair\t\t\xFF\nbad\n"].concat(),
        );
        must_accept(totals, before);
    }
    // entry bytes, with escapes that count as one byte, too
    for length in 65_500usize..65_535 {
        let entry = (16 + length + 1).div_ceil(4) * 4;
        let (number, second) = if entry <= 65_535 {
            (0, 8 + (18 + entry).div_ceil(4) * 4)
        } else {
            (18, 0)
        };
        for piece in ["n", "\\t", "\\\\"] {
            let sheet = format!("names\nname\t1\t{}\n", piece.repeat(length));
            must(totals, number, second as u32, sheet);
        }
    }
    for count in [3_276, 3_277, 3_278, 6_552, 6_554, 131_072, 214_748, 214_749] {
        let sheet = format!("names\n{}", "name\t9\tabc\n".repeat(count));
        if count == 3_276 {
            must_accept(totals, sheet);
        } else {
            must(totals, 18, 0, sheet);
        }
    }
    // too many entry bytes in one section are not made good by others
    let full = "name\t9\tabc\n".repeat(3_276);
    must_accept(totals, format!("names\n{full}names\n{full}"));
    must(
        totals,
        18,
        0,
        format!("names\n{full}names\nnames\n{full}name\t0\t\n"),
    );
    payload_bytes(totals);
    // the most lines that a payload has, which make a sheet 3.5 times as long
    let pairs = (LIMIT - 28) / 2;
    totals.compare(&payload(&[arguments(&vec![(vec![], vec![]); pairs])]));
    let mut most = b"arguments\n".to_vec();
    most.extend(b"pair\t\t\n".repeat(pairs));
    must(
        totals,
        20,
        pairs as u32 + 2,
        [&most[..], b"pair\t\n"].concat(),
    );
    must(
        totals,
        20,
        pairs as u32 + 2,
        [&most[..], b"pair\t\t"].concat(),
    );
    most.extend(b"pair\t\t\n");
    must(totals, 18, 0, &most);
    must(totals, 12, 0, [&most[..], b"pair\t\0\t\n"].concat());
}

/// Each long field at the limit and past it by little.
fn payload_bytes(totals: &mut SheetTotals) {
    let cases: [(&str, &str, &[&str], usize); 5] = [
        ("contents\t0\ncontent\t", "\n", &["a", "\\\\", "\\n"], 49),
        ("arguments\npair\t", "\t\n", &["a", "\\\\"], 30),
        ("arguments\npair\t\t", "\n", &["a", "\\t"], 30),
        ("packed\t0\t0\t0\t", "\n", &["0f"], 36),
        ("unknown\t3\t", "\n", &["0f"], 16),
    ];
    for (before, after, pieces, free) in cases {
        let line = line_count(before.as_bytes()) + 1;
        for piece in pieces {
            for length in [LIMIT - free, LIMIT - free + 1, LIMIT - free + 4, LIMIT] {
                let sheet = around(&(before, after), piece.repeat(length));
                if length == LIMIT - free {
                    must(totals, 0, LIMIT as u32, sheet);
                } else if before.starts_with("unknown") && length % 4 != 0 {
                    must(totals, 20, line, sheet);
                } else {
                    must(totals, 18, 0, sheet);
                }
            }
        }
    }
    // the limit reached by a last section
    let text = "a".repeat(LIMIT - 49 - 20);
    must(
        totals,
        0,
        LIMIT as u32,
        format!("contents\t0\ncontent\t{text}\nnames\n"),
    );
    must(
        totals,
        18,
        0,
        format!("contents\t0\ncontent\t{text}a\nnames\n"),
    );
    must(
        totals,
        18,
        0,
        format!("contents\t0\ncontent\t{text}\nnames\nnames\n"),
    );
}

/// Sheets that are far too long, with a fault at the end or without; sums that pass 16 and 32 bits.
fn past_the_limits(totals: &mut SheetTotals) {
    let long = "a".repeat(4 * LIMIT);
    must(totals, 18, 0, format!("contents\t0\ncontent\t{long}\n"));
    must(
        totals,
        20,
        3,
        format!("contents\t0\ncontent\t{long}\nbad\n"),
    );
    must(totals, 20, 2, format!("contents\t0\ncontent\t{long}"));
    must(totals, 20, 2, format!("contents\t0\ncontent\t{long}\\\n"));
    must(totals, 12, 0, format!("contents\t0\ncontent\t{long}\0\n"));
    must(totals, 18, 0, format!("packed\t0\t0\t0\t{long}\n"));
    must(totals, 20, 1, format!("packed\t0\t0\t0\t{long}A\n"));
    must(totals, 18, 0, format!("unknown\t3\t{long}\n"));
    must(totals, 18, 0, format!("names\nname\t0\t{long}\n"));
    must(
        totals,
        20,
        1,
        format!("contents\t{}\n", "9".repeat(4 * LIMIT)),
    );
    must(
        totals,
        20,
        1,
        format!("contents\t{}\n", "0".repeat(4 * LIMIT)),
    );
    must(totals, 20, 1, &long);
    must(totals, 20, 1, format!("names{long}\n"));
    drop(long);
    // a line's number has 8 digits
    let lines = "names\n".repeat(10_000_000);
    must(totals, 18, 0, &lines);
    must(totals, 20, 10_000_001, format!("{lines}name\n"));
    drop(lines);
    past_32_bits(totals);
}

/// A text so long that what it takes in a payload is 2^32 bytes, which is 0 in 32 bits.
fn past_32_bits(totals: &mut SheetTotals) {
    let before = b"contents\t0\ncontent\t";
    let mut sheet = before.to_vec();
    sheet.resize(before.len() + (1 << 32) - 13, b'a');
    sheet.push(b'\n');
    must(totals, 18, 0, &sheet);
    sheet.extend(b"content\t\xFF\n");
    must(totals, 11, 0, &sheet);
}
