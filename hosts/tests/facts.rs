//! The Rust package's facts, names and first lines, under every bound, on payloads made of rows. What is expected is
//! worked out from the rows that the payload was made of. It is run with less memory than the rows of the longest payload
//! would take.
use srci::Row;

/// Numbers that look random, by a fixed rule.
struct Numbers(u64);

impl Numbers {
    fn below(&mut self, end: usize) -> usize {
        self.0 = self
            .0
            .wrapping_mul(6364136223846793005)
            .wrapping_add(1442695040888963407);
        (self.0 >> 33) as usize % end
    }
}

/// A line of facts: a section by its name and count, or an entry by its texts.
#[derive(Clone, Debug, PartialEq)]
enum Line {
    Section(&'static str, u32),
    Name(String),
    Pair(String, String),
}

const EDIT: &str = "sky.hlsl E main \u{444}";

/// A text of the edit side, by where it starts and how long it is.
const TEXTS: [(u32, u32); 5] = [(0, 8), (9, 1), (11, 4), (16, 2), (3, 0)];

fn text(place: usize) -> String {
    let (start, length) = TEXTS[place];
    EDIT[start as usize..][..length as usize].to_string()
}

/// A payload, and the lines of its facts.
fn made(numbers: &mut Numbers) -> (Vec<u8>, Vec<Line>) {
    let row = |tag| Row {
        tag,
        side: Row::EDIT,
        ..Row::default()
    };
    let (mut rows, mut lines) = (vec![], vec![]);
    for _ in 0..numbers.below(6) {
        let tag = numbers.below(5) as u32;
        let entries = numbers.below(5);
        rows.push(match tag {
            Row::PACKED_CONTENTS => Row {
                c: 2,
                d: 77,
                e: 9,
                ..row(tag)
            },
            Row::UNKNOWN => Row {
                a: 9,
                c: 4,
                ..row(tag)
            },
            _ => Row {
                side: Row::PAYLOAD,
                ..row(tag)
            },
        });
        let count = if tag == Row::PACKED_CONTENTS {
            77
        } else {
            entries as u32
        };
        if tag != Row::UNKNOWN {
            lines.push(Line::Section(rows[rows.len() - 1].kind(), count));
        }
        for _ in 0..entries {
            let [one, other] = [0, 1].map(|_| numbers.below(TEXTS.len()));
            let ((a, b), (c, d)) = (TEXTS[one], TEXTS[other]);
            match tag {
                Row::PLAIN_CONTENTS => rows.push(Row {
                    a,
                    b,
                    ..row(Row::CONTENT)
                }),
                Row::NAMES => {
                    rows.push(Row {
                        a,
                        b,
                        c: 5,
                        ..row(Row::NAME)
                    });
                    lines.push(Line::Name(text(one)));
                }
                Row::ARGUMENTS => {
                    rows.push(Row {
                        a,
                        b,
                        c,
                        d,
                        ..row(Row::PAIR)
                    });
                    lines.push(Line::Pair(text(one), text(other)));
                }
                _ => {}
            }
        }
    }
    (srci::write(b"", EDIT.as_bytes(), &rows).unwrap(), lines)
}

fn told(payload: &[u8], most: usize) -> (Vec<Line>, usize) {
    let facts = srci::facts(payload, most).unwrap();
    let mut lines = vec![];
    for section in facts.sections() {
        lines.push(Line::Section(section.kind(), section.count));
        lines.extend(section.names.map(|name| Line::Name(name.to_string())));
        let pair = |(name, value): (&str, &str)| Line::Pair(name.to_string(), value.to_string());
        lines.extend(section.pairs.map(pair));
    }
    (lines, facts.left_out())
}

fn expect_facts(payload: &[u8], lines: &[Line]) {
    for most in 0..lines.len() + 2 {
        let within = most.min(lines.len());
        assert_eq!(
            told(payload, most),
            (lines[..within].to_vec(), lines.len() - within)
        );
    }
    let name = |line: &Line| match line {
        Line::Name(name) => Some(name.clone()),
        _ => None,
    };
    let names: Vec<String> = lines.iter().filter_map(name).collect();
    for most in 0..names.len() + 2 {
        let within = most.min(names.len());
        let expected = (names[..within].to_vec(), names.len() - within);
        assert_eq!(srci::names(payload, most).unwrap(), expected);
    }
}

/// The first lines are whole, within the bound, as many as can be, and the last line counts the others.
fn expect_first_lines(card: &str) {
    let lines: Vec<&str> = card.split_inclusive('\n').collect();
    let shortened = |kept: usize| {
        format!(
            "{}//   .. {} more line(s)\n",
            lines[..kept].concat(),
            lines.len() - kept
        )
    };
    for most in 0..card.len() + 2 {
        let fits = (0..lines.len())
            .rev()
            .map(shortened)
            .find(|text| text.len() <= most);
        let expected = if card.len() <= most {
            card.to_string()
        } else {
            fits.unwrap_or_default()
        };
        assert_eq!(srci::first_lines(card, most), expected);
    }
}

/// The longest payload of empty pairs, of which only so many are told.
fn expect_little_at_the_limit() {
    let count = (srci::LIMIT as u32 - 28) / 2;
    let header = [
        srci::LIMIT as u32,
        1 << 16,
        srci::LIMIT as u32 - 8,
        2 << 16,
        0,
        2 * count,
        count,
    ];
    let mut payload = header.map(u32::to_le_bytes).concat();
    payload.resize(srci::LIMIT, 0);
    assert_eq!(srci::names(&payload, 100).unwrap(), (vec![], 0));
    let empty = Line::Pair(String::new(), String::new());
    let (lines, left_out) = told(&payload, 100);
    assert_eq!(lines[0], Line::Section("arguments", count));
    assert_eq!(lines[1..], vec![empty; 99]);
    assert_eq!(left_out, count as usize - 99);
}

fn main() {
    let mut numbers = Numbers(22);
    for _ in 0..1000 {
        let (payload, lines) = made(&mut numbers);
        expect_facts(&payload, &lines);
        expect_first_lines(&srci::card(&payload).unwrap());
    }
    let sections = vec![
        Row {
            tag: Row::NAMES,
            ..Row::default()
        };
        120
    ];
    expect_first_lines(&srci::card(&srci::write(b"", b"", &sections).unwrap()).unwrap());
    expect_little_at_the_limit();
    // characters are counted, and not bytes
    assert_eq!(srci::first_lines("\u{e9}\u{e9}\n", 3), "\u{e9}\u{e9}\n");
    let lines = "\u{e9}".repeat(20) + "\n" + &"a".repeat(60);
    assert_eq!(
        srci::first_lines(&lines, 44),
        "\u{e9}".repeat(20) + "\n//   .. 1 more line(s)\n"
    );
    // what is no payload ends as well: a count that nothing is there for, and an entry of no size
    let mut bytes = srci::write(
        b"",
        b"a",
        &[
            sections[0],
            Row {
                tag: Row::NAME,
                b: 1,
                side: Row::EDIT,
                ..sections[0]
            },
        ],
    )
    .unwrap();
    bytes[20..24].fill(255);
    assert_eq!(
        srci::frames(&bytes)
            .flat_map(srci::Frame::names)
            .collect::<Vec<_>>(),
        ["a"]
    );
    bytes[26..30].fill(0);
    assert_eq!(srci::frames(&bytes).flat_map(srci::Frame::names).count(), 0);
    for end in 0..bytes.len() {
        assert!(
            srci::frames(&bytes[..end])
                .flat_map(srci::Frame::names)
                .count()
                < 2
        );
    }
    assert_eq!(srci::facts(b"", 1).unwrap_err(), srci::Refusal::Ragged);
    assert_eq!(srci::names(b"", 1).unwrap_err(), srci::Refusal::Ragged);
    // a refusal shows itself in the same way by both, with its second number
    for refusal in srci::Refusal::all() {
        assert_eq!(format!("{refusal:?}"), refusal.to_string());
    }
    let lacking = srci::Refusal::NoRoom(5);
    assert_eq!(
        lacking.to_string(),
        "19, no room: The output is too short. (bytes needed: 5)"
    );
    let faulty = srci::Refusal::BadLine(12);
    assert_eq!((faulty.number(), faulty.second()), (20, 12));
    assert_eq!(
        faulty.to_string(),
        "20, bad line: A line of a sheet is malformed or misplaced. (line: 12)"
    );
    // what is left out is not shown either
    let mut pairs = vec![
        Row {
            tag: Row::PAIR,
            ..Row::default()
        };
        1000
    ];
    pairs[0].tag = Row::ARGUMENTS;
    let facts = srci::facts(&srci::write(b"", b"", &pairs).unwrap(), 2).unwrap();
    for section in facts.sections() {
        assert!(format!("{section:?}").len() < 200, "{section:?}");
    }
}
