//! Random sheets, and damage to them: changes that mostly make a wrong one.
use crate::payloads::{any_payload, Random, BAD, GOOD};
use crate::rust_made::Made;
use crate::rust_sheet::to_sheet;

const WORDS: [&[u8]; 8] = [
    b"contents",
    b"packed",
    b"names",
    b"arguments",
    b"unknown",
    b"content",
    b"name",
    b"pair",
];

/// The lines of a sheet, each a list of its fields, the first of which is its word.
type Lines = Vec<Vec<Vec<u8>>>;

fn lines_of(sheet: &[u8]) -> Lines {
    let parted = |bytes: &[u8], by: u8| -> Vec<Vec<u8>> {
        let parts = bytes.split(|&byte| byte == by);
        parts.map(<[u8]>::to_vec).collect()
    };
    let closed = sheet.strip_suffix(b"\n").unwrap_or(sheet);
    let lines = if sheet.is_empty() {
        vec![]
    } else {
        parted(closed, b'\n')
    };
    lines.iter().map(|line| parted(line, b'\t')).collect()
}

fn sheet_of(lines: &[Vec<Vec<u8>>]) -> Vec<u8> {
    let mut sheet = Vec::new();
    for line in lines {
        sheet.extend_from_slice(&line.join(&b'\t'));
        sheet.push(b'\n');
    }
    sheet
}

/// The sheet of a random payload, with escapes and other things that a text may have put into its texts.
pub fn any_sheet(random: &mut Random) -> Vec<u8> {
    let Made::Bytes(sheet) = to_sheet(&any_payload(random, 0)) else {
        panic!("the Rust refuses a payload that is well formed");
    };
    let mut lines = lines_of(&sheet);
    for line in &mut lines {
        let texts = match &line[0][..] {
            b"content" => 1..2,
            b"name" => 2..3,
            b"pair" => 1..3,
            _ => continue,
        };
        for text in &mut line[texts] {
            for _ in 0..[0, 0, 1, 2, 5, 40][random.below(6)] {
                let piece = text_piece(random);
                // the ends lie between characters, and between escapes
                if random.one_in(2) {
                    text.extend_from_slice(piece);
                } else {
                    text.splice(..0, piece.iter().copied());
                }
            }
        }
    }
    sheet_of(&lines)
}

fn text_piece(random: &mut Random) -> &'static [u8] {
    match random.below(8) {
        0 => GOOD[random.below(GOOD.len())],
        1 => WORDS[random.below(WORDS.len())],
        2 => [&b"\r"[..], b" ", b"\"", b"t", b"n", b"0"][random.below(6)],
        3 => b"0123456789abcdefghijklmnopqrstuvwxyz",
        4 | 5 => b"\\\\",
        6 => b"\\t",
        _ => b"\\n",
    }
}

/// Bytes that mean something somewhere in a sheet, and their neighbours.
const BYTES: &[u8] = b"\t\n\\\\\t\n09afAFgG/:`@tnr\r +-\0\x80\xBF\xC3\xFF";

/// Changes a sheet in one place.
pub fn damage_sheet(random: &mut Random, sheet: &mut Vec<u8>) {
    let byte = BYTES[random.below(BYTES.len())];
    let at = random.below(sheet.len() + 1);
    match random.below(12) {
        0 if at < sheet.len() => sheet[at] = byte,
        1 if at < sheet.len() => sheet[at] = random.next() as u8,
        2 => sheet.insert(at, byte),
        3 if at < sheet.len() => {
            sheet.remove(at);
        }
        4 => {
            let piece = BAD[random.below(BAD.len())];
            sheet.splice(at..at, piece.iter().copied());
        }
        5 => match random.below(4) {
            0 => sheet.truncate(at),
            1 => sheet.insert(0, byte),
            2 => sheet.push(byte),
            // the last newline
            _ => {
                sheet.pop();
            }
        },
        6 => {
            // the newlines of another system
            let lines = sheet.split_inclusive(|&byte| byte == b'\n');
            *sheet = lines
                .flat_map(|line| match line.strip_suffix(b"\n") {
                    Some(line) => [line, b"\r\n"].concat(),
                    None => line.to_vec(),
                })
                .collect();
        }
        7 | 8 => damage_lines(random, sheet),
        _ => damage_field(random, sheet),
    }
}

/// Moves, repeats, drops, swaps, joins or adds a line.
fn damage_lines(random: &mut Random, sheet: &mut Vec<u8>) {
    let mut lines = lines_of(sheet);
    if lines.is_empty() {
        return;
    }
    let [one, two] = [0; 2].map(|_| random.below(lines.len()));
    match random.below(7) {
        0 => {
            let line = lines.remove(one);
            lines.insert(two, line);
        }
        1 => lines.insert(two, lines[one].clone()),
        2 => {
            lines.remove(one);
        }
        3 => lines.swap(one, two),
        4 => lines.insert(one, vec![vec![]]),
        5 if one > 0 => {
            // a tab for the newline between
            let fields = lines.remove(one);
            lines[one - 1].extend(fields);
        }
        // an entry of any kind, well formed
        _ => lines.insert(
            one,
            match random.below(3) {
                0 => vec![b"content".to_vec(), vec![]],
                1 => vec![b"name".to_vec(), b"0".to_vec(), vec![]],
                _ => vec![b"pair".to_vec(), vec![], vec![]],
            },
        ),
    }
    *sheet = sheet_of(&lines);
}

/// Changes one field as the kind that it mostly is: a word, a number, bytes or a text; or adds one, or drops it.
fn damage_field(random: &mut Random, sheet: &mut Vec<u8>) {
    let mut lines = lines_of(sheet);
    if lines.is_empty() {
        return;
    }
    let line = random.below(lines.len());
    let fields = &mut lines[line];
    let at = random.below(fields.len());
    if random.one_in(6) {
        let field = fields[random.below(fields.len())].clone();
        match random.below(3) {
            0 => fields.insert(at, vec![]),
            1 => fields.insert(at + 1, field),
            _ => {
                fields.remove(at);
            }
        }
        // a line without fields is an empty one
        if fields.is_empty() {
            fields.push(vec![]);
        }
    } else if at == 0 {
        damage_word(random, &mut fields[0]);
    } else {
        let is_digit = |byte: &u8| byte.is_ascii_digit();
        if !fields[at].is_empty() && fields[at].iter().all(is_digit) {
            damage_number(random, &mut fields[at]);
        } else if at + 1 == fields.len() && matches!(&fields[0][..], b"packed" | b"unknown") {
            damage_bytes(random, &mut fields[at]);
        } else {
            damage_text(random, &mut fields[at]);
        }
    }
    *sheet = sheet_of(&lines);
}

fn damage_word(random: &mut Random, word: &mut Vec<u8>) {
    match random.below(5) {
        0 => word.make_ascii_uppercase(),
        1 => word.push(b's'),
        2 => {
            word.pop();
        }
        3 => word.push(b' '),
        _ => *word = WORDS[random.below(WORDS.len())].to_vec(),
    }
}

/// Another number, or one that is not written as a number is.
fn damage_number(random: &mut Random, digits: &mut Vec<u8>) {
    match random.below(12) {
        0 => digits.insert(0, b'0'),
        1 => digits.push(b'0' + random.below(10) as u8),
        2 => digits.insert(0, b'1' + random.below(9) as u8),
        3 => *digits = b"4294967295".to_vec(),
        4 => *digits = b"4294967296".to_vec(),
        5 => {
            // as far as a number may be from the greatest, and past what 32, 64 and 128 bits hold
            let more = [1, 10, 30, 300][random.below(4)];
            digits.extend((0..more).map(|_| b'0' + random.below(10) as u8));
        }
        6 => digits.clear(),
        7 => digits.insert(0, b'+'),
        8 => digits.push(b' '),
        9 => *digits = format!("{:x}", random.next()).into_bytes(),
        10 => *digits = [&b"2"[..], b"3", b"65535", b"65536"][random.below(4)].to_vec(),
        _ => *digits = u64::from(random.next()).pow(2).to_string().into_bytes(),
    }
}

fn damage_bytes(random: &mut Random, hex: &mut Vec<u8>) {
    match random.below(4) {
        0 => hex.make_ascii_uppercase(),
        1 => {
            hex.pop();
        }
        2 => hex.push(b"0123456789abcdefA"[random.below(17)]),
        _ => hex.extend_from_slice(b"0f"),
    }
}

/// A piece of any sort somewhere, in the middle of a character or an escape too.
fn damage_text(random: &mut Random, text: &mut Vec<u8>) {
    let at = random.below(text.len() + 1);
    let piece = match random.below(4) {
        0 => BAD[random.below(BAD.len())],
        1 => [&b"\\"[..], b"\\r", b"\\0", b"\\T", b"\\x0a", b"\\\r"][random.below(6)],
        2 => text_piece(random),
        _ => b"\0",
    };
    text.splice(at..at, piece.iter().copied());
}
