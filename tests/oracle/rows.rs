//! Prints calls with the answers that the Rust gives, one to a line. Every payload is one that the Rust
//! accepts. Nothing of this repository is called.
//!
//! Of reading: the payload in hex, how many numbers are lent, the number, the second number, and the numbers
//! of the stored rows. Each payload has a table that is exactly full, one that is longer, and one that is a
//! number short.
//!
//! Of listing, of making public copies, and of cards: the payload in hex, how many bytes are lent, the number, the
//! second number, and the stored bytes in hex. Each payload has an output that is exactly full, one that is longer,
//! one that is a byte short, and none.
mod payloads;
mod rust_made;
mod rust_rows;

use payloads::{any_payload, Random};
use rust_made::{card, copy, list, Made};
use rust_rows::{parse, Parsed};

/// No payload is longer, in bytes.
const LONGEST_PAYLOAD: usize = 400;

/// No table is longer.
const LONGEST: usize = 119;

/// No output is longer.
const LONGEST_OUTPUT: usize = 512;

fn main() {
    rust_rows::hush();
    let words: Vec<String> = std::env::args().skip(1).collect();
    let numbers: Vec<u64> = words
        .iter()
        .skip(1)
        .filter_map(|w| w.parse().ok())
        .collect();
    match (words.first().map(String::as_str), &numbers[..]) {
        (Some("rows"), &[count, seed]) => print_reading(count, &mut Random::new(seed)),
        (Some("listings"), &[count, seed]) => print_made(count, &mut Random::new(seed), list),
        (Some("copies"), &[count, seed]) => print_made(count, &mut Random::new(seed), copy),
        (Some("cards"), &[count, seed]) => print_made(count, &mut Random::new(seed), card),
        _ => {
            eprintln!("usage: rows | listings | copies | cards, then COUNT SEED");
            std::process::exit(2);
        }
    }
}

fn print_reading(count: u64, random: &mut Random) {
    println!("# payload (hex)\tnumbers lent\tnumber\tsecond number\tnumbers of the stored rows");
    let mut printed = 0;
    while printed < count {
        let payload = any_payload(random, 0);
        let Parsed::Rows(rows) = parse(&payload) else {
            panic!("the Rust refuses a payload that is well formed");
        };
        if payload.len() > LONGEST_PAYLOAD || rows.is_empty() || rows.len() + 9 > LONGEST {
            continue;
        }
        let stored = join(&rows);
        let second = rows.len() / 7;
        print_call(&payload, rows.len(), 0, second, &stored);
        print_call(&payload, rows.len() + 9, 0, second, &stored);
        print_call(&payload, rows.len() - 1, 16, second, "-");
        printed += 3;
    }
}

fn print_made(count: u64, random: &mut Random, rust: fn(&[u8]) -> Made) {
    println!("# payload (hex)\tbytes lent\tnumber\tsecond number\tbytes stored (hex)");
    let mut printed = 0;
    while printed < count {
        let payload = any_payload(random, 0);
        let Made::Bytes(bytes) = rust(&payload) else {
            panic!("the Rust refuses a payload that is well formed");
        };
        let length = bytes.len();
        if payload.len() > LONGEST_PAYLOAD || length + 9 > LONGEST_OUTPUT {
            continue;
        }
        let stored = hex(&bytes);
        print_call(&payload, length, 0, length, &stored);
        print_call(&payload, length + 9, 0, length, &stored);
        print_call(&payload, length - 1, 19, length, "-");
        print_call(&payload, 0, 19, length, "-");
        printed += 4;
    }
}

fn print_call(payload: &[u8], lent: usize, number: u32, second: usize, stored: &str) {
    println!("{}\t{lent}\t{number}\t{second}\t{stored}", hex(payload));
}

fn join(rows: &[u32]) -> String {
    let words: Vec<String> = rows.iter().map(u32::to_string).collect();
    words.join(",")
}

fn hex(bytes: &[u8]) -> String {
    bytes.iter().map(|byte| format!("{byte:02x}")).collect()
}
