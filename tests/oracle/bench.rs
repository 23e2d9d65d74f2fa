//! Times the C entry points against the Rust, and how the times of all but `srci_read` grow, and prints tables in
//! Markdown.
//!
//! Both get the same payload or sheet, which is in memory. Here the table or the output is just long enough and was written
//! before. The Rust allocates what it makes; freeing it is not counted.
//!
//! - reading: the Rust's time is that of `parse_srci`. It also writes the payload anew, since its result holds that too.
//! - writing: that of `write_payload`, of the same sections.
//! - listing: that of `parse_srci`, and of `to_string` on what it gives.
//! - public copies: that of `parse_srci`, of the edit of the sections, and of `write_payload`.
//! - cards: that of the public copy, and of its listing.
//! - making sheets: that of `parse_srci`, and of the lines as `String`s.
//! - reading sheets: that of lines and fields by `split`, and of `write_payload`.
use crate::boundaries::LIMIT;
use crate::call::{
    card, from_sheet, list, make, public_copy, read, to_sheet, write, Job, UNTOUCHED,
    UNTOUCHED_BYTE,
};
use crate::compare::WIDTH;
use crate::payloads::{arguments, contents, names, packed, payload, Random};
use crate::rust_made::{document, make_public};
use crate::rust_rows::rows_of;
use crate::rust_sheet::{read_sheet, sheet_of};
use chunks::srci::parse_srci;
use chunks::ChunkWriter;
use std::hint::black_box;
use std::time::{Duration, Instant};

const RUNS: usize = 7;

/// A payload at a part of the limit: all of it, a quarter, a sixteenth.
type Input = (&'static str, fn(usize) -> Vec<u8>);

const PARTS: [usize; 3] = [16, 4, 1];

const INPUTS: [Input; 8] = [
    ("one content, ASCII", |part| {
        payload(&[contents(0, &[vec![b'a'; LIMIT / part - 49]])])
    }),
    ("one content, CJK", |part| {
        payload(&[contents(
            0,
            &["漢".repeat(LIMIT / part / 3 - 17).into_bytes()],
        )])
    }),
    ("one content, mixed", |part| {
        let piece = "float4 main() // é 漢字 \u{1F600}\n";
        let count = (LIMIT / part - 49) / piece.len();
        payload(&[contents(0, &[piece.repeat(count).into_bytes()])])
    }),
    ("25,800 contents of 1,000 bytes", |part| {
        payload(&[contents(0, &vec![vec![b'a'; 1_000]; 25_800 / part])])
    }),
    ("600,000 pairs of 20 and 20 bytes", |part| {
        payload(&[arguments(&vec![
            (vec![b'n'; 20], vec![b'v'; 20]);
            600_000 / part
        ])])
    }),
    ("12,000,000 empty pairs", |part| {
        payload(&[arguments(&vec![(vec![], vec![]); 12_000_000 / part])])
    }),
    ("65,535 empty names sections", |part| {
        payload(&vec![names(&[]); 65_535 / part])
    }),
    ("400,000 names of 40 bytes", |part| {
        // 1,000 names take 60,000 of the 65,535 bytes that a section's entries may have
        payload(&vec![names(&vec![(vec![b'n'; 40], 1); 1_000]); 400 / part])
    }),
];

/// What a sheet makes twice as long.
const SHEET_INPUTS: [Input; 2] = [
    ("packed bytes", |part| {
        let stored = Random::new(1).bytes(LIMIT / part - 36);
        payload(&[packed(0, &stored, 0, 0)])
    }),
    ("one content, backslashes", |part| {
        payload(&[contents(0, &[vec![b'\\'; LIMIT / part - 49]])])
    }),
];

pub fn run() {
    table("reading", "rows", &INPUTS, read_row);
    table("writing", "rows", &INPUTS, write_row);
    growth("writing", &INPUTS, write_time);
    table("listing", "bytes listed", &INPUTS, |input, payload| {
        made_row(input, payload, list, rust_list)
    });
    growth("listing", &INPUTS, |payload| output_time(list, payload));
    table(
        "public copies",
        "bytes of the copy",
        &INPUTS,
        |input, payload| made_row(input, payload, public_copy, rust_copy),
    );
    growth("public copies", &INPUTS, |payload| {
        output_time(public_copy, payload)
    });
    table("cards", "bytes of the card", &INPUTS, |input, payload| {
        made_row(input, payload, card, rust_card)
    });
    growth("cards", &INPUTS, |payload| output_time(card, payload));
    let inputs = [&INPUTS[..], &SHEET_INPUTS].concat();
    table(
        "making sheets",
        "bytes of the sheet",
        &inputs,
        |input, payload| made_row(input, payload, to_sheet, rust_to_sheet),
    );
    growth("making sheets", &inputs, |payload| {
        output_time(to_sheet, payload)
    });
    table(
        "reading sheets",
        "bytes of the payload",
        &inputs,
        |input, payload| made_row(input, &sheet(payload), from_sheet, rust_from_sheet),
    );
    growth("reading sheets", &inputs, |payload| {
        output_time(from_sheet, &sheet(payload))
    });
}

fn sheet(payload: &[u8]) -> Vec<u8> {
    make(to_sheet, payload).unwrap()
}

/// Nanoseconds for each byte of the payload, at each part of the limit.
fn growth(job: &str, inputs: &[Input], time: fn(&[u8]) -> Duration) {
    println!("| {job}, ns a byte | a sixteenth | a quarter | all |");
    println!("|---|--:|--:|--:|");
    for (input, make) in inputs {
        let times = PARTS.map(|part| {
            let payload = make(part);
            let here = time(&payload);
            format!("{:.3}", here.as_secs_f64() * 1e9 / payload.len() as f64)
        });
        println!("| {input} | {} |", times.join(" | "));
    }
}

fn write_time(payload: &[u8]) -> Duration {
    let rows = read(payload, &mut []).second as usize;
    let mut table = vec![UNTOUCHED; WIDTH * rows];
    read(payload, &mut table);
    let mut output = vec![UNTOUCHED_BYTE; payload.len()];
    best(|| {
        let start = Instant::now();
        black_box(write(payload, &[], black_box(&table), &mut output));
        start.elapsed()
    })
}

fn output_time(job: Job, input: &[u8]) -> Duration {
    let mut output = vec![UNTOUCHED_BYTE; job(input, &mut []).second as usize];
    best(|| {
        let start = Instant::now();
        black_box(job(black_box(input), &mut output));
        start.elapsed()
    })
}

fn table(job: &str, made: &str, inputs: &[Input], row: fn(&str, &[u8])) {
    println!("| {job} | bytes | {made} | Rust ms | here ms | here / Rust |");
    println!("|---|--:|--:|--:|--:|--:|");
    for (input, make) in inputs {
        let payload = make(1);
        assert!(payload.len() <= LIMIT);
        row(input, &payload);
    }
}

fn read_row(input: &str, payload: &[u8]) {
    let expected = match parse_srci(payload) {
        Some(parsed) => rows_of(payload, &parsed),
        None => panic!("{input}: the Rust refuses it"),
    };
    let rows = expected.len() / WIDTH;
    let mut table = vec![UNTOUCHED; expected.len()];
    let answer = read(payload, &mut table);
    assert!(
        answer.number == 0 && answer.second as usize == rows && table == expected,
        "{input}"
    );
    drop(expected);
    let rust = best(|| {
        let start = Instant::now();
        let parsed = black_box(parse_srci(black_box(payload)));
        let took = start.elapsed();
        drop(parsed);
        took
    });
    let here = best(|| {
        let start = Instant::now();
        black_box(read(black_box(payload), &mut table));
        start.elapsed()
    });
    print_row(input, payload, rows, rust, here);
}

/// The rows are those that reading gives. The Rust's document keeps no original, so it is really written.
fn write_row(input: &str, payload: &[u8]) {
    let rows = read(payload, &mut []).second as usize;
    let mut table = vec![UNTOUCHED; WIDTH * rows];
    assert_eq!(read(payload, &mut table).number, 0, "{input}");
    let document = document(parse_srci(payload).unwrap().sections);
    let mut output = vec![UNTOUCHED_BYTE; payload.len()];
    let answer = write(payload, &[], &table, &mut output);
    assert!(
        answer.number == 0 && output == payload && document.write_payload() == payload,
        "{input}"
    );
    let rust = best(|| {
        let start = Instant::now();
        let written = black_box(black_box(&document).write_payload());
        let took = start.elapsed();
        drop(written);
        took
    });
    let here = best(|| {
        let start = Instant::now();
        black_box(write(
            black_box(payload),
            &[],
            black_box(&table),
            &mut output,
        ));
        start.elapsed()
    });
    print_row(input, payload, rows, rust, here);
}

/// Hands on what the Rust makes of a payload or a sheet, and then frees all that it allocated.
type Rust = fn(&[u8], &mut dyn FnMut(&[u8]));

fn rust_list(payload: &[u8], done: &mut dyn FnMut(&[u8])) {
    let parsed = black_box(parse_srci(black_box(payload))).unwrap();
    let text = black_box(parsed.to_string());
    done(text.as_bytes());
}

fn rust_copy(payload: &[u8], done: &mut dyn FnMut(&[u8])) {
    let mut parsed = black_box(parse_srci(black_box(payload))).unwrap();
    let mut sections = std::mem::take(&mut parsed.sections);
    make_public(&mut sections);
    let public = document(sections);
    let copy = black_box(public.write_payload());
    done(&copy);
}

fn rust_card(payload: &[u8], done: &mut dyn FnMut(&[u8])) {
    rust_copy(payload, &mut |copy| rust_list(copy, done));
}

fn rust_to_sheet(payload: &[u8], done: &mut dyn FnMut(&[u8])) {
    let parsed = black_box(parse_srci(black_box(payload))).unwrap();
    let sheet = black_box(sheet_of(&parsed));
    done(sheet.as_bytes());
}

fn rust_from_sheet(sheet: &[u8], done: &mut dyn FnMut(&[u8])) {
    let document = black_box(read_sheet(black_box(sheet))).unwrap();
    let payload = black_box(document.write_payload());
    done(&payload);
}

fn made_row(input: &str, bytes: &[u8], job: Job, rust: Rust) {
    let mut made = vec![];
    rust(bytes, &mut |bytes| made = bytes.to_vec());
    assert!(make(job, bytes).is_ok_and(|here| here == made), "{input}");
    let rust = best(|| {
        let mut took = Duration::ZERO;
        let start = Instant::now();
        rust(bytes, &mut |_| took = start.elapsed());
        took
    });
    let here = output_time(job, bytes);
    print_row(input, bytes, made.len(), rust, here);
}

fn print_row(input: &str, bytes: &[u8], made: usize, rust: Duration, here: Duration) {
    println!(
        "| {input} | {} | {made} | {:.2} | {:.2} | {:.2} |",
        bytes.len(),
        rust.as_secs_f64() * 1e3,
        here.as_secs_f64() * 1e3,
        here.as_secs_f64() / rust.as_secs_f64()
    );
}

/// The shortest of several runs.
fn best(run: impl FnMut() -> Duration) -> Duration {
    std::iter::repeat_with(run).take(RUNS).min().unwrap()
}
