//! Replays the stored calls of crates/replay through the Rust package. Standard input is its data/calls.txt, and what is
//! printed must be its stdout; crates/replay/src/main.rt says what a line of each is.
//!
//! With the argument `lent` each call is made on lent buffers. With `owned` it is made by the functions that allocate,
//! and the answer is what a lent buffer of the stored length would get.
use srci::{lent, Refusal, Row};
use std::{env, io};

const NUMBERS: usize = 128;
const BYTES: usize = 512;
const UNTOUCHED: u32 = 0xA5A5_A5A5;
const UNTOUCHED_BYTE: u8 = 0xA5;

fn decode(digits: &str) -> Vec<u8> {
    let byte = |at| u8::from_str_radix(&digits[at..at + 2], 16).unwrap();
    (0..digits.len() / 2).map(|place| byte(2 * place)).collect()
}

fn decode_numbers(words: &str) -> Vec<u32> {
    let words = words.split(',').filter(|word| *word != "-");
    words.map(|word| word.parse().unwrap()).collect()
}

/// The two numbers of an answer, and how many elements were stored.
fn numbers(answer: Result<usize, Refusal>, width: usize) -> (u32, u32, usize) {
    match answer {
        Ok(stored) => (0, stored as u32, stored * width),
        Err(refusal) => (refusal.number(), refusal.second(), 0),
    }
}

fn print_table(answer: Result<usize, Refusal>, table: &[u32]) {
    let (number, second, stored) = numbers(answer, Row::WIDTH);
    let (stored, rest) = table.split_at(stored);
    let untouched = rest.iter().filter(|&&number| number == UNTOUCHED).count();
    print!("{number} {second} {untouched}");
    stored.iter().for_each(|number| print!(" {number}"));
    println!();
}

fn print_output(answer: Result<usize, Refusal>, output: &[u8]) {
    let (number, second, stored) = numbers(answer, 1);
    let (stored, rest) = output.split_at(stored);
    let untouched = rest.iter().filter(|&&byte| byte == UNTOUCHED_BYTE).count();
    print!("{number} {second} {untouched} ");
    stored.iter().for_each(|byte| print!("{byte:02x}"));
    println!();
}

fn replay_lent(job: &str, lent: usize, payload: &[u8], edit: &[u8], rows: &[u32]) {
    let mut table = [UNTOUCHED; NUMBERS];
    let mut output = [UNTOUCHED_BYTE; BYTES];
    let answer = match job {
        "read" => return print_table(lent::read(payload, &mut table[..lent]), &table),
        "write" => lent::write(payload, edit, rows, &mut output[..lent]),
        "list" => lent::list(payload, &mut output[..lent]),
        "public_copy" => lent::public_copy(payload, &mut output[..lent]),
        "card" => lent::card(payload, &mut output[..lent]),
        "to_sheet" => lent::to_sheet(payload, &mut output[..lent]),
        "from_sheet" => lent::from_sheet(payload, &mut output[..lent]),
        _ => panic!("no job {job}"),
    };
    print_output(answer, &output);
}

fn replay_owned(job: &str, lent: usize, payload: &[u8], edit: &[u8], rows: &[u32]) {
    let made = match job {
        "read" => return replay_read(lent, payload),
        "write" if rows.len() % Row::WIDTH == 0 => srci::write(payload, edit, &rows_of(rows)),
        // a list of rows is never a table that is not of whole rows
        "write" => Err(Refusal::BadRow),
        "list" => srci::list(payload).map(String::into_bytes),
        "public_copy" => srci::public_copy(payload),
        "card" => srci::card(payload).map(String::into_bytes),
        "to_sheet" => srci::to_sheet(payload),
        "from_sheet" => srci::from_sheet(payload),
        _ => panic!("no job {job}"),
    };
    let mut output = [UNTOUCHED_BYTE; BYTES];
    let answer = made.and_then(|bytes| {
        if lent < bytes.len() {
            return Err(Refusal::NoRoom(bytes.len() as u32));
        }
        output[..bytes.len()].copy_from_slice(&bytes);
        Ok(bytes.len())
    });
    print_output(answer, &output);
}

fn replay_read(lent: usize, payload: &[u8]) {
    let mut table = [UNTOUCHED; NUMBERS];
    let answer = srci::read(payload).and_then(|rows| {
        if lent / Row::WIDTH < rows.len() {
            return Err(Refusal::NoRows(rows.len() as u32));
        }
        for (row, place) in rows.iter().zip(table.chunks_exact_mut(Row::WIDTH)) {
            place.copy_from_slice(&[row.tag, row.side, row.a, row.b, row.c, row.d, row.e]);
        }
        Ok(rows.len())
    });
    print_table(answer, &table);
}

fn rows_of(numbers: &[u32]) -> Vec<Row> {
    let row = |n: &[u32]| Row {
        tag: n[0],
        side: n[1],
        a: n[2],
        b: n[3],
        c: n[4],
        d: n[5],
        e: n[6],
    };
    numbers.chunks_exact(Row::WIDTH).map(row).collect()
}

fn main() {
    let replay = match env::args().nth(1).as_deref() {
        Some("lent") => replay_lent,
        Some("owned") => replay_owned,
        _ => panic!("lent or owned?"),
    };
    for line in io::stdin().lines() {
        let line = line.unwrap();
        let mut words = line.split(' ');
        let mut word = || words.next().unwrap_or("-");
        let (job, lent) = (word(), word().parse().unwrap());
        let (payload, edit) = (decode(word()), decode(word()));
        let rows = decode_numbers(word());
        replay(job, lent, &payload, &edit, &rows);
    }
}
