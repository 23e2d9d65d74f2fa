//! Compares `srci_read` with the Rust, payload by payload and table by table. What is accepted is written
//! back from its rows.
use crate::call::{read_guarded, write_guarded, UNTOUCHED};
use crate::payloads::Random;
use crate::rust_rows::{parse, Parsed};

/// What a payload is compared by: a job that takes a payload.
pub trait Compare {
    /// Compares on one payload, with a buffer for each case that its length makes.
    fn compare(&mut self, payload: &[u8]);

    /// Compares on one payload, which is refused with a number.
    fn compare_refused(&mut self, payload: &[u8], expected: u32);
}

/// How many numbers make a row.
pub const WIDTH: usize = 7;

pub struct Totals {
    payloads: u64,
    accepted: u64,
    panicked: u64,
    calls: u64,
    by_number: [u64; 17],
    written_back: u64,
    random: Random,
}

impl Totals {
    /// The edit texts of writing back are random.
    pub fn new(seed: u64) -> Self {
        Totals {
            payloads: 0,
            accepted: 0,
            panicked: 0,
            calls: 0,
            by_number: [0; 17],
            written_back: 0,
            random: Random::new(!seed),
        }
    }
}

impl Compare for Totals {
    fn compare(&mut self, payload: &[u8]) {
        self.payloads += 1;
        match parse(payload) {
            Parsed::Rows(rows) => {
                self.accepted += 1;
                let needed = (rows.len() / WIDTH) as u32;
                if (payload.len() - 8) / 2 < rows.len() / WIDTH {
                    fail(payload, 0, "it makes more rows than (length - 8) / 2");
                }
                // exactly full, a part of a row longer, rows longer
                for lent in [rows.len(), rows.len() + 6, rows.len() + 3 * WIDTH + 1] {
                    self.expect(payload, lent, |number| number == 0, needed, &rows);
                }
                if !rows.is_empty() {
                    // one number short, one row short, a part of a row, nothing
                    for lent in [rows.len() - 1, rows.len() - WIDTH, WIDTH - 1, 0] {
                        self.expect(payload, lent, |number| number == 16, needed, &[]);
                    }
                }
                self.write_back(payload, &rows);
            }
            // 12 may come first where a later fault makes the Rust give None
            Parsed::Refused => self.refused(payload, |number| (1..=15).contains(&number)),
            Parsed::Panicked => {
                self.panicked += 1;
                self.refused(payload, |number| number == 12);
            }
        }
    }

    fn compare_refused(&mut self, payload: &[u8], expected: u32) {
        self.payloads += 1;
        if expected != 1 && matches!(parse(payload), Parsed::Rows(_)) {
            fail(payload, 0, "the Rust accepts it");
        }
        self.refused(payload, |number| number == expected);
    }
}

impl Totals {
    fn refused(&mut self, payload: &[u8], is_right: impl Fn(u32) -> bool) {
        for lent in [0, WIDTH, 10 * WIDTH + 1] {
            self.expect(payload, lent, &is_right, 0, &[]);
        }
    }

    /// Writing a payload's rows gives the payload, whatever the edit text.
    fn write_back(&mut self, payload: &[u8], rows: &[u32]) {
        let length = 1 + self.random.below(40);
        for edit in [vec![], self.random.bytes(length)] {
            let (answer, output) = match write_guarded(payload, &edit, rows, payload.len()) {
                Ok(written) => written,
                Err(what) => fail(payload, rows.len(), what),
            };
            if answer.number != 0 || answer.second as usize != payload.len() || output != payload {
                let what = format!(
                    "written back: number {}, second number {}",
                    answer.number, answer.second
                );
                fail(payload, rows.len(), &what);
            }
            self.written_back += 1;
        }
    }

    /// One call. The table must begin with the rows, and hold what it held before from there on.
    fn expect(
        &mut self,
        payload: &[u8],
        lent: usize,
        is_right: impl Fn(u32) -> bool,
        second: u32,
        rows: &[u32],
    ) {
        let (answer, table) = match read_guarded(payload, lent) {
            Ok(read) => read,
            Err(what) => fail(payload, lent, what),
        };
        if !is_right(answer.number) {
            fail(payload, lent, &format!("the number is {}", answer.number));
        }
        if answer.second != second {
            fail(
                payload,
                lent,
                &format!("the second number is {}, not {second}", answer.second),
            );
        }
        let (stored, rest) = table.split_at(rows.len());
        if stored != rows {
            fail(
                payload,
                lent,
                &format!("the rows are {stored:?}, not {rows:?}"),
            );
        }
        if rest.iter().any(|&number| number != UNTOUCHED) {
            fail(payload, lent, "a number past the stored rows was changed");
        }
        self.calls += 1;
        self.by_number[answer.number as usize] += 1;
    }

    pub fn print(&self) {
        println!("{} payloads", self.payloads);
        println!("  {} accepted by the Rust", self.accepted);
        println!("  {} on which the Rust panics", self.panicked);
        println!(
            "{} calls, all as they should be; by their number:",
            self.calls
        );
        for (number, calls) in self.by_number.iter().enumerate() {
            println!("  {number:2}: {calls}");
        }
        println!("{} calls that write a payload back", self.written_back);
    }
}

/// Says what is different in a call on a payload or a sheet, with a table or an output of some length.
pub fn fail(input: &[u8], lent: usize, what: &str) -> ! {
    println!("DIFFERENT: {what}");
    println!("lent: {lent}");
    let shown = &input[..input.len().min(4096)];
    let hex: String = shown.iter().map(|byte| format!("{byte:02x}")).collect();
    println!("input: {} bytes, {hex}", input.len());
    std::process::exit(1);
}
