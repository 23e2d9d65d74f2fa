//! Compares a job that takes a payload and an output with the Rust, payload by payload and output by output.
use crate::call::{guarded, read, Job, UNTOUCHED_BYTE};
use crate::compare::{fail, Compare};
use crate::rust_made::Made;

pub struct Outputs {
    rust: fn(&[u8]) -> Made,
    payloads: u64,
    accepted: u64,
    panicked: u64,
    calls: Calls,
}

impl Compare for Outputs {
    fn compare(&mut self, payload: &[u8]) {
        match (self.rust)(payload) {
            Made::Bytes(bytes) => {
                self.payloads += 1;
                self.accepted += 1;
                self.calls.expect_made(payload, &bytes);
            }
            // the Rust does not say why, and reading, which is compared by itself, does
            Made::Refused => {
                let number = read(payload, &mut []).number;
                if !(1..=15).contains(&number) {
                    fail(payload, 0, &format!("reading answers {number}"));
                }
                self.compare_refused(payload, number);
            }
            Made::Panicked => {
                self.panicked += 1;
                self.compare_refused(payload, 12);
            }
        }
    }

    fn compare_refused(&mut self, payload: &[u8], expected: u32) {
        self.payloads += 1;
        let number = read(payload, &mut []).number;
        if number != expected {
            fail(payload, 0, &format!("reading answers {number}"));
        }
        for lent in [0, 36, 1_000] {
            self.calls.expect(payload, lent, expected, 0, &[]);
        }
    }
}

impl Outputs {
    pub fn new(job: Job, rust: fn(&[u8]) -> Made, shorter: fn(&[u8]) -> Vec<usize>) -> Self {
        Outputs {
            rust,
            payloads: 0,
            accepted: 0,
            panicked: 0,
            calls: Calls::new(job, shorter),
        }
    }

    pub fn print(&self) {
        println!("{} payloads", self.payloads);
        println!("  {} accepted by the Rust", self.accepted);
        println!("  {} on which the Rust panics", self.panicked);
        self.calls.print((0..16).chain([19]));
    }
}

/// Calls of a job, each with its whole answer known before.
pub struct Calls {
    job: Job,
    /// Lengths, each less than that of the bytes that are made.
    shorter: fn(&[u8]) -> Vec<usize>,
    calls: u64,
    by_number: [u64; 21],
}

impl Calls {
    pub fn new(job: Job, shorter: fn(&[u8]) -> Vec<usize>) -> Self {
        Calls {
            job,
            shorter,
            calls: 0,
            by_number: [0; 21],
        }
    }

    /// The job makes these bytes of an input: an output for each case that their length makes.
    pub fn expect_made(&mut self, input: &[u8], bytes: &[u8]) {
        let needed = bytes.len();
        // exactly full, a byte longer, many bytes longer
        for lent in [needed, needed + 1, needed + 67] {
            self.expect(input, lent, 0, needed as u32, bytes);
        }
        for lent in (self.shorter)(bytes) {
            self.expect(input, lent, 19, needed as u32, &[]);
        }
    }

    /// One call. The output must begin with the bytes, and hold what it held before from there on.
    pub fn expect(&mut self, input: &[u8], lent: usize, number: u32, second: u32, bytes: &[u8]) {
        let (answer, output) = match guarded(self.job, input, lent) {
            Ok(made) => made,
            Err(what) => fail(input, lent, what),
        };
        if answer.number != number {
            let what = format!("the number is {}, not {number}", answer.number);
            fail(input, lent, &what);
        }
        if answer.second != second {
            let what = format!("the second number is {}, not {second}", answer.second);
            fail(input, lent, &what);
        }
        let (stored, rest) = output.split_at(bytes.len());
        if stored != bytes {
            let at = (0..bytes.len()).find(|&at| stored[at] != bytes[at]);
            let at = at.unwrap();
            let shown = at.saturating_sub(40)..bytes.len().min(at + 40);
            let [stored, bytes] = [stored, bytes].map(|all| all[shown.clone()].escape_ascii());
            fail(
                input,
                lent,
                &format!("at {at} it has \"{stored}\", not \"{bytes}\""),
            );
        }
        if rest.iter().any(|&byte| byte != UNTOUCHED_BYTE) {
            fail(input, lent, "a byte past the stored ones was changed");
        }
        self.calls += 1;
        self.by_number[number as usize] += 1;
    }

    /// How many calls had each of these numbers. The boundaries alone meet each of them.
    pub fn print(&self, numbers: impl IntoIterator<Item = usize>) {
        println!(
            "{} calls, all as they should be; by their number:",
            self.calls
        );
        for number in numbers {
            let calls = self.by_number[number];
            println!("  {number:2}: {calls}");
            assert!(calls > 0, "no call had the number {number}");
        }
    }
}
