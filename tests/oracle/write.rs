//! Compares `srci_write` with the rules and the Rust, table by table and output by output.
use crate::call::{write_guarded, UNTOUCHED_BYTE};
use crate::compare::WIDTH;
use crate::payloads::Random;
use crate::rust_write::{expected, Expected};
use crate::tables::{any_table, damage_table};

#[derive(Default)]
pub struct WriteTotals {
    tables: u64,
    accepted: u64,
    calls: u64,
    by_number: [u64; 20],
}

impl WriteTotals {
    /// Random tables: a third obey the rules, the others are damaged in one to three places.
    pub fn compare_random(&mut self, count: u64, random: &mut Random) {
        for _ in 0..count {
            let mut table = any_table(random);
            if random.below(3) != 0 {
                for _ in 0..=random.below(3) {
                    damage_table(random, &mut table);
                }
            }
            self.compare(&table.payload, &table.edit, &table.rows);
        }
    }

    /// Compares on one table, with an output for each case that its length makes. Gives the number that
    /// the rules give.
    pub fn compare(&mut self, payload: &[u8], edit: &[u8], rows: &[u32]) -> u32 {
        self.tables += 1;
        let call = Call {
            payload,
            edit,
            rows,
        };
        match expected(payload, edit, rows) {
            Expected::Written(bytes) => {
                self.accepted += 1;
                self.written(&call, &bytes);
                0
            }
            Expected::Refused(number) => {
                for lent in [0, 8, 1_000] {
                    self.expect(&call, lent, number, 0, &[]);
                }
                number
            }
            Expected::Panicked => call.fail(0, "the Rust panics where no rule is broken"),
        }
    }

    fn written(&mut self, call: &Call, bytes: &[u8]) {
        let needed = bytes.len();
        // exactly full, a byte longer, many bytes longer
        for lent in [needed, needed + 1, needed + 67] {
            self.expect(call, lent, 0, needed as u32, bytes);
        }
        // a byte short, half of it, the main header, nothing
        for lent in [needed - 1, needed / 2, 8.min(needed - 1), 0] {
            self.expect(call, lent, 19, needed as u32, &[]);
        }
    }

    /// One call. The output must begin with the bytes, and hold what it held before from there on.
    fn expect(&mut self, call: &Call, lent: usize, number: u32, second: u32, bytes: &[u8]) {
        let (answer, output) = match write_guarded(call.payload, call.edit, call.rows, lent) {
            Ok(written) => written,
            Err(what) => call.fail(lent, what),
        };
        if answer.number != number {
            call.fail(
                lent,
                &format!("the number is {}, not {number}", answer.number),
            );
        }
        if answer.second != second {
            call.fail(
                lent,
                &format!("the second number is {}, not {second}", answer.second),
            );
        }
        let (stored, rest) = output.split_at(bytes.len());
        if stored != bytes {
            call.fail(
                lent,
                &format!("the bytes are {}, not {}", hex(stored), hex(bytes)),
            );
        }
        if rest.iter().any(|&byte| byte != UNTOUCHED_BYTE) {
            call.fail(lent, "a byte past the stored ones was changed");
        }
        self.calls += 1;
        self.by_number[number as usize] += 1;
    }

    pub fn print(&self) {
        println!("{} tables", self.tables);
        println!(
            "  {} accepted by the rules, and written by the Rust",
            self.accepted
        );
        println!(
            "{} calls, all as they should be; by their number:",
            self.calls
        );
        for number in [0, 11, 12, 17, 18, 19] {
            println!("  {number:2}: {}", self.by_number[number]);
        }
    }
}

struct Call<'a> {
    payload: &'a [u8],
    edit: &'a [u8],
    rows: &'a [u32],
}

impl Call<'_> {
    fn fail(&self, lent: usize, what: &str) -> ! {
        println!("DIFFERENT: {what}");
        println!("output: {lent} bytes");
        println!(
            "payload: {} bytes, {}",
            self.payload.len(),
            hex(self.payload)
        );
        println!("edit text: {} bytes, {}", self.edit.len(), hex(self.edit));
        println!("rows: {} numbers", self.rows.len());
        for row in self.rows.chunks(WIDTH).take(100) {
            println!("  {row:?}");
        }
        std::process::exit(1);
    }
}

fn hex(bytes: &[u8]) -> String {
    let shown = &bytes[..bytes.len().min(4096)];
    shown.iter().map(|byte| format!("{byte:02x}")).collect()
}
