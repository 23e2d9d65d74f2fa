//! Compares `srci_to_sheet` and `srci_from_sheet` with a sheet that is made and read over the Rust, and holds them to
//! each other: a payload comes back from its sheet, and a sheet that is accepted from its payload.
use crate::boundaries::LIMIT;
use crate::call::{from_sheet, make, to_sheet};
use crate::compare::{fail, Compare};
use crate::copy;
use crate::output::{Calls, Outputs};
use crate::payloads::Random;
use crate::rust_rows::catch;
use crate::rust_sheet;
use crate::sheet_damage::{any_sheet, damage_sheet};

pub struct SheetTotals {
    outward: Outputs,
    payloads_back: u64,
    sheets: u64,
    accepted: u64,
    inward: Calls,
    sheets_back: u64,
    followed: u64,
}

impl SheetTotals {
    pub fn new() -> Self {
        SheetTotals {
            outward: Outputs::new(to_sheet, rust_sheet::to_sheet, shorter),
            payloads_back: 0,
            sheets: 0,
            accepted: 0,
            inward: Calls::new(from_sheet, copy::shorter),
            sheets_back: 0,
            followed: 0,
        }
    }

    /// Random sheets: a third well formed, the others damaged in one to three places. What is accepted goes out too: its
    /// texts have what a sheet escapes.
    pub fn compare_random(&mut self, count: u64, random: &mut Random) {
        for _ in 0..count {
            let mut sheet = any_sheet(random);
            if random.below(3) != 0 {
                for _ in 0..=random.below(3) {
                    damage_sheet(random, &mut sheet);
                }
            }
            let numbers = self.compare_sheet(&sheet);
            match make(from_sheet, &sheet) {
                Ok(payload) => self.outward.compare(&payload),
                Err(_) => self.compare_followed(random, &sheet, numbers),
            }
        }
    }

    /// What follows a sheet's first faulty line changes neither of its numbers. One that is not closed has nothing after
    /// it, and 18 is no line's fault.
    fn compare_followed(&mut self, random: &mut Random, sheet: &[u8], numbers: (u32, u32)) {
        let ends = (1..=sheet.len()).filter(|&end| sheet[end - 1] == b'\n');
        let is_faulty =
            |part: &&[u8]| matches!(rust_sheet::read_sheet(part), Err((11 | 12 | 20, _)));
        if let Some(part) = ends.map(|end| &sheet[..end]).find(is_faulty) {
            let length = random.below(40);
            for rest in [vec![], random.bytes(length), any_sheet(random)] {
                let followed = [part, &rest].concat();
                if self.compare_sheet(&followed) != numbers {
                    fail(&followed, 0, "its first faulty line does not decide");
                }
                self.followed += 1;
            }
        }
    }

    /// Compares on one sheet, with an output for each case that its payload's length makes. Gives the two numbers that
    /// the Rust gives, for an output that is long enough.
    pub fn compare_sheet(&mut self, sheet: &[u8]) -> (u32, u32) {
        self.sheets += 1;
        match catch(|| rust_sheet::from_sheet(sheet)) {
            Some(Ok(payload)) => {
                self.accepted += 1;
                self.inward.expect_made(sheet, &payload);
                if make(to_sheet, &payload).as_deref() != Ok(sheet) {
                    fail(sheet, 0, "its payload has another sheet");
                }
                self.sheets_back += 1;
                (0, payload.len() as u32)
            }
            Some(Err((number, second))) => {
                // a line makes at most 4 times its length: what the lines before a fault make, and what is just too
                // long, would find room in the last
                let longest = (8 + 4 * sheet.len()).min(LIMIT) + 1_000;
                for lent in [0, 8, longest] {
                    self.inward.expect(sheet, lent, number, second, &[]);
                }
                (number, second)
            }
            None => fail(sheet, 0, "the Rust panics where no rule is broken"),
        }
    }

    pub fn print(&self) {
        self.outward.print();
        println!(
            "{} payloads that come back from their sheets",
            self.payloads_back
        );
        println!("{} sheets", self.sheets);
        println!(
            "  {} accepted by the rules, and written by the Rust",
            self.accepted
        );
        self.inward.print([0, 11, 12, 18, 19, 20]);
        println!(
            "{} sheets that come back from their payloads",
            self.sheets_back
        );
        println!(
            "{} sheets with other lines after the first faulty one, and the same answer",
            self.followed
        );
    }
}

impl Compare for SheetTotals {
    fn compare(&mut self, payload: &[u8]) {
        self.outward.compare(payload);
        if let Ok(sheet) = make(to_sheet, payload) {
            self.compare_sheet(&sheet);
            if make(from_sheet, &sheet).as_deref() != Ok(payload) {
                fail(payload, 0, "its sheet has another payload");
            }
            self.payloads_back += 1;
        }
    }

    fn compare_refused(&mut self, payload: &[u8], expected: u32) {
        self.outward.compare_refused(payload, expected);
    }
}

/// A byte short, the last line short, the first line alone, nothing. The empty sheet has nothing that is shorter.
fn shorter(sheet: &[u8]) -> Vec<usize> {
    if sheet.is_empty() {
        vec![]
    } else {
        crate::list::shorter(sheet)
    }
}
