//! Compares `srci_public_copy` with the copy that the Rust writes, and holds each copy to what is said of it: no
//! longer than the payload, accepted by reading, and its own public copy.
use crate::call::{public_copy, read};
use crate::compare::{fail, Compare};
use crate::output::Outputs;
use crate::rust_made::{self, Made};

pub struct CopyTotals {
    outputs: Outputs,
    copied_again: u64,
}

impl CopyTotals {
    pub fn new() -> Self {
        CopyTotals {
            outputs: Outputs::new(public_copy, rust_made::copy, shorter),
            copied_again: 0,
        }
    }

    pub fn print(&self) {
        self.outputs.print();
        println!("{} calls that copy a copy", self.copied_again);
    }
}

impl Compare for CopyTotals {
    fn compare(&mut self, payload: &[u8]) {
        self.outputs.compare(payload);
        if let Made::Bytes(copy) = rust_made::copy(payload) {
            if payload.len() < copy.len() {
                fail(payload, 0, "the copy is longer");
            }
            // no rows are lent: 16 comes after every fault of the payload
            let number = read(&copy, &mut []).number;
            if number != 0 && number != 16 {
                fail(&copy, 0, &format!("reading a copy answers {number}"));
            }
            let needed = copy.len();
            let mut output = vec![0xFF; needed];
            let answer = public_copy(&copy, &mut output);
            if answer.number != 0 || answer.second as usize != needed || output != copy {
                fail(&copy, needed, "a copy is not its own copy");
            }
            self.copied_again += 1;
        }
    }

    fn compare_refused(&mut self, payload: &[u8], expected: u32) {
        self.outputs.compare_refused(payload, expected);
    }
}

/// A byte short, half, the main header alone, nothing.
pub fn shorter(copy: &[u8]) -> Vec<usize> {
    let needed = copy.len();
    vec![needed - 1, needed / 2, 8 % needed, 0]
}
