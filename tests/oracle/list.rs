//! Compares `srci_list` with the `Display` of the Rust.
use crate::call::list;
use crate::output::Outputs;
use crate::rust_made;

pub fn totals() -> Outputs {
    Outputs::new(list, rust_made::list, shorter)
}

/// A byte short, the last line short, the first line alone, nothing.
pub fn shorter(text: &[u8]) -> Vec<usize> {
    let needed = text.len();
    let lines = || (0..needed).filter(|&at| text[at] == b'\n').map(|at| at + 1);
    let last = lines().rev().nth(1).unwrap_or(0);
    let first = lines().next().unwrap_or(0) % needed;
    vec![needed - 1, last, first, 0]
}
