//! Compares `srci_card` with the listing that the Rust gives of the copy that it writes, and holds each card to what
//! `srci_list` gives of what `srci_public_copy` makes.
use crate::call::{card, list, make, public_copy};
use crate::compare::{fail, Compare};
use crate::list::shorter;
use crate::output::Outputs;
use crate::rust_made;

pub struct CardTotals {
    outputs: Outputs,
    listed_copies: u64,
}

impl CardTotals {
    pub fn new() -> Self {
        CardTotals {
            outputs: Outputs::new(card, rust_made::card, shorter),
            listed_copies: 0,
        }
    }

    pub fn print(&self) {
        self.outputs.print();
        println!("{} cards that list a copy", self.listed_copies);
    }
}

impl Compare for CardTotals {
    fn compare(&mut self, payload: &[u8]) {
        self.outputs.compare(payload);
        let listed = make(public_copy, payload).and_then(|copy| make(list, &copy));
        if make(card, payload) != listed {
            fail(payload, 0, "the card is not what the copy is listed as");
        }
        self.listed_copies += u64::from(listed.is_ok());
    }

    fn compare_refused(&mut self, payload: &[u8], expected: u32) {
        self.outputs.compare_refused(payload, expected);
    }
}
