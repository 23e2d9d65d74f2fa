//! The published Rust, unchanged, with the two traits that it takes from its parent module.
extern crate alloc;

use alloc::vec::Vec;

pub trait ChunkParser<'a>: Sized {
    fn parse(data: &'a [u8]) -> Option<Self>;
}

pub trait ChunkWriter {
    fn fourcc(&self) -> [u8; 4];
    fn write_payload(&self) -> Vec<u8>;
}

// run.sh makes this link to the file that it is given.
#[path = "../../target/oracle/srci.rs"]
pub mod srci;
