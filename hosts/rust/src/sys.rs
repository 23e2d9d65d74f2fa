//! The C entry points as they are: the one place where they are declared for Rust.
//!
//! A slice passes as a pointer and a length in elements. Every function returns 0 for an accepted call and stores the
//! rows or bytes stored in `second`, or returns the refusal's number and stores its second number.
//!
//! # Safety
//!
//! Each pointer and length is that of a slice, lent as Rust lends it. Nothing else is asked: whatever the slices hold,
//! each function is proved to stay inside them.

#[link(name = "srci", kind = "static")]
extern "C" {
    pub fn srci_read(
        payload: *const u8,
        payload_length: usize,
        rows: *mut u32,
        rows_length: usize,
        second: *mut u32,
    ) -> u32;

    pub fn srci_write(
        payload: *const u8,
        payload_length: usize,
        edit: *const u8,
        edit_length: usize,
        rows: *const u32,
        rows_length: usize,
        output: *mut u8,
        output_length: usize,
        second: *mut u32,
    ) -> u32;

    pub fn srci_list(
        payload: *const u8,
        payload_length: usize,
        output: *mut u8,
        output_length: usize,
        second: *mut u32,
    ) -> u32;

    pub fn srci_public_copy(
        payload: *const u8,
        payload_length: usize,
        output: *mut u8,
        output_length: usize,
        second: *mut u32,
    ) -> u32;

    pub fn srci_card(
        payload: *const u8,
        payload_length: usize,
        output: *mut u8,
        output_length: usize,
        second: *mut u32,
    ) -> u32;

    pub fn srci_to_sheet(
        payload: *const u8,
        payload_length: usize,
        output: *mut u8,
        output_length: usize,
        second: *mut u32,
    ) -> u32;

    pub fn srci_from_sheet(
        sheet: *const u8,
        sheet_length: usize,
        output: *mut u8,
        output_length: usize,
        second: *mut u32,
    ) -> u32;
}
