//! The oracle: holds the C entry points to the published Rust. run.sh builds it and says how to call it.
mod bench;
mod boundaries;
mod call;
mod card;
mod compare;
mod copy;
mod copy_boundaries;
mod damage;
mod list;
mod list_boundaries;
mod output;
mod pairs;
mod payloads;
mod rust_made;
mod rust_rows;
mod rust_sheet;
mod rust_write;
mod sheet;
mod sheet_boundaries;
mod sheet_damage;
mod tables;
mod write;
mod write_boundaries;

use card::CardTotals;
use compare::{Compare, Totals};
use copy::CopyTotals;
use damage::damage;
use pairs::PairTotals;
use payloads::{any_payload, Random};
use sheet::SheetTotals;
use write::WriteTotals;

fn main() {
    rust_rows::hush();
    let words: Vec<String> = std::env::args().skip(1).collect();
    match words.iter().map(String::as_str).collect::<Vec<_>>()[..] {
        ["bench"] => bench::run(),
        [count, seed] => {
            compare_reading(number(count), number(seed));
            compare_writing(number(count), number(seed));
            compare_listing(number(count), number(seed));
            compare_copying(number(count), number(seed));
            compare_card(number(count), number(seed));
            compare_sheets(number(count), number(seed));
            compare_pairs(number(count), number(seed));
        }
        _ => usage(),
    }
}

/// Every boundary, then random payloads.
fn compare_reading(count: u64, seed: u64) {
    let mut totals = Totals::new(seed);
    boundaries::compare_all(&mut totals);
    compare_random(&mut totals, count, &mut Random::new(seed));
    println!("reading");
    totals.print();
}

/// Random payloads: a third well formed but for a text now and then, the others damaged in one to three
/// places.
fn compare_random(totals: &mut impl Compare, count: u64, random: &mut Random) {
    for _ in 0..count {
        let mut payload = any_payload(random, 20);
        if random.below(3) != 0 {
            for _ in 0..=random.below(3) {
                damage(random, &mut payload);
            }
        }
        totals.compare(&payload);
    }
}

/// Every boundary, then random tables.
fn compare_writing(count: u64, seed: u64) {
    let mut totals = WriteTotals::default();
    write_boundaries::compare_all(&mut totals);
    totals.compare_random(count, &mut Random::new(seed));
    println!("writing");
    totals.print();
}

/// Every boundary of reading and of its own, then random payloads, others than those of reading.
fn compare_listing(count: u64, seed: u64) {
    let mut totals = list::totals();
    boundaries::compare_all(&mut totals);
    list_boundaries::compare_all(&mut totals);
    compare_random(&mut totals, count, &mut Random::new(!seed));
    println!("listing");
    totals.print();
}

fn compare_copying(count: u64, seed: u64) {
    let mut totals = CopyTotals::new();
    compare_public(&mut totals, count, seed ^ 0x00C0_FFEE);
    println!("public copies");
    totals.print();
}

fn compare_card(count: u64, seed: u64) {
    let mut totals = CardTotals::new();
    compare_public(&mut totals, count, seed ^ 0x0CA5_CADE);
    println!("cards");
    totals.print();
}

/// Every boundary of reading, of copying and of its own, then random payloads and random sheets, others than those
/// before. A sheet has none of the numbers that a listing has at its edges.
fn compare_sheets(count: u64, seed: u64) {
    let mut totals = SheetTotals::new();
    let mut random = Random::new(seed ^ 0x05EE_DBED);
    boundaries::compare_all(&mut totals);
    copy_boundaries::compare_all(&mut totals);
    sheet_boundaries::compare_all(&mut totals);
    compare_random(&mut totals, count, &mut random);
    totals.compare_random(count, &mut random);
    println!("sheets");
    totals.print();
}

/// Every boundary of reading, of listing and of copying, then random payloads, others than those before.
fn compare_public(totals: &mut impl Compare, count: u64, seed: u64) {
    boundaries::compare_all(totals);
    list_boundaries::compare_all(totals);
    copy_boundaries::compare_all(totals);
    compare_random(totals, count, &mut Random::new(seed));
}

/// Small payloads, then random ones, each beside others.
fn compare_pairs(count: u64, seed: u64) {
    let mut totals = PairTotals::default();
    let mut random = Random::new(seed ^ 0x0DEC_ADE5);
    totals.compare_small(&mut random);
    totals.compare_random(count, &mut random);
    println!("pairs of payloads");
    totals.print();
}

fn number(word: &str) -> u64 {
    word.parse().unwrap_or_else(|_| usage())
}

fn usage() -> ! {
    eprintln!("usage: oracle COUNT SEED | oracle bench");
    std::process::exit(2);
}
