//! The listings at the edges: numbers of sections, counts, sizes and kinds where the digits grow by one.
use crate::boundaries::LIMIT;
use crate::compare::Compare;
use crate::payloads::{arguments, contents, names, packed, payload, section};

pub fn compare_all(totals: &mut impl Compare) {
    section_counts(totals);
    packed_counts(totals);
    stored_sizes(totals);
    counts(totals);
    kinds(totals);
}

/// 0, and the numbers from 1 to a bound that are a power of 10, or one less or more.
pub fn digit_edges(bound: u64) -> Vec<u64> {
    let powers = (0..20).map(|power| 10u64.pow(power));
    let mut edges: Vec<u64> = powers.flat_map(|n| [n - 1, n, n + 1]).collect();
    edges.push(bound);
    edges.retain(|&n| n <= bound);
    edges.dedup();
    edges
}

/// Every kind of section in turn, so that each has its line at places of one digit and of five.
fn section_counts(totals: &mut impl Compare) {
    let every = [
        section(3, b""),
        names(&[]),
        packed(0, b"", 900, 5),
        arguments(&[]),
        contents(0, &[]),
    ];
    for count in digit_edges(65_535) {
        let sections: Vec<_> = every.iter().cloned().cycle().take(count as usize).collect();
        totals.compare(&payload(&sections));
        totals.compare(&payload(&vec![section(u16::MAX, b""); count as usize]));
    }
    // the longest lines: 65,535 packed sections with the largest count
    totals.compare(&payload(&vec![packed(0, &[1; 100], 0, u32::MAX); 65_535]));
}

/// The count of a packed section is any number.
fn packed_counts(totals: &mut impl Compare) {
    for count in digit_edges(u64::from(u32::MAX)) {
        totals.compare(&payload(&[packed(0, b"ab", 0, count as u32)]));
    }
    for bit in 0..32 {
        totals.compare(&payload(&[packed(0, b"", 0, 1 << bit)]));
        totals.compare(&payload(&[packed(0, b"", 0, (1 << bit) - 1)]));
    }
}

/// The bytes of packed and of unknown sections, up to the limit.
fn stored_sizes(totals: &mut impl Compare) {
    let most = vec![1; LIMIT];
    for size in digit_edges(LIMIT as u64 - 36) {
        totals.compare(&payload(&[packed(0, &most[..size as usize], 0, 0)]));
    }
    for size in digit_edges(LIMIT as u64 - 16) {
        // the multiples of 4 on both sides
        let below = size as usize / 4 * 4;
        totals.compare(&payload(&[section(3, &most[..below])]));
        if below + 4 <= LIMIT - 16 {
            totals.compare(&payload(&[section(3, &most[..below + 4])]));
        }
    }
}

/// As many names, pairs and plain contents as a section may have.
fn counts(totals: &mut impl Compare) {
    for count in digit_edges(65_532 / 20) {
        let entries = vec![(vec![], 1); count as usize];
        totals.compare(&payload(&[names(&entries)]));
    }
    for count in digit_edges((LIMIT as u64 - 28) / 2) {
        let pairs = vec![(vec![], vec![]); count as usize];
        totals.compare(&payload(&[arguments(&pairs)]));
    }
    for count in digit_edges((LIMIT as u64 - 36) / 16) {
        let texts = vec![vec![]; count as usize];
        totals.compare(&payload(&[contents(0, &texts)]));
    }
}

/// Every kind that is unknown.
fn kinds(totals: &mut impl Compare) {
    for kind in 3..=u16::MAX {
        totals.compare(&payload(&[section(kind, b"")]));
    }
}
