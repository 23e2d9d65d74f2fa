//! Row tables over a payload and an edit text: random ones, and damage to them.
use crate::compare::WIDTH;
use crate::payloads::{any_payload, Random, BAD, GOOD};
use crate::rust_rows::{parse, Parsed};

pub struct Table {
    pub payload: Vec<u8>,
    pub edit: Vec<u8>,
    pub rows: Vec<u32>,
}

/// Bytes that a side holds: texts may start and end at the places.
struct Side {
    bytes: Vec<u8>,
    places: Vec<u32>,
}

fn any_side(random: &mut Random) -> Side {
    let pieces = [0, 1, 4, 12, 40][random.below(5)];
    let mut side = Side {
        bytes: Vec::new(),
        places: vec![0],
    };
    for _ in 0..pieces {
        side.bytes.extend_from_slice(GOOD[random.below(GOOD.len())]);
        side.places.push(side.bytes.len() as u32);
    }
    side
}

impl Side {
    /// Start and length of a text; an empty one in a third.
    fn text(&self, random: &mut Random) -> [u32; 2] {
        let first = random.below(self.places.len());
        let left = self.places.len() - first;
        let last = first
            + match random.below(3) {
                0 => 0,
                1 => random.below(left),
                _ => random.below(left.min(5)),
            };
        [self.places[first], self.places[last] - self.places[first]]
    }

    /// Start and length of any bytes.
    fn part(&self, random: &mut Random) -> [u32; 2] {
        let start = random.below(self.bytes.len() + 1);
        let length = random.below(self.bytes.len() - start + 1);
        [start as u32, length as u32]
    }
}

/// A table that obeys the rules.
fn any_rows(random: &mut Random, sides: &[Side; 2]) -> Vec<u32> {
    let mut rows = Vec::new();
    let sections = if random.one_in(20) { 12 } else { 4 };
    for _ in 0..random.below(sections) {
        let entries = random.below(4);
        match random.below(5) {
            0 => {
                rows.extend([0, 0, random.field(), 0, 0, 0, 0]);
                for _ in 0..entries {
                    let side = random.below(2);
                    let [a, b] = sides[side].text(random);
                    rows.extend([5, side as u32, a, b, 0, 0, 0]);
                }
            }
            1 => {
                let side = random.below(2);
                let [b, c] = sides[side].part(random);
                let (a, d, e) = (random.field(), random.field(), random.field());
                rows.extend([1, side as u32, a, b, c, d, e]);
            }
            2 => {
                rows.extend([2, 0, 0, 0, 0, 0, 0]);
                // now and then so many of one name that their bytes come near to 65,535 or pass it
                let repeated = if random.one_in(1_000) {
                    3_270 + random.below(10)
                } else {
                    1
                };
                for _ in 0..entries {
                    let side = random.below(2);
                    let [a, b] = sides[side].text(random);
                    let c = random.field();
                    for _ in 0..repeated {
                        rows.extend([6, side as u32, a, b, c, 0, 0]);
                    }
                }
            }
            3 => {
                rows.extend([3, 0, 0, 0, 0, 0, 0]);
                for _ in 0..entries {
                    let side = random.below(2);
                    let [a, b] = sides[side].text(random);
                    let [c, d] = sides[side].text(random);
                    rows.extend([7, side as u32, a, b, c, d, 0]);
                }
            }
            _ => {
                let side = random.below(2);
                let [b, c] = sides[side].part(random);
                let a = [3, 4, 0xFF, 0x100, 0x8000, 65_535][random.below(6)];
                rows.extend([4, side as u32, a, b, c / 4 * 4, 0, 0]);
            }
        }
    }
    rows
}

/// A table that obeys the rules: of its own, or that of a payload with some texts from the edit text.
pub fn any_table(random: &mut Random) -> Table {
    let sides = [any_side(random), any_side(random)];
    if !random.one_in(4) {
        let rows = any_rows(random, &sides);
        let [payload, edit] = sides.map(|side| side.bytes);
        return Table {
            payload,
            edit,
            rows,
        };
    }
    let payload = any_payload(random, 0);
    let Parsed::Rows(mut rows) = parse(&payload) else {
        panic!("the Rust refuses a payload that is well formed");
    };
    for row in rows.chunks_mut(WIDTH) {
        if random.one_in(3) && matches!(row[0], 5 | 6 | 7) {
            row[1] = 1;
            row[2..4].copy_from_slice(&sides[1].text(random));
            if row[0] == 7 {
                row[4..6].copy_from_slice(&sides[1].text(random));
            }
        }
    }
    let [_, edit] = sides.map(|side| side.bytes);
    Table {
        payload,
        edit,
        rows,
    }
}

/// Changes a table, or the bytes under it, in one place.
pub fn damage_table(random: &mut Random, table: &mut Table) {
    let count = table.rows.len() / WIDTH;
    match random.below(12) {
        // ill-formed bytes or a NUL in a text, wherever one lies there
        0 | 1 => {
            let side = if random.one_in(2) {
                &mut table.payload
            } else {
                &mut table.edit
            };
            let piece = BAD[random.below(BAD.len())];
            let at = random.below(side.len() + 1);
            for (byte, &bad) in side[at..].iter_mut().zip(piece) {
                *byte = bad;
            }
        }
        // a side cut short
        2 => {
            let side = if random.one_in(2) {
                &mut table.payload
            } else {
                &mut table.edit
            };
            let length = side.len() - random.below(side.len().min(4) + 1);
            side.truncate(length);
        }
        3 => {
            if random.one_in(2) {
                let extra = 1 + random.below(WIDTH);
                table.rows.extend(vec![0; extra]);
            } else {
                let length = table.rows.len() - random.below(table.rows.len().min(WIDTH) + 1);
                table.rows.truncate(length);
            }
        }
        _ if count == 0 => {}
        // a row taken out, put in again elsewhere, or exchanged
        4 => {
            let at = WIDTH * random.below(count);
            let row: Vec<u32> = table.rows[at..at + WIDTH].to_vec();
            if random.one_in(2) {
                table.rows.drain(at..at + WIDTH);
            }
            if random.one_in(2) {
                let to = WIDTH * random.below(table.rows.len() / WIDTH + 1);
                table.rows.splice(to..to, row);
            }
        }
        5 => {
            let (one, other) = (random.below(count), random.below(count));
            for number in 0..WIDTH {
                table
                    .rows
                    .swap(WIDTH * one + number, WIDTH * other + number);
            }
        }
        kind => {
            let at = WIDTH * random.below(count);
            let row = &mut table.rows[at..at + WIDTH];
            let length = if row[1] == 1 {
                table.edit.len()
            } else {
                table.payload.len()
            } as u32;
            // where the row has a start, if it has one
            let start = match row[0] {
                1 | 4 => 3,
                7 if random.one_in(2) => 4,
                _ => 2,
            };
            match kind {
                6 => {
                    row[0] = match random.below(4) {
                        0 => row[0].wrapping_add(8),
                        1 => row[0] | 1 << (8 * (1 + random.below(3))),
                        2 => random.field(),
                        _ => random.below(9) as u32,
                    }
                }
                7 => row[1] = [0, 1, 1, 2, 256, 65_536, u32::MAX][random.below(7)],
                8 => row[2 + random.below(5)] = random.field() | 1 << random.below(32),
                // past the end, or the sum past 32 bits
                9 => match random.below(6) {
                    0 => row[start] = length - row[start + 1].min(length) + 1,
                    1 => row[start + 1] = length.wrapping_sub(row[start]).wrapping_add(1),
                    2 => row[start] = u32::MAX - random.below(8) as u32,
                    3 => row[start + 1] = u32::MAX - random.below(8) as u32,
                    4 => row[start] = 0u32.wrapping_sub(row[start + 1]),
                    _ => row[start + 1] = (random.below(8) as u32).wrapping_sub(row[start]),
                },
                // one off
                10 => {
                    let number = start + random.below(2);
                    row[number] = if random.one_in(2) {
                        row[number].wrapping_add(1)
                    } else {
                        row[number].wrapping_sub(1)
                    };
                }
                _ => {
                    if row[0] == 4 {
                        row[2] = [0, 1, 2, 3, 65_535, 65_536, 65_539, u32::MAX][random.below(8)];
                    } else {
                        row[start] = length;
                    }
                }
            }
        }
    }
}
