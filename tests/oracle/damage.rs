//! Damage: changes to a payload that mostly make it a wrong one.
use crate::payloads::{set_length, Random};

/// Changes a payload in one place.
pub fn damage(random: &mut Random, payload: &mut Vec<u8>) {
    if payload.is_empty() {
        return;
    }
    let at = random.below(payload.len());
    let field = at / 4 * 4;
    match random.below(10) {
        0 => payload[at] = random.next() as u8,
        1 => payload[at] = payload[at].wrapping_add(1),
        2 => payload[at] = payload[at].wrapping_sub(1),
        3 => payload[at] = 0,
        4 => payload.truncate(at),
        5 => {
            payload.truncate(field);
            set_length(payload);
        }
        6 => {
            payload.extend_from_slice(&[0; 4]);
            set_length(payload);
        }
        7 => {
            let run: Vec<u8> = payload[field..]
                .iter()
                .copied()
                .take(4 * (1 + at % 8))
                .collect();
            payload.splice(field..field, run);
            set_length(payload);
        }
        8 if payload.len() >= 8 => {
            let count = payload[6].wrapping_add(1);
            payload[6] = if random.one_in(2) {
                count
            } else {
                count.wrapping_sub(2)
            };
        }
        _ => {
            if let Some(bytes) = payload.get_mut(field..field + 4) {
                let old = u32::from_le_bytes([bytes[0], bytes[1], bytes[2], bytes[3]]);
                let new = match random.below(6) {
                    0 => old.wrapping_add(4),
                    1 => old.wrapping_sub(4),
                    2 => old.wrapping_add(1),
                    3 => old.wrapping_sub(1),
                    4 => u32::MAX,
                    _ => 0,
                };
                bytes.copy_from_slice(&new.to_le_bytes());
            }
        }
    }
}
