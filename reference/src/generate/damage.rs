//! Damage to a sound table: by records and by bytes.

use crate::build::Draft;
use crate::kinds::{self, Kind};
use crate::random::Random;

/// Words that stand at or beyond some limit.
const WORDS: [u32; 20] = [
    0,
    1,
    2,
    3,
    12,
    15,
    16,
    17,
    19,
    20,
    31,
    32,
    33,
    44,
    512,
    513,
    0x7fff_ffff,
    0x8000_0000,
    0xffff_fff0,
    0xffff_ffff,
];

/// Damages the records, most of the time.
pub fn draft(rng: &mut Random, sound: &Draft) -> Draft {
    let mut d = sound.clone();
    match rng.below(12) {
        0 => other_identifier(rng, &mut d),
        1 if !d.flags.is_empty() => {
            let x = rng.below(d.flags.len());
            d.flags[x] ^= 1;
        }
        2 if !d.nodes.is_empty() => other_child(rng, &mut d),
        3 => {
            d.nodes.pop();
        }
        4 if !d.nodes.is_empty() => {
            // A tail that makes the last node an expression.
            let root = d.nodes.len() as u32 - 1;
            d.one(Kind::Bool, root);
        }
        5 => second_binder(rng, &mut d),
        6 if !d.sizes.is_empty() => {
            let g = rng.below(d.sizes.len());
            d.sizes[g] = *rng.pick(&[0, 1, 32, 33, u32::MAX]);
        }
        7 if !d.flags.is_empty() => {
            let x = rng.below(d.flags.len());
            d.flags[x] = *rng.pick(&[2, 256, u32::MAX]);
        }
        _ => {}
    }
    d
}

/// Lets a use or a binder name another identifier.
fn other_identifier(rng: &mut Random, d: &mut Draft) {
    let named = |record: &[u32; 4]| {
        kinds::row(record[0]).is_some_and(|row| row.fields[0] == kinds::Field::Identifier)
    };
    let at: Vec<usize> = (0..d.nodes.len()).filter(|&i| named(&d.nodes[i])).collect();
    if !at.is_empty() {
        let node = *rng.pick(&at);
        d.nodes[node][1] = rng.below(d.flags.len()) as u32;
    }
}

/// Lets one child field name another lower node.
fn other_child(rng: &mut Random, d: &mut Draft) {
    let node = rng.below(d.nodes.len());
    let fields = d.child_fields(node as u32);
    if !fields.is_empty() {
        let field = *rng.pick(&fields);
        d.nodes[node][field] = rng.below(node + 1) as u32;
    }
}

/// Wraps the condition into a binder of an identifier that is there already.
fn second_binder(rng: &mut Random, d: &mut Draft) {
    if d.flags.is_empty() || d.nodes.is_empty() {
        return;
    }
    let x = rng.below(d.flags.len()) as u32;
    let body = d.nodes.len() as u32 - 1;
    let range = d.leaf(Kind::BoolSet);
    d.node(Kind::ForAll, x, range, body);
}

/// Damages the bytes, most of the time.
pub fn bytes(rng: &mut Random, table: &mut Vec<u8>) {
    match rng.below(10) {
        0 => {
            let at = rng.below(table.len());
            table[at] ^= 1 << rng.below(8);
        }
        1 => {
            let at = rng.below(table.len());
            table[at] = rng.word() as u8;
        }
        2 => {
            let kept = rng.below(table.len());
            table.truncate(kept);
        }
        3 => {
            let fewer = table.len() - 1 - rng.below(16);
            table.truncate(fewer);
        }
        4 => {
            let fill = *rng.pick(&[0, 1, 255]);
            let longer = table.len() + 1 + rng.below(16);
            table.resize(longer, fill);
        }
        5..=7 => damaged_word(rng, table),
        _ => {}
    }
}

/// Replaces one word; each section gets its share.
fn damaged_word(rng: &mut Random, table: &mut [u8]) {
    let words = table.len() / 4;
    let records = words - 8;
    let at = match rng.below(3) {
        1 if records > 0 => 8 + rng.below(records.min(8)),
        2 if records > 0 => 8 + rng.below(records),
        _ => rng.below(8),
    };
    let old = u32::from_le_bytes(table[4 * at..4 * at + 4].try_into().expect("four bytes"));
    let new = match rng.below(4) {
        0 => old.wrapping_add(1),
        1 => old.wrapping_sub(1),
        2 => rng.below(48) as u32,
        _ => *rng.pick(&WORDS),
    };
    table[4 * at..4 * at + 4].copy_from_slice(&new.to_le_bytes());
}
