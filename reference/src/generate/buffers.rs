//! Values buffers with each fault of refusal 14, and sound ones of other types.

use super::{groups, typed, Condition};
use crate::former;
use crate::random::Random;
use crate::values::{self, cell, Value};

/// The buffer of the condition's values with one fault, or with a value of
/// another type.
pub fn damaged(rng: &mut Random, condition: &Condition) -> Vec<u8> {
    let mut buffer = condition.buffer();
    match rng.below(8) {
        0 => flip(rng, &mut buffer),
        1 => other_cell(rng, &mut buffer),
        2 => {
            let kept = rng.below(buffer.len() + 1);
            buffer.truncate(kept);
        }
        3 => {
            let more = *rng.pick(&[1, 7, 8, 9, 16]);
            let fill = *rng.pick(&[0, 1, 5]);
            buffer.resize(buffer.len() + more, fill);
        }
        _ => buffer = replaced(rng, condition),
    }
    buffer
}

fn flip(rng: &mut Random, buffer: &mut [u8]) {
    if !buffer.is_empty() {
        let at = rng.below(buffer.len());
        buffer[at] ^= 1 << rng.below(8);
    }
}

/// Writes another cell over one of the buffer.
fn other_cell(rng: &mut Random, buffer: &mut [u8]) {
    if buffer.is_empty() {
        return;
    }
    let at = 8 * rng.below(buffer.len() / 8);
    let payload = *rng.pick(&[0, 1, 2, 3, 31, 255, 256, 257, 4096, 0x1_0000, u32::MAX]);
    let tag = rng.below(8) as u8;
    buffer[at..at + 8].copy_from_slice(&cell(tag, payload));
}

/// The buffer with one value replaced by odd cells.
fn replaced(rng: &mut Random, condition: &Condition) -> Vec<u8> {
    let count = condition.values.iter().flatten().count();
    let target = rng.below(count.max(1));
    let mut out = Vec::new();
    for (i, value) in condition.values.iter().flatten().enumerate() {
        match i == target {
            true => odd_value(rng, &condition.draft.sizes, &mut out),
            false => value.write_cells(&mut out),
        }
    }
    out
}

fn odd_value(rng: &mut Random, sizes: &[u32], out: &mut Vec<u8>) {
    let sets = sizes.len() as u32;
    match rng.below(14) {
        // Members that do not rise, or repeat.
        0 => raw_set(rng, out, &[Value::Integer(2), Value::Integer(1)]),
        1 => raw_set(rng, out, &[Value::Truth(true), Value::Truth(true)]),
        2 => raw_set(rng, out, &[one_set(&[1, 4]), one_set(&[9])]),
        // Members that share no type, or share one.
        3 => raw_set(rng, out, &[Value::Integer(1), Value::Truth(true)]),
        4 => members_with_holes(rng, out),
        // Elements that may not exist.
        5 => {
            let size = sizes.first().copied().unwrap_or(0);
            let payload = *rng.pick(&[size, 255, 256 * sets, 0x1_0000, 0xffff_ff00, 31]);
            out.extend(cell(3, payload));
        }
        // Weights around the limit.
        6 => {
            let count = rng.between(254, 257);
            wide_set(out, count as u32, count);
        }
        // A count that the cells do not meet.
        7 => {
            let count = *rng.pick(&[1, 3, 256, 257, u32::MAX]);
            wide_set(out, count, 2);
        }
        8 => deep_pairs(out, *rng.pick(&[1, 127, 128, 300])),
        9 => {
            let payload = *rng.pick(&[0, 1, 2]);
            out.extend(cell(rng.below(8) as u8, payload));
        }
        10..=12 => groups_as_before(rng, out),
        _ => {
            let t = typed::random_type(rng, sizes.len(), 2);
            typed::random_value(rng, &t, sizes, false).write_cells(out);
        }
    }
}

fn one_set(members: &[i32]) -> Value {
    values::set(members.iter().map(|&n| Value::Integer(n)).collect())
}

/// A set of the members as they stand, sometimes inside a pair.
fn raw_set(rng: &mut Random, out: &mut Vec<u8>, members: &[Value]) {
    if rng.chance(30) {
        out.extend(cell(4, 0));
        out.extend(cell(1, 7));
    }
    out.extend(cell(5, members.len() as u32));
    members.iter().for_each(|member| member.write_cells(out));
}

/// A set in which sets of the same count meet, as a writer from before document
/// 02's N6 leaves it: its members do not rise any more. One time in four it
/// stands as it should.
fn groups_as_before(rng: &mut Random, out: &mut Vec<u8>) {
    let now = values::set(groups::turned(rng));
    let written = match rng.chance(25) {
        true => now,
        false => former::arranged(&now),
    };
    match written {
        Value::Set(members) if rng.chance(70) => raw_set(rng, out, &members),
        inner => raw_set(rng, out, &[inner]),
    }
}

/// {(1, a), (2, ∅), (3, b)}: the empty set fits both neighbours, which need
/// not fit each other.
fn members_with_holes(rng: &mut Random, out: &mut Vec<u8>) {
    let inner = [
        one_set(&[1]),
        one_set(&[]),
        Value::Set(vec![Value::Truth(true)]),
        Value::Set(vec![one_set(&[])]),
    ];
    let member = |n, part: &Value| values::pair(Value::Integer(n), part.clone());
    let members = [
        member(1, rng.pick(&inner)),
        member(2, &inner[1]),
        member(3, rng.pick(&inner)),
    ];
    raw_set(rng, out, &members);
}

fn wide_set(out: &mut Vec<u8>, count: u32, members: i32) {
    out.extend(cell(5, count));
    (0..members).for_each(|n| out.extend(cell(1, n as u32)));
}

/// (1, (1, .. (1, 1))): 2·depth + 1 cells.
fn deep_pairs(out: &mut Vec<u8>, depth: usize) {
    for _ in 0..depth {
        out.extend(cell(4, 0));
        out.extend(cell(1, 1));
    }
    out.extend(cell(1, 1));
}
