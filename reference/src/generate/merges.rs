//! Tables and values for merges, document 02, N12: what the two lowest free
//! identifiers have, where they stand, and what is refused before.

use super::{buffers, damage, typed, unions, Condition, Generator, SMALL_TABLE, SMALL_VALUES};
use crate::batch::Case;
use crate::build::Draft;
use crate::kinds::Kind;
use crate::random::Random;
use crate::table::MAX_HEIGHT;
use crate::values::Value;

impl Generator {
    pub fn merge_case(&mut self) -> Case {
        let (table, values) = self.merge_sample();
        Case::Merge { table, values }
    }

    /// A table and values for a merge. The numbers come from a stream of their
    /// own, so that the other samples of a seed stay as they are.
    pub fn merge_sample(&mut self) -> (Vec<u8>, Vec<u8>) {
        loop {
            let (table, values) = sample(&mut self.merging, self.small);
            let is_small = table.len() <= SMALL_TABLE && values.len() <= SMALL_VALUES;
            if is_small || !self.small {
                return (table, values);
            }
        }
    }
}

fn sample(rng: &mut Random, small: bool) -> (Vec<u8>, Vec<u8>) {
    let values = lent_values(rng, small);
    let condition = layout(rng, values, small);
    let (table, buffer) = (condition.draft.bytes(), condition.buffer());
    match rng.below(100) {
        0..=13 => {
            let number = 1 + rng.below(9) as u32;
            (refused(rng, condition.draft, number), buffer)
        }
        14..=17 => {
            let mut table = damage::draft(rng, &condition.draft).bytes();
            damage::bytes(rng, &mut table);
            (table, buffer)
        }
        18..=31 => (table, buffers::damaged(rng, &condition)),
        _ => (table, buffer),
    }
}

/// The values of the free identifiers: mostly two, the first two to be united.
fn lent_values(rng: &mut Random, small: bool) -> Vec<Value> {
    let first_two = match rng.below(100) {
        0..=14 => unions::unlike(rng),
        15..=34 if !small => unions::wide(rng),
        _ => unions::like(rng, small),
    };
    let mut values = first_two.to_vec();
    match rng.below(100) {
        0..=3 => values.clear(),
        4..=8 => values.truncate(1),
        9..=23 => {
            // Values that the merge of two others would take.
            for _ in 0..=rng.below(3) {
                let more = unions::like(rng, small);
                values.extend(more.into_iter().take(1 + rng.below(2)));
            }
        }
        24..=26 => {
            let t = typed::random_type(rng, unions::SIZES.len(), 2);
            values.push(typed::random_value(rng, &t, &unions::SIZES, small));
        }
        _ => {}
    }
    values
}

/// A condition with the values at its free identifiers, bound ones before,
/// between and behind them; at times one with no nodes.
fn layout(rng: &mut Random, values: Vec<Value>, small: bool) -> Condition {
    let mut draft = Draft {
        sizes: unions::SIZES.to_vec(),
        ..Draft::default()
    };
    let mut lent = Vec::new();
    let (mut free, mut bound) = (Vec::new(), Vec::new());
    // With 24 quantifiers the condition is as high as may be.
    let (most, chance) = match rng.below(6) {
        0..=1 => (0, 0),
        _ if small => (3, 35),
        2 => (24, 80),
        _ => (6, 35),
    };
    for value in values.into_iter().map(Some).chain([None]) {
        while bound.len() < most && rng.chance(chance) {
            bound.push(draft.identifier(1));
            lent.push(None);
        }
        if value.is_some() {
            free.push(draft.identifier(0));
            lent.push(value);
        }
    }
    if !bound.is_empty() || rng.chance(70) {
        let body = united(&mut draft, &free);
        quantified(rng, &mut draft, &bound, body);
    }
    Condition {
        draft,
        values: lent,
    }
}

/// x∪y=x for the two lowest free identifiers, or 1=1.
fn united(draft: &mut Draft, free: &[u32]) -> u32 {
    let [x, y, ..] = free else {
        let (e, f) = (draft.integer(1), draft.integer(1));
        return draft.two(Kind::Equal, e, f);
    };
    let (s, r) = (draft.using(*x), draft.using(*y));
    let both = draft.two(Kind::Union, s, r);
    let s = draft.using(*x);
    draft.two(Kind::Equal, both, s)
}

/// The body inside a quantifier for each bound identifier. Many range over ∅,
/// since an evaluation would hardly end otherwise.
fn quantified(rng: &mut Random, draft: &mut Draft, bound: &[u32], body: u32) {
    let range = match bound.len() {
        0..=6 => Kind::BoolSet,
        _ => Kind::Empty,
    };
    let ranges: Vec<u32> = bound.iter().map(|_| draft.leaf(range)).collect();
    let mut p = body;
    for (&x, &range) in bound.iter().zip(&ranges) {
        let kind = *rng.pick(&[Kind::ForAll, Kind::Exists]);
        p = draft.node(kind, x, range, p);
    }
}

/// The bytes of the draft with a fault that this refusal, 1 to 9, names.
fn refused(rng: &mut Random, mut draft: Draft, number: u32) -> Vec<u8> {
    if number <= 3 {
        return refused_header(rng, draft.bytes(), number);
    }
    match number {
        4 => {
            let g = rng.below(draft.sizes.len());
            draft.sizes[g] = *rng.pick(&[0, 33, u32::MAX]);
        }
        5 => {
            let x = draft.identifier(0) as usize;
            let at = rng.below(x + 1);
            draft.flags[at] = *rng.pick(&[2, 256, u32::MAX]);
        }
        6 => {
            let kind = *rng.pick(&[0, 12, 19, 44, 255, 256 + 26]);
            let unused = [[kind, 0, 0, 0], [26, 0, 0, 1], [20, 32, 0, 0]];
            draft.nodes.push(*rng.pick(&unused));
        }
        7 => {
            draft.leaf(Kind::Empty);
        }
        8 => {
            let (e, f) = (draft.leaf(Kind::BoolSet), draft.leaf(Kind::BoolSet));
            let p = draft.two(Kind::Equal, e, f);
            let low = match p {
                2 => p,
                _ => draft.two(Kind::And, e - 1, p),
            };
            (1..MAX_HEIGHT).fold(low, |p, _| draft.one(Kind::Not, p));
        }
        _ => {
            let at = rng.below(draft.flags.len() + 1);
            match draft.flags.get_mut(at) {
                Some(flag) => *flag ^= 1,
                None => draft.flags.push(1),
            }
        }
    }
    draft.bytes()
}

/// Refusals 1, 2 and 3.
fn refused_header(rng: &mut Random, mut table: Vec<u8>, number: u32) -> Vec<u8> {
    let length = table.len();
    let (at, word) = match number {
        1 if rng.chance(40) => {
            table.truncate(rng.below(32));
            return table;
        }
        1 => (0, *rng.pick(&[0, 2, 257, u32::MAX])),
        2 => *rng.pick(&[(1, 17), (2, 33), (3, 513), (1, u32::MAX)]),
        _ if rng.chance(30) => {
            table.resize(*rng.pick(&[length - 1, length + 1, length + 4]), 0);
            return table;
        }
        _ => (rng.between(4, 7) as usize, *rng.pick(&[0, 28, 33, 60_000])),
    };
    table[4 * at..4 * at + 4].copy_from_slice(&word.to_le_bytes());
    table
}
