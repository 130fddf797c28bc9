//! Conditions of a wanted number of nodes: written conditions joined by ∧, and filled up.

use super::{damage, shuffled, Generator};
use crate::build::Draft;
use crate::kinds::{self, Field, Kind};
use crate::table::{MAX_GIVEN_SETS, MAX_IDENTIFIERS};

/// The fewest nodes of a condition: an equality of two leaves.
const LEAST: usize = 3;

/// Puts the records of another draft behind those of the draft.
fn append(draft: &mut Draft, other: &Draft) {
    let (sets, names, nodes) = (
        draft.sizes.len() as u32,
        draft.flags.len() as u32,
        draft.nodes.len() as u32,
    );
    draft.sizes.extend(&other.sizes);
    draft.flags.extend(&other.flags);
    for &[kind, a, b, c] in &other.nodes {
        let row = kinds::row(kind).expect("a written kind is known");
        let mut fields = [a, b, c];
        for (field, holds) in fields.iter_mut().zip(&row.fields) {
            *field += match holds {
                Field::Identifier => names,
                Field::GivenSet => sets,
                Field::Child(_) => nodes,
                _ => 0,
            };
        }
        draft.nodes.push([kind, fields[0], fields[1], fields[2]]);
    }
}

impl Generator {
    /// A table with that many nodes; without a fault Check accepts it where it has none, or three and more.
    pub fn sized(&mut self, nodes: usize, fault: bool) -> Vec<u8> {
        let mut draft = self.filled(nodes);
        if self.rng.chance(50) {
            draft = shuffled(&mut self.rng, &draft);
        }
        if !fault {
            return draft.bytes();
        }
        match self.rng.below(3) {
            0 if nodes > 0 => self.mutate(&mut draft),
            1 => draft = damage::draft(&mut self.rng, &draft),
            _ => {}
        }
        let mut bytes = draft.bytes();
        if self.rng.chance(50) {
            damage::bytes(&mut self.rng, &mut bytes);
        }
        bytes
    }

    /// Parts joined by ∧. A part that is not the last costs a node for ∧ and leaves enough for another.
    fn filled(&mut self, nodes: usize) -> Draft {
        let mut draft = Draft::default();
        if nodes < LEAST {
            for _ in 0..nodes {
                draft.leaf(Kind::BoolSet);
            }
            return draft;
        }
        let mut parts = Vec::new();
        while let Some(room) = nodes.checked_sub(draft.nodes.len() + parts.len()) {
            let part = match self.rng.chance(60) {
                true => self.well_typed().draft,
                false => self.filler(room),
            };
            let size = part.nodes.len();
            let fits = size == room || size + 1 + LEAST <= room;
            let few = draft.sizes.len() + part.sizes.len() <= MAX_GIVEN_SETS as usize
                && draft.flags.len() + part.flags.len() <= MAX_IDENTIFIERS as usize;
            if fits && few {
                append(&mut draft, &part);
                parts.push(draft.nodes.len() as u32 - 1);
            }
        }
        draft.joined(Kind::And, &parts);
        draft
    }

    /// An equality, negated where its three nodes do not fill a room that cannot be split.
    fn filler(&mut self, room: usize) -> Draft {
        let mut draft = Draft::default();
        let e = draft.integer(self.rng.between(-9, 9));
        let f = draft.integer(self.rng.between(-9, 9));
        let mut part = draft.two(Kind::Equal, e, f);
        if room <= 2 * LEAST {
            for _ in LEAST..room {
                part = draft.one(Kind::Not, part);
            }
        }
        draft
    }
}
