//! Building tables: records first, then the bytes with a sound header.

use crate::kinds::{Field, Kind};
use crate::table::HEADER_BYTES;
use crate::values::Value;

/// The records of a table that is being built; nothing is tested here.
#[derive(Clone, Default, Debug)]
pub struct Draft {
    pub sizes: Vec<u32>,
    pub flags: Vec<u32>,
    pub nodes: Vec<[u32; 4]>,
}

impl Draft {
    pub fn node(&mut self, kind: Kind, a: u32, b: u32, c: u32) -> u32 {
        self.nodes.push([kind as u32, a, b, c]);
        self.nodes.len() as u32 - 1
    }

    pub fn leaf(&mut self, kind: Kind) -> u32 {
        self.node(kind, 0, 0, 0)
    }

    pub fn one(&mut self, kind: Kind, a: u32) -> u32 {
        self.node(kind, a, 0, 0)
    }

    pub fn two(&mut self, kind: Kind, a: u32, b: u32) -> u32 {
        self.node(kind, a, b, 0)
    }

    pub fn integer(&mut self, n: i32) -> u32 {
        self.one(Kind::Integer, n as u32)
    }

    pub fn using(&mut self, identifier: u32) -> u32 {
        self.one(Kind::Identifier, identifier)
    }

    /// A new identifier, flag 0 free or 1 bound.
    pub fn identifier(&mut self, flag: u32) -> u32 {
        self.flags.push(flag);
        self.flags.len() as u32 - 1
    }

    /// An expression that evaluates to the value.
    pub fn literal(&mut self, value: &Value) -> u32 {
        match value {
            Value::Integer(n) => self.integer(*n),
            Value::Truth(p) => self.one(Kind::Truth, u32::from(*p)),
            Value::Element(g, k) => self.two(Kind::Element, *g, *k),
            Value::Pair(a, b) => {
                let first = self.literal(a);
                let second = self.literal(b);
                self.two(Kind::Pair, first, second)
            }
            Value::Set(members) => {
                let mut whole = None;
                for member in members {
                    let e = self.literal(member);
                    let single = self.one(Kind::Singleton, e);
                    whole = Some(match whole {
                        None => single,
                        Some(rest) => self.two(Kind::Union, rest, single),
                    });
                }
                whole.unwrap_or_else(|| self.leaf(Kind::Empty))
            }
        }
    }

    /// A pairing of 2^levels copies of one leaf, balanced.
    pub fn balanced(&mut self, levels: u32, leaf: &dyn Fn(&mut Draft) -> u32) -> u32 {
        if levels == 0 {
            return leaf(self);
        }
        let first = self.balanced(levels - 1, leaf);
        let second = self.balanced(levels - 1, leaf);
        self.two(Kind::Pair, first, second)
    }

    /// The two-place kind over all nodes of the list, balanced.
    pub fn joined(&mut self, kind: Kind, parts: &[u32]) -> u32 {
        match parts {
            [one] => *one,
            _ => {
                let (left, right) = parts.split_at(parts.len() / 2);
                let a = self.joined(kind, left);
                let b = self.joined(kind, right);
                self.two(kind, a, b)
            }
        }
    }

    /// The length that refusal 10 asks of a sheet.
    pub fn sheet_length(&self) -> usize {
        64 * (self.flags.len() + self.nodes.len())
    }

    pub fn bytes(&self) -> Vec<u8> {
        let (g, i, n) = (self.sizes.len(), self.flags.len(), self.nodes.len());
        let identifiers_at = HEADER_BYTES + 4 * g;
        let nodes_at = identifiers_at + 4 * i;
        let length = nodes_at + 16 * n;
        let header = [1, g, i, n, HEADER_BYTES, identifiers_at, nodes_at, length];
        let words = header
            .iter()
            .map(|&word| word as u32)
            .chain(self.sizes.iter().copied())
            .chain(self.flags.iter().copied())
            .chain(self.nodes.iter().flatten().copied());
        words.flat_map(u32::to_le_bytes).collect()
    }

    /// Gives old node `order[i]` the number i. The order lists every node once.
    pub fn renumbered(&self, order: &[u32]) -> Draft {
        let mut number = vec![0u32; order.len()];
        for (new, &old) in order.iter().enumerate() {
            number[old as usize] = new as u32;
        }
        let nodes = order.iter().map(|&old| {
            let mut record = self.nodes[old as usize];
            for field in self.child_fields(old) {
                record[field] = number[record[field] as usize];
            }
            record
        });
        Draft {
            nodes: nodes.collect(),
            ..self.clone()
        }
    }

    /// The positions in the record that hold children.
    pub fn child_fields(&self, node: u32) -> Vec<usize> {
        let record = self.nodes[node as usize];
        let Some(row) = crate::kinds::row(record[0]) else {
            return Vec::new();
        };
        (0..3)
            .filter(|&i| matches!(row.fields[i], Field::Child(_)))
            .map(|i| i + 1)
            .collect()
    }
}
