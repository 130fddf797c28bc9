//! The records that stand in a table's bytes, for drawing them. Refusals 4 to 9 are not tested here: a field may hold anything.

use falgrumi::{word, HEADER_BYTES, MAX_GIVEN_SETS, MAX_IDENTIFIERS, MAX_NODES, NODE_BYTES};

pub struct Table {
    /// The element count of each given set.
    pub sizes: Vec<u32>,
    /// Each identifier's word: 0 free, 1 bound.
    pub marks: Vec<u32>,
    /// Each node's kind and fields.
    pub nodes: Vec<[u32; 4]>,
}

/// The words that a header with these counts has: form, counts, offsets, length.
fn header(g: u32, i: u32, n: u32) -> [u32; 8] {
    let identifiers_at = HEADER_BYTES as u32 + 4 * g;
    let nodes_at = identifiers_at + 4 * i;
    let length = nodes_at + NODE_BYTES as u32 * n;
    let offsets = [HEADER_BYTES as u32, identifiers_at, nodes_at, length];
    let [a, b, c, d] = offsets;
    [1, g, i, n, a, b, c, d]
}

/// The header that the counts in the bytes ask for, if there are counts and they are within the limits.
pub fn wanted_header(bytes: &[u8]) -> Option<[u32; 8]> {
    let (g, i, n) = (word(bytes, 1)?, word(bytes, 2)?, word(bytes, 3)?);
    let within = g <= MAX_GIVEN_SETS && i <= MAX_IDENTIFIERS && n <= MAX_NODES;
    within.then(|| header(g, i, n))
}

impl Table {
    /// The records, if the header is sound and they fill the bytes.
    pub fn read(bytes: &[u8]) -> Option<Table> {
        let wanted = wanted_header(bytes)?;
        let words: Vec<u32> = (0..bytes.len() / 4)
            .filter_map(|k| word(bytes, k))
            .collect();
        if !words.starts_with(&wanted) || bytes.len() != wanted[7] as usize {
            return None;
        }
        let (sizes, rest) = words[wanted.len()..].split_at(wanted[1] as usize);
        let (marks, records) = rest.split_at(wanted[2] as usize);
        let nodes = records.chunks_exact(4).map(|r| [r[0], r[1], r[2], r[3]]);
        Some(Table {
            sizes: sizes.to_vec(),
            marks: marks.to_vec(),
            nodes: nodes.collect(),
        })
    }

    /// The numbers of the identifiers that are marked free.
    pub fn free(&self) -> impl Iterator<Item = usize> + '_ {
        (0..self.marks.len()).filter(|&x| self.marks[x] == 0)
    }
}
