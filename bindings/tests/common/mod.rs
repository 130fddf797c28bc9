//! Tables for the tests.

/// A table with no given sets and these identifiers and nodes.
pub fn table(marks: &[u32], nodes: &[[u32; 4]]) -> Vec<u8> {
    let nodes_at = 32 + 4 * marks.len();
    let length = nodes_at + 16 * nodes.len();
    let header = [1, 0, marks.len(), nodes.len(), 32, 32, nodes_at, length].map(|w| w as u32);
    let words = [&header, marks, nodes.as_flattened()].concat();
    words.into_iter().flat_map(u32::to_le_bytes).collect()
}
