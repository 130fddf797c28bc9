//! Two groups of bins, merged; the same as `examples/c/bins.c`. Run it in `bindings/` with `cargo run --example bins`.
//!
//! There is one given set, G0, of 6 bins. x0 and x1 are groups of bins, both free. A merge does not evaluate the condition:
//!
//!     x0 ∪ x1 = G0

use falgrumi::{Merge, CELL_BYTES};

/// Each node's kind and three fields.
const NODES: [[u32; 4]; 5] = [
    [20, 0, 0, 0], // 0: x0
    [20, 1, 0, 0], // 1: x1
    [29, 0, 1, 0], // 2: x0 ∪ x1
    [21, 0, 0, 0], // 3: G0
    [6, 2, 3, 0],  // 4: the condition
];

/// Header, sizes of given sets, marks of identifiers (0 free), nodes.
fn table() -> Vec<u8> {
    let header = [1, 1, 2, 5, 32, 36, 44, 44 + 16 * 5];
    let records = [6, 0, 0];
    let words = header.into_iter().chain(records);
    words
        .chain(NODES.into_iter().flatten())
        .flat_map(u32::to_le_bytes)
        .collect()
}

/// Payload, then tag: 3 element (256 times its set's number plus its own), 5 set (then its members, rising).
fn cell(tag: u8, payload: u32) -> [u8; CELL_BYTES] {
    let p = payload.to_le_bytes();
    [p[0], p[1], p[2], p[3], tag, 0, 0, 0]
}

fn group(bins: &[u32]) -> Vec<u8> {
    let members = bins.iter().flat_map(|&bin| cell(3, bin));
    cell(5, bins.len() as u32)
        .into_iter()
        .chain(members)
        .collect()
}

/// The bins of a union: behind the cell of the set each has its own, with its number in the first byte.
fn bins(cells: &[u8]) -> String {
    let members = cells.chunks_exact(CELL_BYTES).skip(1);
    let numbers: Vec<String> = members.map(|cell| cell[0].to_string()).collect();
    numbers.join(" ")
}

fn main() {
    let table = table();
    let first = group(&[0, 1, 3]);
    let values = [first.clone(), group(&[1, 3, 4])].concat();
    // A group and a bin, which is none; then the second value is not there: refusal 14 at identifier 1.
    let unfit = [first.clone(), cell(3, 1).to_vec()].concat();
    for values in [&values, &unfit, &first] {
        match falgrumi::merge(&table, values) {
            Merge::Merged { comparisons, cells } => {
                println!("bins {} in {comparisons} comparisons", bins(&cells));
            }
            Merge::Heavy { .. } => println!("the union weighs more than 256 cells"),
            Merge::Unfit => println!("not two sets that share a type"),
            Merge::Refused(refusal) => println!("{refusal}"),
        }
    }
}
