//! A gate's condition, built in bytes, checked and evaluated; the same as `examples/c/gate.c`. Run it in `bindings/` with
//! `cargo run --example gate`.
//!
//! There is one given set, G0, of 4 valves. x0 is the set of open valves, x1 the level in the tank, both free. The gate opens
//! where at most 2 valves are open and the level is from 10 to 80:
//!
//!     x0 ⊆ G0 ∧ (card(x0) ≤ 2 ∧ x1 ∈ 10..80)

/// Each node's kind and three fields. Children stand before their parents, and the last node is the whole.
const NODES: [[u32; 4]; 14] = [
    [20, 0, 0, 0],  // 0: x0
    [21, 0, 0, 0],  // 1: G0
    [8, 0, 1, 0],   // 2: x0 ⊆ G0
    [20, 0, 0, 0],  // 3: x0 again, as every node has one parent
    [38, 3, 0, 0],  // 4: card(x0)
    [23, 2, 0, 0],  // 5: 2
    [9, 4, 5, 0],   // 6: card(x0) ≤ 2
    [20, 1, 0, 0],  // 7: x1
    [23, 10, 0, 0], // 8: 10
    [23, 80, 0, 0], // 9: 80
    [41, 8, 9, 0],  // 10: 10..80
    [7, 7, 10, 0],  // 11: x1 ∈ 10..80
    [1, 6, 11, 0],  // 12: card(x0) ≤ 2 ∧ x1 ∈ 10..80
    [1, 2, 12, 0],  // 13: the condition
];

/// Header, sizes of given sets, marks of identifiers (0 free), nodes.
fn table() -> Vec<u8> {
    let header = [1, 1, 2, 14, 32, 36, 44, 44 + 16 * 14];
    let records = [4, 0, 0];
    let words = header.into_iter().chain(records);
    words
        .chain(NODES.into_iter().flatten())
        .flat_map(u32::to_le_bytes)
        .collect()
}

/// Payload, then tag: 1 integer, 3 element (256 times its set's number plus its own), 5 set (then its members, rising).
fn cell(tag: u8, payload: u32) -> [u8; 8] {
    let p = payload.to_le_bytes();
    [p[0], p[1], p[2], p[3], tag, 0, 0, 0]
}

/// The values of x0 and x1: valves 1 and 3 are open, and the level.
fn values(level: i32) -> Vec<u8> {
    [cell(5, 2), cell(3, 1), cell(3, 3), cell(1, level as u32)].concat()
}

fn main() {
    let table = table();
    match falgrumi::check(&table) {
        Ok(sheet) => {
            println!("accepted");
            for x in 0..sheet.identifiers() {
                let found = sheet
                    .identifier(x)
                    .expect("an accepted identifier has a type");
                println!("x{x} : {found}");
            }
        }
        Err(refusal) => println!("{refusal}"),
    }
    // The last buffer lacks the level: refusal 14 at identifier 1.
    let states = [values(42), values(95), values(0)[..24].to_vec()];
    for values in states {
        let evaluation = falgrumi::evaluate(&table, &values, 1000);
        match evaluation.outcome {
            Ok(truth) => println!("{truth} in {} steps", evaluation.steps),
            Err(refusal) => println!("{refusal}"),
        }
    }
}
