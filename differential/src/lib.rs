//! What the programs here share: a condition with the values of its free identifiers, as bytes.

use reference::build::Draft;
use reference::values::Value;

pub struct Case {
    pub table: Vec<u8>,
    pub values: Vec<u8>,
}

pub fn case(draft: &Draft, values: &[Value]) -> Case {
    let mut buffer = Vec::new();
    for value in values {
        value.write_cells(&mut buffer);
    }
    Case {
        table: draft.bytes(),
        values: buffer,
    }
}

/// The length that refusal 10 asks of the sheet of a table with a sound header.
pub fn sheet_length(table: &[u8]) -> usize {
    let word = |at: usize| u32::from_le_bytes(table[at..at + 4].try_into().unwrap()) as usize;
    64 * (word(8) + word(12))
}
