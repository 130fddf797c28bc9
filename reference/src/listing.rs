//! Document 01's listing of a table.

use crate::batch::row_text;
use crate::check::{check, sheet_length};
use crate::table;
use crate::types::ROW_BYTES;

/// The whole output of the listing program; every line ends with a newline.
pub fn listing(bytes: &[u8]) -> String {
    let (identifiers, length) = match table::read(bytes) {
        Ok(table) => (table.identifiers(), sheet_length(&table)),
        // The sheet is never reached.
        Err(_) => (0, 0),
    };
    let mut sheet = vec![0; length];
    if let Err(refusal) = check(bytes, &mut sheet) {
        return format!("refused {} {}\n", refusal.number, refusal.place);
    }
    let mut out = String::new();
    for (place, row) in sheet.chunks_exact(ROW_BYTES).enumerate() {
        let owner = match place.checked_sub(identifiers) {
            None => format!("i {place}"),
            Some(node) => format!("n {node}"),
        };
        out += &format!("{owner} {}\n", row_text(row));
    }
    out + "accepted\n"
}
