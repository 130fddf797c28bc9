//! Safe calls of the proved library: Check and Evaluate of document 01, the merge of document 02.
//!
//! A table, a sheet, values and cells are bytes in the forms that `include/falgrumi.h` describes. Every call, on any bytes whatever,
//! ends with an answer; nothing is kept between calls. The library works on the caller's stack; 0.4 MB is enough for
//! what was measured.

mod ffi;
mod refusal;
mod sheet;

pub use refusal::{Refusal, Subject};
pub use sheet::{Sheet, Type};

/// The bytes of a table's header.
pub const HEADER_BYTES: usize = 32;
/// The bytes of a node's record.
pub const NODE_BYTES: usize = 16;
/// The bytes of a sheet's row.
pub const ROW_BYTES: usize = 64;
/// The bytes of a cell.
pub const CELL_BYTES: usize = 8;
/// No value's cells are longer.
pub const MAX_VALUE_BYTES: usize = 2048;
pub const MAX_GIVEN_SETS: u32 = 16;
pub const MAX_IDENTIFIERS: u32 = 32;
pub const MAX_NODES: u32 = 512;

/// What Evaluate answers.
#[derive(Clone, Copy, PartialEq, Eq, Debug)]
pub struct Evaluation {
    /// The condition's truth, or the refusal.
    pub outcome: Result<bool, Refusal>,
    /// The visits made; 0 for refusals 1 to 14.
    pub steps: u32,
}

/// What a checked evaluation answers where Check accepts the table.
#[derive(Clone, Copy, PartialEq, Eq, Debug)]
pub struct GuardedRun {
    pub evaluation: Evaluation,
    /// Whether the values have the types that Check gives to the free identifiers. Then the guarantee holds: the evaluation does
    /// not end in refusal 14 or 15, and every value that it forms has the type in its node's row.
    pub conforms: bool,
}

/// What a merge answers. `Cells` are the union's cells, or their length in bytes where they go to a lent buffer.
#[derive(Clone, Copy, PartialEq, Eq, Debug)]
pub enum Merge<Cells = Vec<u8>> {
    /// The union, and the comparisons that it took.
    Merged { comparisons: u64, cells: Cells },
    /// The union would weigh more than 256 cells; the comparisons of the whole merge.
    Heavy { comparisons: u64 },
    /// The two values are not sets that share a type, or there are fewer than two free identifiers.
    Unfit,
    /// Refusals 1 to 9 and 14.
    Refused(Refusal),
}

/// Checks a table: the types of its identifiers and nodes, or the refusal.
pub fn check(table: &[u8]) -> Result<Sheet, Refusal> {
    let mut rows = vec![0; sheet_length(table)];
    check_into(table, &mut rows)?;
    // An accepted table has a header, and at most 32 identifiers.
    let identifiers = word(table, 2).map_or(0, |count| count as usize);
    Ok(Sheet::new(rows, identifiers))
}

/// Checks a table and writes its rows to a sheet of `sheet_length(table)` bytes; a refusal leaves the sheet as it was.
pub fn check_into(table: &[u8], sheet: &mut [u8]) -> Result<(), Refusal> {
    let (number, place) = ffi::check(table, sheet);
    refused(number, place).map_or(Ok(()), Err)
}

/// Evaluates a table at the values of its free identifiers, with at most `budget` visits.
pub fn evaluate(table: &[u8], values: &[u8], budget: u32) -> Evaluation {
    ended(ffi::evaluate(table, values, budget))
}

/// Checks a table, writes its rows as `check_into` does, and evaluates it: Check's refusal, or the evaluation, with whether the
/// guarantee holds of it.
pub fn checked_evaluation(
    table: &[u8],
    sheet: &mut [u8],
    values: &[u8],
    budget: u32,
) -> Result<GuardedRun, Refusal> {
    let (answer, conforms) = ffi::checked_evaluate(table, sheet, values, budget);
    let evaluation = ended(answer);
    match evaluation.outcome {
        // Check's numbers; an evaluation of an accepted table has 14 to 19.
        Err(refusal) if refusal.number <= 13 => Err(refusal),
        _ => Ok(GuardedRun {
            evaluation,
            conforms,
        }),
    }
}

/// Whether the values have the types that the sheet gives to the table's free identifiers. Where Check has accepted the table and
/// written the sheet, no evaluation at such values ends in refusal 15. No where the table is not readable, the sheet has not its
/// length, or the values are malformed.
pub fn conforms(table: &[u8], sheet: &[u8], values: &[u8]) -> bool {
    ffi::conforms(table, sheet, values)
}

/// Merges the values of the two free identifiers with the lowest numbers, two sets, front to front. The condition is not
/// evaluated.
pub fn merge(table: &[u8], values: &[u8]) -> Merge {
    let mut cells = vec![0; MAX_VALUE_BYTES];
    let union = ffi::merge(table, values, &mut cells);
    merged(&union, |bytes| {
        cells.truncate(bytes);
        cells
    })
}

/// Merges as `merge` does. The union's cells fill the front of what is lent, if they fit there; where they do not, and where
/// there is no union, no byte is written.
pub fn merge_into(table: &[u8], values: &[u8], cells: &mut [u8]) -> Merge<usize> {
    merged(&ffi::merge(table, values, cells), |bytes| bytes)
}

/// The length of the sheet that Check asks for; 0 where the table's header is too short or beyond the limits.
pub fn sheet_length(table: &[u8]) -> usize {
    match (table.len() >= HEADER_BYTES, word(table, 2), word(table, 3)) {
        (true, Some(i), Some(n)) if i <= MAX_IDENTIFIERS && n <= MAX_NODES => {
            ROW_BYTES * (i + n) as usize
        }
        _ => 0,
    }
}

/// The word with the given number, least byte first, if the bytes have it.
pub fn word(bytes: &[u8], number: usize) -> Option<u32> {
    let four = bytes.chunks_exact(4).nth(number)?;
    Some(u32::from_le_bytes([four[0], four[1], four[2], four[3]]))
}

fn ended(answer: ffi::Answer) -> Evaluation {
    let outcome = refused(answer.number, answer.place).map_or(Ok(answer.truth == 1), Err);
    Evaluation {
        outcome,
        steps: answer.steps,
    }
}

fn merged<Cells>(union: &ffi::Union, cells: impl FnOnce(usize) -> Cells) -> Merge<Cells> {
    let comparisons = union.comparisons;
    match union.number {
        15 => Merge::Unfit,
        18 => Merge::Heavy { comparisons },
        number => match refused(number, union.place) {
            Some(refusal) => Merge::Refused(refusal),
            None => Merge::Merged {
                comparisons,
                // At most 2048.
                cells: cells(union.bytes as usize),
            },
        },
    }
}

fn refused(number: u8, place: u64) -> Option<Refusal> {
    // Places are numbers of given sets, identifiers and nodes: below 32 + 512.
    let place = place as u32;
    (number != 0).then_some(Refusal { number, place })
}
