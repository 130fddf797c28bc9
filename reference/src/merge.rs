//! Document 02, N12: the union of two sets by one merge, and its comparisons.
//! The union is not made by that pass: it is the set of all members.

use crate::evaluate::{fits, read_values};
use crate::kinds::Kind;
use crate::table;
use crate::values::{self, Value, MAX_VALUE_WEIGHT};
use crate::Refusal;

#[derive(Clone, PartialEq, Eq, Debug)]
pub enum Merge {
    Merged {
        comparisons: u32,
        /// The cells of the union.
        cells: Vec<u8>,
    },
    /// The union weighs over 256, which is 18 at a node. The comparisons are
    /// those of the whole merge.
    Heavy {
        comparisons: u32,
    },
    /// Fewer than two free identifiers, or values that are not sets of a
    /// common type, which is 15 at a node.
    Unfit,
    Refused(Refusal),
}

/// The merge of the values of the two lowest free identifiers.
pub fn merge(bytes: &[u8], buffer: &[u8]) -> Merge {
    match free_values(bytes, buffer) {
        Err(refusal) => Merge::Refused(refusal),
        Ok(values) => match &values[..] {
            [first, second, ..] => merge_values(first, second),
            _ => Merge::Unfit,
        },
    }
}

/// The values of the free identifiers by number, after refusals 1 to 9 and 14.
fn free_values(bytes: &[u8], buffer: &[u8]) -> Result<Vec<Value>, Refusal> {
    let table = table::read(bytes)?;
    let values = read_values(&table, buffer)?;
    Ok(values.into_iter().flatten().collect())
}

pub fn merge_values(first: &Value, second: &Value) -> Merge {
    let (Value::Set(s), Value::Set(r)) = (first, second) else {
        return Merge::Unfit;
    };
    if !fits(Kind::Union, &[first.clone(), second.clone()]) {
        return Merge::Unfit;
    }
    let comparisons = comparisons(s, r);
    let union = values::set([&s[..], r].concat());
    if union.weight() > MAX_VALUE_WEIGHT {
        return Merge::Heavy { comparisons };
    }
    let mut cells = Vec::new();
    union.write_cells(&mut cells);
    Merge::Merged { comparisons, cells }
}

/// One comparison each time both lists still have a front. The lesser front is
/// taken, equal fronts together.
pub fn comparisons(s: &[Value], r: &[Value]) -> u32 {
    let (mut s, mut r) = (s, r);
    let mut count = 0;
    while let (Some(e), Some(f)) = (s.first(), r.first()) {
        count += 1;
        let (from_s, from_r) = (usize::from(e <= f), usize::from(f <= e));
        s = &s[from_s..];
        r = &r[from_r..];
    }
    count
}
