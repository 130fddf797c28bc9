//! The order of values before document 02, N6: sets of the same count went by
//! their members from the least up. Nothing is evaluated in it. The generator
//! writes buffers in it, which are malformed now where the orders differ, and
//! tests hold it against the order that counts.

use crate::values::{self, Value};
use std::cmp::Ordering;

/// The former order of two values that stand as `arranged` leaves them.
pub fn order(a: &Value, b: &Value) -> Ordering {
    match (a, b) {
        (Value::Pair(a, b), Value::Pair(c, d)) => order(a, c).then_with(|| order(b, d)),
        (Value::Set(a), Value::Set(b)) => {
            let members = a.iter().zip(b).map(|(m, n)| order(m, n));
            let first_unlike = members.fold(Ordering::Equal, Ordering::then);
            a.len().cmp(&b.len()).then(first_unlike)
        }
        _ => values::order(a, b),
    }
}

/// The value with the members of each set in it rising in the former order.
pub fn arranged(value: &Value) -> Value {
    match value {
        Value::Pair(a, b) => values::pair(arranged(a), arranged(b)),
        Value::Set(members) => {
            let mut members: Vec<Value> = members.iter().map(arranged).collect();
            members.sort_by(order);
            Value::Set(members)
        }
        other => other.clone(),
    }
}
