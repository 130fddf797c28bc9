//! Short ways to write conditions and to read answers.
#![allow(dead_code)]

use reference::batch::{check_answer, evaluate_answer};
use reference::build::Draft;
use reference::values::{pair, set, Value};

pub fn draft(write: impl FnOnce(&mut Draft)) -> Draft {
    let mut d = Draft::default();
    write(&mut d);
    d
}

pub fn checked(d: &Draft) -> String {
    check_answer(&d.bytes(), d.sheet_length())
}

pub fn evaluated(d: &Draft, values: &[Value]) -> String {
    evaluate_answer(&d.bytes(), &cells(values), 1000)
}

pub fn cells(values: &[Value]) -> Vec<u8> {
    let mut out = Vec::new();
    values.iter().for_each(|value| value.write_cells(&mut out));
    out
}

pub fn int(n: i32) -> Value {
    Value::Integer(n)
}

pub fn truth(p: bool) -> Value {
    Value::Truth(p)
}

pub fn ints(members: &[i32]) -> Value {
    set(members.iter().map(|&n| int(n)).collect())
}

pub fn both(a: Value, b: Value) -> Value {
    pair(a, b)
}
