//! Values as trees: weight, order, shape, cells.

use crate::types::Type;
use std::cmp::Ordering;

/// The heaviest value; the limit of refusals 14 and 18.
pub const MAX_VALUE_WEIGHT: u64 = 256;
pub const CELL_BYTES: usize = 8;

pub const TAG_INTEGER: u8 = 1;
pub const TAG_TRUTH: u8 = 2;
pub const TAG_ELEMENT: u8 = 3;
pub const TAG_PAIR: u8 = 4;
pub const TAG_SET: u8 = 5;

#[derive(Clone, PartialEq, Eq, Debug)]
pub enum Value {
    Integer(i32),
    Truth(bool),
    /// Given set and element.
    Element(u32, u32),
    Pair(Box<Value>, Box<Value>),
    /// Members rise and do not repeat.
    Set(Vec<Value>),
}

pub fn pair(first: Value, second: Value) -> Value {
    Value::Pair(Box::new(first), Box::new(second))
}

/// The set of the given members, in any order and with repeats.
pub fn set(mut members: Vec<Value>) -> Value {
    members.sort();
    members.dedup();
    Value::Set(members)
}

impl Ord for Value {
    fn cmp(&self, other: &Value) -> Ordering {
        order(self, other)
    }
}

impl PartialOrd for Value {
    fn partial_cmp(&self, other: &Value) -> Option<Ordering> {
        Some(self.cmp(other))
    }
}

/// The order of values: tag, then payload, then a pair's parts from left to
/// right, a set's members from the greatest down (document 02, N6). A set's
/// payload is its count, so sets of fewer members come first.
pub fn order(a: &Value, b: &Value) -> Ordering {
    match (a, b) {
        (Value::Integer(m), Value::Integer(n)) => m.cmp(n),
        (Value::Truth(p), Value::Truth(q)) => p.cmp(q),
        (Value::Element(g, k), Value::Element(h, l)) => (g, k).cmp(&(h, l)),
        (Value::Pair(a, b), Value::Pair(c, d)) => order(a, c).then_with(|| order(b, d)),
        (Value::Set(a), Value::Set(b)) => {
            let from_the_greatest = || a.iter().rev().cmp(b.iter().rev());
            a.len().cmp(&b.len()).then_with(from_the_greatest)
        }
        _ => a.tag().cmp(&b.tag()),
    }
}

impl Value {
    pub fn tag(&self) -> u8 {
        match self {
            Value::Integer(_) => TAG_INTEGER,
            Value::Truth(_) => TAG_TRUTH,
            Value::Element(..) => TAG_ELEMENT,
            Value::Pair(..) => TAG_PAIR,
            Value::Set(_) => TAG_SET,
        }
    }

    /// The number of cells.
    pub fn weight(&self) -> u64 {
        match self {
            Value::Pair(a, b) => 1 + a.weight() + b.weight(),
            Value::Set(members) => 1 + members_weight(members),
            _ => 1,
        }
    }

    pub fn has_type(&self, wanted: &Type) -> bool {
        match (self, wanted) {
            (Value::Integer(_), Type::Integer) => true,
            (Value::Truth(_), Type::Bool) => true,
            (Value::Element(g, _), Type::Given(h)) => *g == u32::from(*h),
            (Value::Pair(a, b), Type::Product(t, u)) => a.has_type(t) && b.has_type(u),
            (Value::Set(members), Type::Pow(t)) => members.iter().all(|m| m.has_type(t)),
            _ => false,
        }
    }

    pub fn write_cells(&self, out: &mut Vec<u8>) {
        let payload = match self {
            Value::Integer(n) => *n as u32,
            Value::Truth(p) => u32::from(*p),
            Value::Element(g, k) => 256 * g + k,
            Value::Pair(..) => 0,
            Value::Set(members) => members.len() as u32,
        };
        out.extend(cell(self.tag(), payload));
        match self {
            Value::Pair(a, b) => {
                a.write_cells(out);
                b.write_cells(out);
            }
            Value::Set(members) => members.iter().for_each(|m| m.write_cells(out)),
            _ => {}
        }
    }
}

pub fn members_weight(members: &[Value]) -> u64 {
    members.iter().map(Value::weight).sum()
}

pub fn cell(tag: u8, payload: u32) -> [u8; CELL_BYTES] {
    let p = payload.to_le_bytes();
    [p[0], p[1], p[2], p[3], tag, 0, 0, 0]
}

/// All types that a value has: a type in which each hole stands for any type.
/// Every empty set has a hole of its own, so no hole occurs twice and joining
/// two shapes part by part is exact.
#[derive(Clone, PartialEq, Eq, Debug)]
pub enum Shape {
    Hole,
    Integer,
    Bool,
    Given(u32),
    Pow(Box<Shape>),
    Product(Box<Shape>, Box<Shape>),
}

/// The types that two shapes have in common.
pub fn join(a: Shape, b: Shape) -> Option<Shape> {
    match (a, b) {
        (Shape::Hole, other) | (other, Shape::Hole) => Some(other),
        (Shape::Pow(t), Shape::Pow(v)) => Some(Shape::Pow(Box::new(join(*t, *v)?))),
        (Shape::Product(t, u), Shape::Product(v, w)) => {
            let first = join(*t, *v)?;
            let second = join(*u, *w)?;
            Some(Shape::Product(Box::new(first), Box::new(second)))
        }
        (a, b) => (a == b).then_some(a),
    }
}

impl Value {
    /// The value's types; None where the members of a set share none.
    pub fn shape(&self) -> Option<Shape> {
        match self {
            Value::Integer(_) => Some(Shape::Integer),
            Value::Truth(_) => Some(Shape::Bool),
            Value::Element(g, _) => Some(Shape::Given(*g)),
            Value::Pair(a, b) => {
                let (first, second) = (a.shape()?, b.shape()?);
                Some(Shape::Product(Box::new(first), Box::new(second)))
            }
            Value::Set(members) => {
                let mut shared = Shape::Hole;
                for member in members {
                    shared = join(shared, member.shape()?)?;
                }
                Some(Shape::Pow(Box::new(shared)))
            }
        }
    }
}
