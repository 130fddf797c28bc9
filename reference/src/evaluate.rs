//! Evaluate: refusal 14 on the values buffer, then the run with 15 to 19.

use crate::kinds::Kind;
use crate::rules::{rule, Pattern};
use crate::table::{self, Node, Table};
use crate::values::{self, join, members_weight, Shape, Value, CELL_BYTES, MAX_VALUE_WEIGHT};
use crate::Refusal;
use std::collections::BTreeSet;

#[derive(Clone, Copy, PartialEq, Eq, Debug)]
pub enum Outcome {
    Truth(bool),
    Refused(Refusal),
}

#[derive(Clone, Copy, PartialEq, Eq, Debug)]
pub struct Evaluation {
    pub outcome: Outcome,
    /// The visits made; 0 before refusal 15.
    pub steps: u32,
}

/// What a watched run also tells.
#[derive(Default)]
pub struct Observations {
    /// Each value formed, with its node, in the order of the run.
    pub formed: Vec<(usize, Value)>,
    /// The most members that an interval had or would have had.
    pub widest_interval: i64,
}

pub fn evaluate(bytes: &[u8], buffer: &[u8], budget: u32) -> Evaluation {
    run(bytes, buffer, budget, None)
}

/// Evaluates and records what was formed.
pub fn observe(bytes: &[u8], buffer: &[u8], budget: u32) -> (Evaluation, Observations) {
    let mut seen = Observations::default();
    let evaluation = run(bytes, buffer, budget, Some(&mut seen));
    (evaluation, seen)
}

fn run(bytes: &[u8], buffer: &[u8], budget: u32, seen: Option<&mut Observations>) -> Evaluation {
    let prepared = table::read(bytes).and_then(|table| {
        let env = read_values(&table, buffer)?;
        Ok((table, env))
    });
    match prepared {
        Err(refusal) => Evaluation {
            outcome: Outcome::Refused(refusal),
            steps: 0,
        },
        Ok((table, env)) => {
            let mut run = Run {
                table: &table,
                env,
                steps: 0,
                budget,
                seen,
            };
            // A condition that is absent is true.
            let outcome = match table.root().map_or(Ok(true), |root| run.predicate(root)) {
                Ok(truth) => Outcome::Truth(truth),
                Err(refusal) => Outcome::Refused(refusal),
            };
            Evaluation {
                outcome,
                steps: run.steps,
            }
        }
    }
}

/// Refusal 14. The value of each free identifier, None for the bound ones.
pub fn read_values(table: &Table, buffer: &[u8]) -> Result<Vec<Option<Value>>, Refusal> {
    let mut env = vec![None; table.identifiers()];
    let mut rest = buffer;
    for identifier in table.free() {
        let refusal = Refusal::new(14, identifier);
        let mut room = MAX_VALUE_WEIGHT;
        let (value, behind) = read_value(table, rest, &mut room).ok_or(refusal)?;
        value.shape().ok_or(refusal)?;
        env[identifier] = Some(value);
        rest = behind;
    }
    if rest.is_empty() {
        Ok(env)
    } else {
        Err(Refusal::new(14, table.identifiers()))
    }
}

/// One value from the front of the bytes; `room` is the cells still allowed.
fn read_value<'a>(table: &Table, bytes: &'a [u8], room: &mut u64) -> Option<(Value, &'a [u8])> {
    *room = room.checked_sub(1)?;
    if bytes.len() < CELL_BYTES {
        return None;
    }
    let (cell, rest) = bytes.split_at(CELL_BYTES);
    if cell[5..] != [0, 0, 0] {
        return None;
    }
    let payload = u32::from_le_bytes([cell[0], cell[1], cell[2], cell[3]]);
    match (cell[4], payload) {
        (values::TAG_INTEGER, _) => Some((Value::Integer(payload as i32), rest)),
        (values::TAG_TRUTH, 0 | 1) => Some((Value::Truth(payload == 1), rest)),
        (values::TAG_ELEMENT, _) => {
            let (set, element) = (payload / 256, payload % 256);
            let size = *table.sizes.get(set as usize)?;
            (element < size).then_some((Value::Element(set, element), rest))
        }
        (values::TAG_PAIR, 0) => {
            let (first, rest) = read_value(table, rest, room)?;
            let (second, rest) = read_value(table, rest, room)?;
            Some((values::pair(first, second), rest))
        }
        (values::TAG_SET, count) => read_members(table, rest, room, count),
        _ => None,
    }
}

fn read_members<'a>(
    table: &Table,
    mut rest: &'a [u8],
    room: &mut u64,
    count: u32,
) -> Option<(Value, &'a [u8])> {
    let mut members: Vec<Value> = Vec::new();
    // The room bounds the turns, whatever the count says.
    for _ in 0..count {
        let (member, behind) = read_value(table, rest, room)?;
        if members.last().is_some_and(|last| *last >= member) {
            return None;
        }
        members.push(member);
        rest = behind;
    }
    Some((Value::Set(members), rest))
}

struct Run<'a> {
    table: &'a Table,
    env: Vec<Option<Value>>,
    steps: u32,
    budget: u32,
    seen: Option<&'a mut Observations>,
}

impl Run<'_> {
    /// One visit, refusal 19.
    fn visit(&mut self, node: usize) -> Result<Node, Refusal> {
        if self.steps == self.budget {
            return Err(Refusal::new(19, node));
        }
        self.steps += 1;
        Ok(self.table.nodes[node])
    }

    fn predicate(&mut self, at: usize) -> Result<bool, Refusal> {
        let node = self.visit(at)?;
        let [a, b, _] = node.fields.map(|field| field as usize);
        match node.kind {
            Kind::And => Ok(self.predicate(a)? && self.predicate(b)?),
            Kind::Or => Ok(self.predicate(a)? || self.predicate(b)?),
            Kind::Implies => Ok(!self.predicate(a)? || self.predicate(b)?),
            Kind::Not => Ok(!self.predicate(a)?),
            Kind::Equivalent => {
                let p = self.predicate(a)?;
                let q = self.predicate(b)?;
                Ok(p == q)
            }
            Kind::ForAll => Ok(!self.some_member_gives(at, &node, false)?),
            Kind::Exists => self.some_member_gives(at, &node, true),
            _ => {
                let operands = self.operands(at, &node)?;
                Ok(relation(node.kind, &operands))
            }
        }
    }

    /// Runs the body for each member, rising, until one gives the answer.
    fn some_member_gives(&mut self, at: usize, node: &Node, answer: bool) -> Result<bool, Refusal> {
        for member in self.range(at, node)? {
            if self.body(node, member)? == answer {
                return Ok(true);
            }
        }
        Ok(false)
    }

    /// The members of a binder's range, tested for 15.
    fn range(&mut self, at: usize, node: &Node) -> Result<Vec<Value>, Refusal> {
        let mut operands = self.operands(at, node)?;
        match operands.pop() {
            Some(Value::Set(members)) => Ok(members),
            _ => unreachable!("refusal 15 asks for a set"),
        }
    }

    fn body(&mut self, node: &Node, member: Value) -> Result<bool, Refusal> {
        let identifier = node.fields[0] as usize;
        self.env[identifier] = Some(member);
        self.predicate(node.fields[2] as usize)
    }

    /// The values of the node's operands in field order, tested for 15.
    fn operands(&mut self, at: usize, node: &Node) -> Result<Vec<Value>, Refusal> {
        let mut found = Vec::new();
        for operand in node.operands() {
            found.push(self.expression(operand)?);
        }
        if fits(node.kind, &found) {
            Ok(found)
        } else {
            Err(Refusal::new(15, at))
        }
    }

    fn expression(&mut self, at: usize) -> Result<Value, Refusal> {
        let node = self.visit(at)?;
        let value = match node.kind {
            Kind::Identifier => {
                let value = self.env[node.fields[0] as usize].clone();
                value.expect("a use stands in its binder's body")
            }
            Kind::Bool => Value::Truth(self.predicate(node.fields[0] as usize)?),
            Kind::Comprehension => self.comprehension(at, &node)?,
            _ => {
                let operands = self.operands(at, &node)?;
                self.watch_interval(&node, &operands);
                let made = operation(self.table, &node, operands);
                made.map_err(|fault| Refusal::new(fault as u32, at))?
            }
        };
        if value.weight() > MAX_VALUE_WEIGHT {
            return Err(Refusal::new(18, at));
        }
        if let Some(seen) = &mut self.seen {
            seen.formed.push((at, value.clone()));
        }
        Ok(value)
    }

    fn comprehension(&mut self, at: usize, node: &Node) -> Result<Value, Refusal> {
        let mut kept = Vec::new();
        for member in self.range(at, node)? {
            if self.body(node, member.clone())? {
                kept.push(member);
            }
        }
        Ok(Value::Set(kept))
    }

    fn watch_interval(&mut self, node: &Node, operands: &[Value]) {
        let (Some(seen), Kind::Interval) = (&mut self.seen, node.kind) else {
            return;
        };
        if let [Value::Integer(low), Value::Integer(high)] = operands {
            let width = interval_count(*low, *high);
            seen.widest_interval = seen.widest_interval.max(width);
        }
    }
}

/// Refusal 15: whether some instance of the kind's typing rule fits.
pub fn fits(kind: Kind, operands: &[Value]) -> bool {
    let mut found = Unknowns {
        t: Shape::Hole,
        u: Shape::Hole,
    };
    operands
        .iter()
        .zip(rule(kind).operands)
        .all(|(value, pattern)| {
            let shape = value.shape();
            shape.is_some_and(|shape| found.matches(pattern, shape))
        })
}

/// The types still possible for a rule's t and u.
struct Unknowns {
    t: Shape,
    u: Shape,
}

impl Unknowns {
    fn matches(&mut self, pattern: &Pattern, shape: Shape) -> bool {
        match (pattern, shape) {
            // A hole takes whatever the rest of the rule decides.
            (_, Shape::Hole) => true,
            (Pattern::T, shape) => narrow(&mut self.t, shape),
            (Pattern::U, shape) => narrow(&mut self.u, shape),
            (Pattern::Integer, shape) => shape == Shape::Integer,
            (Pattern::Bool, shape) => shape == Shape::Bool,
            (Pattern::Pow(inner), Shape::Pow(shape)) => self.matches(inner, *shape),
            (Pattern::Product(a, b), Shape::Product(first, second)) => {
                self.matches(a, *first) && self.matches(b, *second)
            }
            _ => false,
        }
    }
}

fn narrow(unknown: &mut Shape, shape: Shape) -> bool {
    match join(unknown.clone(), shape) {
        Some(joined) => {
            *unknown = joined;
            true
        }
        None => false,
    }
}

/// Predicates on operand values that passed 15.
fn relation(kind: Kind, operands: &[Value]) -> bool {
    match (kind, operands) {
        (Kind::Equal, [e, f]) => e == f,
        (Kind::Member, [e, Value::Set(s)]) => s.contains(e),
        (Kind::Subset, [Value::Set(s), Value::Set(r)]) => s.iter().all(|m| r.contains(m)),
        (Kind::AtMost, [Value::Integer(e), Value::Integer(f)]) => e <= f,
        _ => unreachable!("refusal 15 fixes the operands"),
    }
}

/// The refusals that an operation can meet, by number.
#[derive(Clone, Copy)]
enum Fault {
    NoSuchValue = 16,
    OutsideIntegers = 17,
    Heavy = 18,
}

/// Operations on operand values that passed 15.
fn operation(table: &Table, node: &Node, mut operands: Vec<Value>) -> Result<Value, Fault> {
    let last = operands.pop();
    let first = operands.pop();
    match (first, last) {
        (None, None) => Ok(constant(table, node)),
        (None, Some(Value::Set(s))) if node.kind != Kind::Singleton => set_operation(node.kind, s),
        (None, Some(e)) => Ok(Value::Set(vec![e])),
        (Some(e), Some(f)) => match (node.kind, e, f) {
            (Kind::Pair, e, f) => Ok(values::pair(e, f)),
            (Kind::Application, Value::Set(f), e) => apply(&f, &e).ok_or(Fault::NoSuchValue),
            (kind, Value::Set(s), Value::Set(r)) => set_pair_operation(kind, s, r),
            (kind, Value::Integer(m), Value::Integer(n)) => integer_operation(kind, m, n),
            _ => unreachable!("refusal 15 fixes the operands"),
        },
        (Some(_), None) => unreachable!("the last operand is popped first"),
    }
}

fn constant(table: &Table, node: &Node) -> Value {
    let [a, b, _] = node.fields;
    match node.kind {
        Kind::GivenSet => {
            let size = table.sizes[a as usize];
            Value::Set((0..size).map(|k| Value::Element(a, k)).collect())
        }
        Kind::Element => Value::Element(a, b),
        Kind::Integer => Value::Integer(a as i32),
        Kind::Truth => Value::Truth(a == 1),
        Kind::Empty => Value::Set(Vec::new()),
        Kind::BoolSet => Value::Set(vec![Value::Truth(false), Value::Truth(true)]),
        _ => unreachable!("the other kinds have operands"),
    }
}

fn set_operation(kind: Kind, s: Vec<Value>) -> Result<Value, Fault> {
    match kind {
        Kind::Power => power(&s),
        Kind::Domain => Ok(values::set(s.into_iter().map(|m| split(m).0).collect())),
        Kind::Range => Ok(values::set(s.into_iter().map(|m| split(m).1).collect())),
        Kind::Card => Ok(Value::Integer(s.len() as i32)),
        Kind::Choice => s.into_iter().min().ok_or(Fault::NoSuchValue),
        _ => unreachable!("the other kinds have other operands"),
    }
}

fn split(value: Value) -> (Value, Value) {
    match value {
        Value::Pair(first, second) => (*first, *second),
        _ => unreachable!("refusal 15 asks for pairs"),
    }
}

fn set_pair_operation(kind: Kind, s: Vec<Value>, r: Vec<Value>) -> Result<Value, Fault> {
    match kind {
        Kind::Union => Ok(values::set(s.into_iter().chain(r).collect())),
        Kind::Intersection => Ok(kept(s, |m| r.contains(m))),
        Kind::Difference => Ok(kept(s, |m| !r.contains(m))),
        Kind::Product => product(&s, &r),
        _ => unreachable!("the other kinds have other operands"),
    }
}

fn kept(s: Vec<Value>, keep: impl Fn(&Value) -> bool) -> Value {
    Value::Set(s.into_iter().filter(keep).collect())
}

fn integer_operation(kind: Kind, m: i32, n: i32) -> Result<Value, Fault> {
    let made = match kind {
        Kind::Sum => m.checked_add(n),
        Kind::Minus => m.checked_sub(n),
        Kind::Interval => return interval(m, n),
        _ => unreachable!("the other kinds have other operands"),
    };
    made.map(Value::Integer).ok_or(Fault::OutsideIntegers)
}

/// Application: no two members of f share a first part, and one of them begins
/// with the argument.
pub fn apply(f: &[Value], argument: &Value) -> Option<Value> {
    let pairs: Vec<_> = f.iter().map(|member| split(member.clone())).collect();
    let firsts: BTreeSet<_> = pairs.iter().map(|(first, _)| first).collect();
    if firsts.len() < pairs.len() {
        return None;
    }
    let mut found = pairs.into_iter().filter(|(first, _)| first == argument);
    found.next().map(|(_, second)| second)
}

fn interval_count(low: i32, high: i32) -> i64 {
    (i64::from(high) - i64::from(low) + 1).max(0)
}

/// The weight decides before the members are made.
fn interval(low: i32, high: i32) -> Result<Value, Fault> {
    if 1 + interval_count(low, high) > MAX_VALUE_WEIGHT as i64 {
        return Err(Fault::Heavy);
    }
    Ok(Value::Set((low..=high).map(Value::Integer).collect()))
}

/// A pair weighs 1 plus its parts; each member of one side stands with every
/// member of the other.
fn product(s: &[Value], r: &[Value]) -> Result<Value, Fault> {
    let (m, n) = (s.len() as u64, r.len() as u64);
    let weight = 1 + m * n + n * members_weight(s) + m * members_weight(r);
    if weight > MAX_VALUE_WEIGHT {
        return Err(Fault::Heavy);
    }
    let pairs = s
        .iter()
        .flat_map(|e| r.iter().map(|f| values::pair(e.clone(), f.clone())));
    Ok(values::set(pairs.collect()))
}

/// A set of n members has 2^n subsets, and each member is in half of them.
fn power(s: &[Value]) -> Result<Value, Fault> {
    // From 8 members on the 2^n subsets alone weigh 256 and their set 1 more.
    if s.len() >= 8 {
        return Err(Fault::Heavy);
    }
    let subsets = 1u64 << s.len();
    if 1 + subsets + subsets / 2 * members_weight(s) > MAX_VALUE_WEIGHT {
        return Err(Fault::Heavy);
    }
    let subset = |choice: u64| {
        let chosen = s.iter().enumerate().filter(|(i, _)| choice >> i & 1 == 1);
        Value::Set(chosen.map(|(_, member)| member.clone()).collect())
    };
    Ok(values::set((0..subsets).map(subset).collect()))
}
