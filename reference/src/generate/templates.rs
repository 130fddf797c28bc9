//! Conditions without a single typing: ambiguous and cyclic ones.

use super::Condition;
use crate::build::Draft;
use crate::kinds::Kind;
use crate::random::Random;
use crate::values::{self, Value};

/// Small values for every free identifier, of no particular type.
pub fn with_values(rng: &mut Random, draft: Draft) -> Condition {
    let one = || Value::Integer(1);
    let pool = [
        one(),
        Value::Truth(true),
        Value::Set(Vec::new()),
        Value::Set(vec![one()]),
        Value::Set(vec![Value::Set(Vec::new())]),
        values::pair(one(), one()),
        Value::Set(vec![values::pair(one(), Value::Set(Vec::new()))]),
    ];
    let values = draft
        .flags
        .iter()
        .map(|&flag| (flag == 0).then(|| rng.pick(&pool).clone()))
        .collect();
    Condition { draft, values }
}

/// Clauses that leave a type open, joined with others that do not.
pub fn ambiguous(rng: &mut Random) -> Condition {
    let mut d = Draft::default();
    let mut clauses = Vec::new();
    for _ in 0..=rng.below(3) {
        let clause = open_clause(rng, &mut d);
        clauses.push(clause);
        if rng.chance(40) {
            let e = d.integer(1);
            let f = d.integer(2);
            clauses.push(d.two(Kind::AtMost, e, f));
        }
    }
    let kind = *rng.pick(&[Kind::And, Kind::Or, Kind::Implies, Kind::Equivalent]);
    d.joined(kind, &clauses);
    with_values(rng, d)
}

/// A clause with a type that nothing determines.
fn open_clause(rng: &mut Random, d: &mut Draft) -> u32 {
    match rng.chance(40) {
        true => open_identifier(rng, d),
        false => open_empty_set(rng, d),
    }
}

fn open_identifier(rng: &mut Random, d: &mut Draft) -> u32 {
    let x = d.identifier(0);
    let e = d.using(x);
    match rng.below(3) {
        0 => {
            let f = d.using(x);
            d.two(Kind::Equal, e, f)
        }
        1 => {
            let y = d.identifier(0);
            let f = d.using(y);
            d.two(*rng.pick(&[Kind::Member, Kind::Subset, Kind::Equal]), e, f)
        }
        _ => {
            // One part of the type is known, the other is not.
            let (n, s) = (d.integer(1), d.leaf(Kind::Empty));
            let pair = d.two(Kind::Pair, n, s);
            d.two(Kind::Equal, e, pair)
        }
    }
}

fn open_empty_set(rng: &mut Random, d: &mut Draft) -> u32 {
    let s = d.leaf(Kind::Empty);
    match rng.below(6) {
        0 => {
            let r = d.leaf(Kind::Empty);
            d.two(*rng.pick(&[Kind::Equal, Kind::Subset]), s, r)
        }
        1 => {
            let (card, n) = (d.one(Kind::Card, s), d.integer(0));
            d.two(Kind::Equal, card, n)
        }
        2 => {
            let image = d.one(*rng.pick(&[Kind::Domain, Kind::Range]), s);
            let r = d.leaf(Kind::Empty);
            d.two(Kind::Equal, image, r)
        }
        3 => {
            let (e, n) = (d.leaf(Kind::Empty), d.integer(1));
            let value = d.two(Kind::Application, s, e);
            d.two(Kind::Equal, value, n)
        }
        4 => {
            let x = d.identifier(1);
            let (e, f) = (d.using(x), d.using(x));
            let body = d.two(Kind::Equal, e, f);
            d.node(*rng.pick(&[Kind::ForAll, Kind::Exists]), x, s, body)
        }
        _ => {
            let power = d.one(Kind::Power, s);
            let r = d.leaf(Kind::Empty);
            d.two(Kind::Member, r, power)
        }
    }
}

/// Conditions whose only solution would be an infinite type.
pub fn cyclic(rng: &mut Random) -> Condition {
    let mut d = Draft::default();
    match rng.below(6) {
        0 => {
            let x = d.identifier(0);
            let e = d.using(x);
            let f = d.using(x);
            let inner = wrapped(rng, &mut d, f);
            d.two(Kind::Equal, e, inner);
        }
        1 => {
            let x = d.identifier(0);
            let (e, s) = (d.using(x), d.using(x));
            d.two(Kind::Member, e, s);
        }
        2 => {
            let f = d.identifier(0);
            let (e, s) = (d.using(f), d.using(f));
            let image = d.one(*rng.pick(&[Kind::Domain, Kind::Range, Kind::Choice]), s);
            d.two(Kind::Equal, image, e);
        }
        3 => {
            let f = d.identifier(0);
            let (e, s, n) = (d.using(f), d.using(f), d.integer(1));
            let value = d.two(Kind::Application, s, e);
            d.two(Kind::Equal, value, n);
        }
        4 => {
            let x = d.identifier(1);
            let (e, s) = (d.leaf(Kind::Empty), d.using(x));
            let f = d.using(x);
            let body = d.two(Kind::Member, s, f);
            d.node(Kind::Exists, x, e, body);
        }
        _ => ring(rng, &mut d),
    }
    with_values(rng, d)
}

fn wrapped(rng: &mut Random, d: &mut Draft, e: u32) -> u32 {
    match rng.below(4) {
        0 => d.one(Kind::Singleton, e),
        1 => {
            let n = d.integer(1);
            d.two(Kind::Pair, e, n)
        }
        2 => {
            let s = d.one(Kind::Singleton, e);
            d.one(Kind::Power, s)
        }
        _ => {
            let s = d.one(Kind::Singleton, e);
            let n = d.integer(1);
            d.two(Kind::Pair, n, s)
        }
    }
}

/// x0 = w(x1), x1 = w(x2), .., xn = x0 or left open: a cycle over several
/// identifiers, or none.
fn ring(rng: &mut Random, d: &mut Draft) {
    let count = rng.between(2, 5) as u32;
    let names: Vec<u32> = (0..count).map(|_| d.identifier(0)).collect();
    let mut clauses = Vec::new();
    for i in 0..count as usize {
        let next = names[(i + 1) % count as usize];
        let e = d.using(names[i]);
        let f = d.using(next);
        let inner = match i {
            0 => wrapped(rng, d, f),
            _ if rng.chance(50) => wrapped(rng, d, f),
            _ => f,
        };
        clauses.push(d.two(Kind::Equal, e, inner));
        if rng.chance(10) {
            break;
        }
    }
    d.joined(*rng.pick(&[Kind::And, Kind::Or]), &clauses);
}
