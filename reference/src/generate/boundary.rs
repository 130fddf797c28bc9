//! Conditions at the limits of document 01, just inside and just outside.

use super::{groups, templates, typed, Condition};
use crate::build::Draft;
use crate::kinds::Kind;
use crate::random::Random;
use crate::table::MAX_HEIGHT;
use crate::types::Type;
use crate::values::{self, Value};

/// A condition at some limit; in small mode only at those that need few nodes.
pub fn condition(rng: &mut Random, small: bool) -> Condition {
    let limits: &[fn(&mut Random) -> Condition] = &[
        // The only source of refusal 17 that does not depend on luck.
        integers,
        integers,
        integers,
        no_nodes,
        // Functions and other relations, arguments inside and outside.
        applications,
        applications,
        integer_ends,
        // Sets of the same count in many places.
        order,
        order,
        order,
        shared_empty,
        elements,
        power_sets,
        narrow_intervals,
        sharing,
        intervals,
        products,
        unions,
        wide_values,
        type_weights,
        heights,
        node_counts,
        given_sets,
        identifiers,
        nested_binders,
        loops,
    ];
    // The small ones stand first.
    let some = if small { &limits[..15] } else { limits };
    rng.pick(some)(rng)
}

fn closed(draft: Draft) -> Condition {
    let values = vec![None; draft.flags.len()];
    Condition { draft, values }
}

fn with_value(draft: Draft, value: Value) -> Condition {
    Condition {
        draft,
        values: vec![Some(value)],
    }
}

/// A gate with no clauses yet: given sets, and identifiers of either sort.
pub fn no_nodes(rng: &mut Random) -> Condition {
    let mut d = Draft::default();
    let sets = rng.below(3);
    d.sizes.extend((0..sets).map(|_| rng.between(1, 32) as u32));
    let mut values = Vec::new();
    for _ in 0..rng.below(3) {
        let flag = u32::from(rng.chance(30));
        d.identifier(flag);
        let value = typed::random_value(rng, &Type::Integer, &[], true);
        values.push((flag == 0).then_some(value));
    }
    Condition { draft: d, values }
}

const ENDS: [i32; 8] = [i32::MIN, i32::MIN + 1, -1, 0, 1, 2, i32::MAX - 1, i32::MAX];

/// Sums and differences at both ends of the range.
fn integers(rng: &mut Random) -> Condition {
    let mut d = Draft::default();
    let e = d.integer(*rng.pick(&ENDS));
    let f = d.integer(*rng.pick(&ENDS));
    let kind = *rng.pick(&[Kind::Sum, Kind::Minus]);
    let made = d.two(kind, e, f);
    let n = d.integer(*rng.pick(&ENDS));
    d.two(*rng.pick(&[Kind::Equal, Kind::AtMost]), made, n);
    closed(d)
}

/// Values and literals at both ends, compared.
fn integer_ends(rng: &mut Random) -> Condition {
    let mut d = Draft::default();
    let x = d.identifier(0);
    let e = d.using(x);
    let f = d.integer(*rng.pick(&ENDS));
    match rng.chance(50) {
        true => d.two(Kind::AtMost, e, f),
        false => {
            let g = d.integer(*rng.pick(&ENDS));
            let (s, r) = (d.one(Kind::Singleton, f), d.one(Kind::Singleton, g));
            let both = d.two(Kind::Union, s, r);
            let least = d.one(Kind::Choice, both);
            d.two(Kind::AtMost, least, e)
        }
    };
    with_value(d, Value::Integer(*rng.pick(&ENDS)))
}

/// The least member of a set, and the visits of a quantifier that ends at some
/// member: the order of values. Mostly sets of the same count tell the members
/// apart; the set is lent, or an operation makes it.
fn order(rng: &mut Random) -> Condition {
    let members: Vec<Value> = match rng.below(6) {
        0..=3 => groups::turned(rng),
        4 => groups::some(rng),
        _ => {
            let t = typed::random_type(rng, 0, 2);
            let any = || typed::random_value(rng, &t, &[], true);
            std::iter::repeat_with(any).take(3).collect()
        }
    };
    let guess = rng.pick(&members).clone();
    let mut d = Draft::default();
    let x = d.identifier(0);
    let e = d.using(x);
    let (s, lent, guess) = match rng.below(6) {
        0 => (d.one(Kind::Domain, e), related(rng, members, true), guess),
        1 => (d.one(Kind::Range, e), related(rng, members, false), guess),
        2 => {
            let f = d.literal(rng.pick(&members));
            let single = d.one(Kind::Singleton, f);
            let kind = *rng.pick(&[Kind::Union, Kind::Difference]);
            (d.two(kind, e, single), values::set(members), guess)
        }
        3 => {
            let count = rng.between(3, 5) as usize;
            let whole = groups::group(rng, count);
            (d.one(Kind::Power, e), whole, groups::group(rng, 2))
        }
        _ => (e, values::set(members), guess),
    };
    let mut values = vec![Some(lent)];
    let f = match rng.chance(50) {
        true => d.literal(&guess),
        false => {
            values.push(Some(guess));
            let y = d.identifier(0);
            d.using(y)
        }
    };
    if rng.chance(40) {
        let least = d.one(Kind::Choice, s);
        d.two(Kind::Equal, least, f);
    } else {
        values.push(None);
        quantified(rng, &mut d, s, f);
    }
    Condition { draft: d, values }
}

/// ∃z∈s·z=f or ∀z∈s·¬(z=f): both end where z is f.
fn quantified(rng: &mut Random, d: &mut Draft, s: u32, f: u32) {
    let z = d.identifier(1);
    let e = d.using(z);
    let same = d.two(Kind::Equal, e, f);
    match rng.chance(50) {
        true => d.node(Kind::Exists, z, s, same),
        false => {
            let other = d.one(Kind::Not, same);
            d.node(Kind::ForAll, z, s, other)
        }
    };
}

/// The set of the members, each beside an integer, as its first part or second.
fn related(rng: &mut Random, members: Vec<Value>, first: bool) -> Value {
    let pairs = members.into_iter().map(|member| {
        let n = Value::Integer(rng.below(3) as i32);
        match first {
            true => values::pair(member, n),
            false => values::pair(n, member),
        }
    });
    values::set(pairs.collect())
}

/// f(e)=n for values of f and e, f of few pairs: e stands outside the domain
/// as often as not, and so often do two pairs share a first part.
fn applications(rng: &mut Random) -> Condition {
    let integers: Vec<Value> = (0..4).map(Value::Integer).collect();
    let firsts: Vec<Value> = match rng.below(4) {
        0 => (0..4)
            .map(|i| values::pair(integers[i / 2].clone(), integers[i % 2].clone()))
            .collect(),
        1 => (0..4)
            .map(|i| values::set(integers[i / 2..i].to_vec()))
            .collect(),
        _ => integers.clone(),
    };
    let pairs = (0..rng.below(5))
        .map(|_| values::pair(rng.pick(&firsts).clone(), rng.pick(&integers).clone()))
        .collect();
    let mut d = Draft::default();
    let (x, y) = (d.identifier(0), d.identifier(0));
    let (f, e) = (d.using(x), d.using(y));
    let value = d.two(Kind::Application, f, e);
    let n = d.integer(rng.below(4) as i32);
    d.two(Kind::Equal, value, n);
    let values = [values::set(pairs), rng.pick(&firsts).clone()];
    Condition {
        draft: d,
        values: values.into_iter().map(Some).collect(),
    }
}

/// One empty set that serves at two types, or meets unlike sets.
fn shared_empty(rng: &mut Random) -> Condition {
    let mut d = Draft::default();
    let (e, f) = (d.integer(1), d.integer(1));
    let (s, r) = (d.one(Kind::Singleton, e), d.one(Kind::Singleton, f));
    let kind = *rng.pick(&[Kind::Difference, Kind::Difference, Kind::Intersection]);
    let none = d.two(kind, s, r);
    let truths = d.leaf(Kind::BoolSet);
    let joins = [Kind::Union, Kind::Intersection, Kind::Difference];
    match rng.chance(50) {
        true => {
            let joined = d.two(*rng.pick(&joins), none, truths);
            let card = d.one(Kind::Card, joined);
            let n = d.integer(2);
            d.two(Kind::Equal, card, n);
        }
        false => {
            d.two(
                *rng.pick(&[Kind::Subset, Kind::Equal, Kind::Member]),
                none,
                truths,
            );
        }
    }
    closed(d)
}

/// Given sets of size 0, 1, 32 and 33, and the element at the end.
fn elements(rng: &mut Random) -> Condition {
    let mut d = Draft::default();
    let size = *rng.pick(&[0, 1, 2, 31, 32, 33]);
    d.sizes.extend([1, size]);
    let e = d.two(
        Kind::Element,
        1,
        *rng.pick(&[0, size.wrapping_sub(1), size]),
    );
    let s = d.one(Kind::GivenSet, *rng.pick(&[0, 1, 1, 1, 2]));
    d.two(Kind::Member, e, s);
    closed(d)
}

/// card(POW(1..n)) = m around the limit of weight.
fn power_sets(rng: &mut Random) -> Condition {
    let mut d = Draft::default();
    let e = d.integer(1);
    let f = d.integer(rng.between(3, 9));
    let s = d.two(Kind::Interval, e, f);
    let mut power = d.one(Kind::Power, s);
    if rng.chance(20) {
        power = d.one(Kind::Power, power);
    }
    let card = d.one(Kind::Card, power);
    let n = d.integer(32);
    d.two(Kind::Equal, card, n);
    closed(d)
}

fn interval_card(d: &mut Draft, low: i32, high: i32) -> u32 {
    let e = d.integer(low);
    let f = d.integer(high);
    d.two(Kind::Interval, e, f)
}

/// Intervals of few members at both ends of the integers.
fn narrow_intervals(rng: &mut Random) -> Condition {
    let mut d = Draft::default();
    let low = *rng.pick(&[i32::MIN, i32::MAX - 3, i32::MAX, -1]);
    let high = low.saturating_add(rng.between(-1, 4));
    let s = interval_card(&mut d, low, high);
    let least = d.one(Kind::Choice, s);
    let n = d.integer(low);
    d.two(Kind::Equal, least, n);
    closed(d)
}

/// Intervals of 255 and 256 members, and of up to 2^32.
fn intervals(rng: &mut Random) -> Condition {
    let mut d = Draft::default();
    let bounds = [
        (1, 255),
        (1, 256),
        (-100, 154),
        (i32::MIN, i32::MAX),
        (i32::MIN, i32::MIN + 254),
        (i32::MAX - 254, i32::MAX),
        (i32::MAX - 255, i32::MAX),
        (i32::MAX, i32::MIN),
        (0, i32::MAX),
    ];
    let (low, high) = *rng.pick(&bounds);
    let mut s = interval_card(&mut d, low, high);
    if rng.chance(30) {
        s = d.one(Kind::Singleton, s);
    }
    let card = d.one(Kind::Card, s);
    let n = d.integer(255);
    d.two(Kind::Equal, card, n);
    closed(d)
}

/// 5 × 17 pairs weigh 256; one more is too heavy.
fn products(rng: &mut Random) -> Condition {
    let mut d = Draft::default();
    let (m, n) = *rng.pick(&[
        (5, 17),
        (17, 5),
        (1, 85),
        (86, 1),
        (2, 43),
        (9, 10),
        (255, 255),
        (0, 255),
    ]);
    let s = interval_card(&mut d, 1, m);
    let r = interval_card(&mut d, 1, n);
    let mut both = d.two(Kind::Product, s, r);
    let kind = *rng.pick(&[Kind::Product, Kind::Domain, Kind::Range]);
    if kind != Kind::Product {
        both = d.one(kind, both);
    }
    let card = d.one(Kind::Card, both);
    let wanted = d.integer(85);
    d.two(Kind::Equal, card, wanted);
    closed(d)
}

/// Unions and pairs that weigh 256 or 257.
fn unions(rng: &mut Random) -> Condition {
    let mut d = Draft::default();
    let (a, b) = (rng.between(100, 200), rng.between(253, 258));
    let s = interval_card(&mut d, 1, a);
    let r = interval_card(&mut d, a - rng.between(-1, 50), b);
    let kind = *rng.pick(&[Kind::Union, Kind::Union, Kind::Pair, Kind::Intersection]);
    let made = d.two(kind, s, r);
    let single = d.one(Kind::Singleton, made);
    let card = d.one(Kind::Card, single);
    let n = d.integer(1);
    d.two(Kind::Equal, card, n);
    closed(d)
}

/// A lent set that weighs 255, 256 or 257, alone or in a singleton.
fn wide_values(rng: &mut Random) -> Condition {
    let mut d = Draft::default();
    let x = d.identifier(0);
    let mut e = d.using(x);
    if rng.chance(50) {
        e = d.one(Kind::Singleton, e);
    }
    let card = d.one(Kind::Card, e);
    let n = d.integer(1);
    let p = d.two(Kind::Equal, card, n);
    let y = d.identifier(1);
    let s = d.using(x);
    let (f, g) = (d.using(y), d.integer(*rng.pick(&[0, 253, 255])));
    let body = d.two(Kind::AtMost, f, g);
    let q = d.node(Kind::ForAll, y, s, body);
    d.two(Kind::Equivalent, p, q);
    let members = rng.between(254, 256);
    let value = Value::Set((0..members).map(Value::Integer).collect());
    Condition {
        draft: d,
        values: vec![Some(value), None],
    }
}

/// Types of weight 64 and 65: a balanced pairing of 32 leaves in singletons.
fn type_weights(rng: &mut Random) -> Condition {
    let mut d = Draft::default();
    d.sizes.push(2);
    let kind = rng.below(3);
    let mut e = d.balanced(5, &|d| match kind {
        0 => d.integer(1),
        1 => d.leaf(Kind::BoolSet),
        _ => d.two(Kind::Element, 0, 1),
    });
    for _ in 0..=rng.below(3) {
        e = d.one(Kind::Singleton, e);
    }
    let card = d.one(Kind::Card, e);
    let n = d.integer(1);
    d.two(Kind::Equal, card, n);
    closed(d)
}

/// Chains whose root is one node lower than the limit to two higher.
fn heights(rng: &mut Random) -> Condition {
    let mut d = Draft::default();
    let limit = MAX_HEIGHT as i32;
    let height = rng.between(limit - 1, limit + 2) as usize;
    let e = d.integer(0);
    match rng.below(3) {
        0 => {
            let f = d.integer(0);
            let mut p = d.two(Kind::Equal, e, f);
            for _ in 2..height {
                p = d.one(Kind::Not, p);
            }
        }
        1 => {
            let mut sum = e;
            for _ in 1..height - 1 {
                let n = d.integer(1);
                sum = d.two(*rng.pick(&[Kind::Sum, Kind::Minus]), sum, n);
            }
            let n = d.integer(3);
            d.two(Kind::AtMost, n, sum);
        }
        _ => {
            let mut s = e;
            for _ in 1..height - 1 {
                s = d.one(Kind::Singleton, s);
            }
            let f = d.leaf(Kind::Empty);
            d.two(Kind::Equal, s, f);
        }
    }
    closed(d)
}

/// 511, 512 and 513 nodes.
fn node_counts(rng: &mut Random) -> Condition {
    let mut d = Draft::default();
    let mut clauses = Vec::new();
    for i in 0..128 {
        let e = d.integer(i);
        let f = d.integer(rng.between(0, 200));
        clauses.push(d.two(*rng.pick(&[Kind::AtMost, Kind::Equal]), e, f));
    }
    let kind = *rng.pick(&[Kind::And, Kind::Or, Kind::Equivalent]);
    let mut p = d.joined(kind, &clauses);
    for _ in 0..rng.below(3) {
        p = d.one(Kind::Not, p);
    }
    closed(d)
}

/// 15, 16 and 17 given sets.
fn given_sets(rng: &mut Random) -> Condition {
    let mut d = Draft::default();
    let count = rng.between(15, 17) as u32;
    d.sizes
        .extend((0..count).map(|_| rng.between(1, 32) as u32));
    let g = rng.below(count as usize) as u32;
    let x = d.identifier(0);
    let e = d.using(x);
    let s = d.one(Kind::GivenSet, g);
    d.two(Kind::Member, e, s);
    let h = if rng.chance(70) { g } else { count - 1 };
    let k = d.sizes[h as usize] - u32::from(rng.chance(80));
    with_value(d, Value::Element(h, k))
}

/// 31, 32 and 33 identifiers.
fn identifiers(rng: &mut Random) -> Condition {
    let mut d = Draft::default();
    let count = rng.between(31, 33) as u32;
    let names: Vec<u32> = (0..count).map(|_| d.identifier(0)).collect();
    let mut clauses = Vec::new();
    for pair in names.windows(2) {
        let (e, f) = (d.using(pair[0]), d.using(pair[1]));
        clauses.push(d.two(Kind::AtMost, e, f));
    }
    d.joined(Kind::And, &clauses);
    let step = rng.between(-1, 2);
    let values = (0..count as i32).map(|i| Some(Value::Integer(step * i)));
    Condition {
        draft: d,
        values: values.collect(),
    }
}

/// x1 = (x0, x0), x2 = (x1, x1), ..: types of weight up to 2^76 by
/// sharing, known, open, cyclic or clashing at the end. Half of the time the
/// heaviest has the lowest number, where a weight that wraps would show.
fn sharing(rng: &mut Random) -> Condition {
    let mut d = Draft::default();
    let levels = rng.between(1, 3) as u32;
    let room = [0, 30, 30, 25][levels as usize];
    let count = *rng.pick(&[1, 4, 20, room]).min(&room);
    let mut names: Vec<u32> = (0..count + 2).map(|_| d.identifier(0)).collect();
    if rng.chance(50) {
        names.reverse();
    }
    let mut clauses = Vec::new();
    for pair in names[..count + 1].windows(2) {
        let e = d.using(pair[1]);
        let f = d.balanced(levels, &|d| d.using(pair[0]));
        clauses.push(d.two(Kind::Equal, e, f));
    }
    let (first, last) = (names[0], names[count]);
    clauses.push(singleton_clause(&mut d, names[count + 1], last));
    let e = d.using(first);
    let end = match rng.below(6) {
        0 => d.leaf(Kind::Empty),
        1 => d.using(last),
        2 => d.leaf(Kind::BoolSet),
        _ => d.integer(1),
    };
    clauses.push(d.two(Kind::Equal, e, end));
    if rng.chance(30) {
        clauses.rotate_right(1);
    }
    d.joined(*rng.pick(&[Kind::And, Kind::Or]), &clauses);
    templates::with_values(rng, d)
}

/// y = {x}
fn singleton_clause(d: &mut Draft, y: u32, x: u32) -> u32 {
    let e = d.using(y);
    let f = d.using(x);
    let single = d.one(Kind::Singleton, f);
    d.two(Kind::Equal, e, single)
}

/// ∃x1∈{(x0, x0)} · ∃x2∈{(x1, x1)} · ..: up to 32 binders in one another.
fn nested_binders(rng: &mut Random) -> Condition {
    let mut d = Draft::default();
    let count = *rng.pick(&[2, 5, 6, 31]);
    let doubling = rng.chance(50);
    let mut ranges = Vec::new();
    let mut last = None;
    for _ in 0..count {
        let leaf = |d: &mut Draft| match last {
            None => d.integer(1),
            Some(x) => d.using(x),
        };
        let e = match doubling {
            true => d.balanced(1, &leaf),
            false => leaf(&mut d),
        };
        let range = d.one(Kind::Singleton, e);
        let x = d.identifier(1);
        ranges.push((x, range));
        last = Some(x);
    }
    let x = last.expect("there is a binder");
    let (e, f) = (d.using(x), d.using(x));
    let mut p = d.two(Kind::Equal, e, f);
    for &(x, range) in ranges.iter().rev() {
        let kind = *rng.pick(&[Kind::ForAll, Kind::Exists]);
        p = d.node(kind, x, range, p);
    }
    closed(d)
}

/// Loops in loops, for budgets.
fn loops(rng: &mut Random) -> Condition {
    let mut d = Draft::default();
    let wide = *rng.pick(&[3, 20, 255]);
    let s = interval_card(&mut d, 1, wide);
    let r = interval_card(&mut d, 1, wide);
    let (x, y) = (d.identifier(1), d.identifier(1));
    let (e, f) = (d.using(x), d.using(y));
    let body = d.two(*rng.pick(&[Kind::Equal, Kind::AtMost]), e, f);
    let kinds = [Kind::ForAll, Kind::Exists];
    let inner = d.node(*rng.pick(&kinds), y, r, body);
    d.node(*rng.pick(&kinds), x, s, inner);
    closed(d)
}
