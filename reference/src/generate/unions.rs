//! Pairs of values to be united: sets of every shape, lying in every way to
//! each other, up to the limit of weight and beyond; unlike sets, and others.

use super::{groups, typed};
use crate::random::Random;
use crate::values::{self, members_weight, Value, MAX_VALUE_WEIGHT};

/// The given sets that the values take elements of.
pub const SIZES: [u32; 2] = [32, 3];

/// The forms of members; all members of one form share a type.
const FORMS: usize = 13;

/// Two sets that share a type.
pub fn like(rng: &mut Random, small: bool) -> [Value; 2] {
    if rng.chance(20) {
        let turned = rising(groups::turned(rng));
        return apart(rng, &turned).map(Value::Set);
    }
    let form = rng.below(FORMS);
    let most = match (small, form) {
        (true, 0..=3) => 10,
        (true, _) => 3,
        (false, _) => *rng.pick(&[4, 12, 40]),
    };
    let count = 2 + rng.below(most - 1);
    let members = rising((0..count).map(|_| member(rng, form)).collect());
    split(rng, &lightened(members)).map(Value::Set)
}

fn rising(mut members: Vec<Value>) -> Vec<Value> {
    members.sort();
    members.dedup();
    members
}

fn member(rng: &mut Random, form: usize) -> Value {
    match form {
        0 => integer(rng),
        1 => Value::Truth(rng.chance(50)),
        2 | 3 => element(rng, form - 2),
        4 => {
            let first = integer(rng);
            values::pair(first, Value::Truth(rng.chance(50)))
        }
        5 => {
            let first = element(rng, 0);
            values::pair(first, few(rng))
        }
        6 => {
            let first = values::pair(few(rng), few(rng));
            values::pair(first, few(rng))
        }
        // Pairs with sets.
        7 => {
            let first = some_group(rng);
            values::pair(first, few(rng))
        }
        8 => {
            let first = few(rng);
            values::pair(first, groups::group(rng, 2))
        }
        // Sets: of equal counts, of any, and sets of such.
        9 => groups::group(rng, 2),
        10 => some_group(rng),
        11 => Value::Set(vec![groups::group(rng, 2)]),
        _ => values::set(vec![some_group(rng), some_group(rng)]),
    }
}

fn integer(rng: &mut Random) -> Value {
    let ends = [i32::MIN, i32::MIN + 1, -1, 0, 1, i32::MAX - 1, i32::MAX];
    Value::Integer(match rng.chance(10) {
        true => *rng.pick(&ends),
        false => rng.between(-6, 20),
    })
}

/// One of few integers, so that such parts are often equal.
fn few(rng: &mut Random) -> Value {
    Value::Integer(rng.between(-1, 2))
}

fn element(rng: &mut Random, g: usize) -> Value {
    Value::Element(g as u32, rng.below(SIZES[g] as usize) as u32)
}

fn some_group(rng: &mut Random) -> Value {
    let count = rng.below(4);
    groups::group(rng, count)
}

/// Two lists of members of one rising list.
fn split(rng: &mut Random, pool: &[Value]) -> [Vec<Value>; 2] {
    let none = Vec::new;
    match rng.below(16) {
        0 => [none(), none()],
        1 => [none(), pool.to_vec()],
        2 => [pool.to_vec(), none()],
        3 => [pool.to_vec(), pool.to_vec()],
        // One lies within the other.
        4 => [some(rng, pool), pool.to_vec()],
        5 => [pool.to_vec(), some(rng, pool)],
        6..=13 => apart(rng, pool),
        _ => [some(rng, pool), some(rng, pool)],
    }
}

/// Two lists that have all members of the rising list between them.
fn apart(rng: &mut Random, pool: &[Value]) -> [Vec<Value>; 2] {
    let (mut a, mut b) = (rng.below(pool.len() + 1), rng.below(pool.len() + 1));
    if a > b {
        (a, b) = (b, a);
    }
    let parts = match rng.below(6) {
        // The one lies below the other; runs that overlap.
        0 => [pool[..a].to_vec(), pool[a..].to_vec()],
        1 => [pool[..b].to_vec(), pool[a..].to_vec()],
        // By turns.
        2 => [0, 1].map(|odd| pool.iter().skip(odd).step_by(2).cloned().collect()),
        // A run within, one member alone.
        3 => [pool[a..b].to_vec(), [&pool[..a], &pool[b..]].concat()],
        4 if !pool.is_empty() => {
            let alone = rng.below(pool.len());
            let rest = [&pool[..alone], &pool[alone + 1..]].concat();
            [vec![pool[alone].clone()], rest]
        }
        _ => dealt(rng, pool),
    };
    let [s, r] = parts;
    match rng.chance(50) {
        true => [s, r],
        false => [r, s],
    }
}

/// Each member goes to either list or to both.
fn dealt(rng: &mut Random, pool: &[Value]) -> [Vec<Value>; 2] {
    let (mut s, mut r) = (Vec::new(), Vec::new());
    for member in pool {
        let to = rng.below(3);
        if to != 0 {
            s.push(member.clone());
        }
        if to != 1 {
            r.push(member.clone());
        }
    }
    [s, r]
}

fn some(rng: &mut Random, pool: &[Value]) -> Vec<Value> {
    let chosen = pool.iter().filter(|_| rng.chance(50));
    chosen.cloned().collect()
}

/// Two sets that 14 passes, with a union of weight 254 to 511.
pub fn wide(rng: &mut Random) -> [Value; 2] {
    let limit = MAX_VALUE_WEIGHT as usize;
    let weights = [
        limit - 2,
        limit - 1,
        limit - 1,
        limit - 1,
        limit,
        limit,
        limit,
        limit + 1,
        300,
        400,
        2 * limit - 2,
    ];
    let weight = *rng.pick(&weights);
    let pool = match rng.chance(80) {
        true => weighing(rng, weight),
        false => about(rng, weight as u64),
    };
    let mut parts = apart(rng, &pool);
    // A heavy list may have no two parts that are light.
    for _ in 0..40 {
        if parts.iter().all(|members| is_light(members)) {
            break;
        }
        parts = apart(rng, &pool);
    }
    parts.map(|members| Value::Set(lightened(members)))
}

fn is_light(members: &[Value]) -> bool {
    1 + members_weight(members) <= MAX_VALUE_WEIGHT
}

/// The members without the last ones, where all together are too heavy.
fn lightened(mut members: Vec<Value>) -> Vec<Value> {
    while !is_light(&members) {
        members.pop();
    }
    members
}

/// Members of any form that weigh at least so much together, where the form
/// has so many.
fn about(rng: &mut Random, weight: u64) -> Vec<Value> {
    let form = rng.below(FORMS);
    let mut found = Vec::new();
    for _ in 0..400 {
        found.push(member(rng, form));
        found = rising(found);
        if members_weight(&found) >= weight {
            break;
        }
    }
    found
}

/// A rising list of members that have that weight together.
fn weighing(rng: &mut Random, weight: usize) -> Vec<Value> {
    match rng.below(3) {
        0 => integers(rng, weight),
        1 => pairs_weighing(rng, weight),
        _ => sets_weighing(rng, weight),
    }
}

/// So many integers, one after the other.
fn integers(rng: &mut Random, count: usize) -> Vec<Value> {
    let from = *rng.pick(&[i32::MIN, -200, 0, i32::MAX - 600]);
    let rising = (0..count as i32).map(|n| Value::Integer(from + n));
    rising.collect()
}

/// (n,∅) of weight 3, and (n,{m}) of weight 4, which make up what 3 leaves.
fn pairs_weighing(rng: &mut Random, weight: usize) -> Vec<Value> {
    let longer = weight % 3 + 3 * rng.below(5);
    let count = longer + (weight - 4 * longer) / 3;
    let mut seconds = vec![Vec::new(); count];
    for second in &mut seconds[..longer] {
        second.push(few(rng));
    }
    seconds.rotate_right(rng.below(count));
    let firsts = integers(rng, count).into_iter();
    let pairs = firsts.zip(seconds);
    pairs
        .map(|(first, second)| values::pair(first, Value::Set(second)))
        .collect()
}

/// Sets of two members, of weight 3. Sets of one, of weight 2, and at times the
/// empty set make up what 3 leaves.
fn sets_weighing(rng: &mut Random, weight: usize) -> Vec<Value> {
    let empty = rng.below(2);
    let rest = weight - empty;
    let single = 2 * rest % 3 + 3 * rng.below(4);
    let mut found = two_each((rest - 2 * single) / 3);
    let singles = integers(rng, single).into_iter();
    found.extend(singles.map(|n| Value::Set(vec![n])));
    found.extend((0..empty).map(|_| Value::Set(Vec::new())));
    rising(found)
}

/// So many sets of two integers.
fn two_each(count: usize) -> Vec<Value> {
    let pairs = (0..20).flat_map(|n| (0..n).map(move |m| [m, n]));
    let sets = pairs.map(|pair| Value::Set(pair.map(Value::Integer).to_vec()));
    sets.take(count).collect()
}

/// Two values that need not share a type: sets in which an empty set leaves
/// types open, sets of others, and values that are no sets.
pub fn unlike(rng: &mut Random) -> [Value; 2] {
    if rng.chance(20) {
        return [0; 2].map(|_| {
            let t = typed::random_type(rng, SIZES.len(), 2);
            typed::random_value(rng, &t, &SIZES, true)
        });
    }
    let of = |members: &[&Value]| values::set(members.iter().map(|&m| m.clone()).collect());
    let both = |a: &Value, b: &Value| values::pair(a.clone(), b.clone());
    let (one, truth) = (Value::Integer(1), Value::Truth(true));
    let elements = [Value::Element(0, 0), Value::Element(1, 0)];
    let none = of(&[]);
    let (ones, truths) = (of(&[&one]), of(&[&truth]));
    let open = both(&none, &one);
    let any = [
        of(&[&elements[0]]),
        of(&[&elements[1]]),
        of(&[&both(&one, &truth)]),
        of(&[&both(&truth, &one)]),
        of(&[&none]),
        of(&[&ones]),
        of(&[&truths]),
        of(&[&of(&[&none])]),
        of(&[&of(&[&ones])]),
        // (∅,1) beside ({1},1) or ({TRUE},1), and both.
        of(&[&open]),
        of(&[&open, &both(&ones, &one)]),
        of(&[&open, &both(&truths, &one)]),
        both(&ones, &ones),
        elements[0].clone(),
        ones,
        truths,
        one,
        truth,
        none,
    ];
    [0; 2].map(|_| rng.pick(&any).clone())
}
