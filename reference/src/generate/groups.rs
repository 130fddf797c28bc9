//! Values in which sets of the same count meet, alone and inside sets and
//! pairs, so that document 02's N6 decides their order.

use crate::former;
use crate::random::Random;
use crate::values::{self, Value};

/// Values whose set stood in another order before N6.
pub fn turned(rng: &mut Random) -> Vec<Value> {
    loop {
        let members = some(rng);
        let whole = values::set(members.clone());
        if former::arranged(&whole) != whole {
            return members;
        }
    }
}

/// Two to four such values of one type, some of them equal at times.
pub fn some(rng: &mut Random) -> Vec<Value> {
    // Two groups of two fit into small cases, where hardly another form does.
    let (form, count, many) = match rng.chance(40) {
        true => (0, 2, 2),
        false => (rng.below(11), 2 + rng.below(3), 2 + rng.below(3)),
    };
    (0..many).map(|_| value(rng, form, count)).collect()
}

fn value(rng: &mut Random, form: usize, count: usize) -> Value {
    match form {
        0..=3 => group(rng, count),
        4 => Value::Set(vec![group(rng, count)]),
        // Two of one or two members each: the order of the groups, the order
        // inside them or both tell such sets apart.
        5 => two(rng, |rng| group(rng, count / 2)),
        6 => left(rng, count),
        7 => right(rng, count),
        8 if count == 2 => two(rng, |rng| left(rng, 2)),
        8 => two(rng, |rng| right(rng, 2)),
        9 => values::set((0..count).map(|_| point(rng)).collect()),
        _ => long(rng, count),
    }
}

/// That many of the integers 0 to 5.
pub fn group(rng: &mut Random, count: usize) -> Value {
    Value::Set(integers(rng, count))
}

fn integers(rng: &mut Random, count: usize) -> Vec<Value> {
    let mut found: Vec<Value> = (0..6).map(Value::Integer).collect();
    while found.len() > count {
        found.remove(rng.below(found.len()));
    }
    found
}

/// A group with greater members that all such groups have.
fn long(rng: &mut Random, count: usize) -> Value {
    let greater = (10..10 + 3 * count as i32).map(Value::Integer);
    Value::Set(integers(rng, count).into_iter().chain(greater).collect())
}

fn point(rng: &mut Random) -> Value {
    let [m, n] = [0; 2].map(|_| Value::Integer(rng.below(3) as i32));
    values::pair(m, n)
}

fn two(rng: &mut Random, member: impl Fn(&mut Random) -> Value) -> Value {
    let first = member(rng);
    values::set(vec![first, member(rng)])
}

fn bit(rng: &mut Random) -> Value {
    Value::Integer(rng.below(2) as i32)
}

fn left(rng: &mut Random, count: usize) -> Value {
    let first = group(rng, count);
    values::pair(first, bit(rng))
}

fn right(rng: &mut Random, count: usize) -> Value {
    let first = bit(rng);
    values::pair(first, group(rng, count))
}
