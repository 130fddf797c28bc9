//! Document 02, N6, on generated cases, which are held against another
//! statement of the order: of two sets of the same count the greater one has
//! the greatest of the members that only one of them has.

use reference::evaluate::{evaluate, observe, Outcome};
use reference::former;
use reference::generate::{Class, Generator};
use reference::kinds::Kind;
use reference::table::{self, Table};
use reference::values::{pair, Value, MAX_VALUE_WEIGHT};
use reference::Refusal;

fn precedes(a: &Value, b: &Value) -> bool {
    match (a, b) {
        (Value::Pair(a, b), Value::Pair(c, d)) => precedes(a, c) || (a == c && precedes(b, d)),
        (Value::Set(s), Value::Set(r)) if s.len() == r.len() => {
            let only_in_s: Vec<&Value> = s.iter().filter(|m| !r.contains(m)).collect();
            let mut only_in_r = r.iter().filter(|m| !s.contains(m));
            only_in_r.any(|m| only_in_s.iter().all(|n| precedes(n, m)))
        }
        _ => a < b,
    }
}

/// Whether the members of each set in the value rise.
fn rises(value: &Value) -> bool {
    in_order(value, precedes)
}

/// Whether they rose before N6.
fn rose(value: &Value) -> bool {
    in_order(value, |a, b| former::order(a, b).is_lt())
}

fn in_order(value: &Value, before: fn(&Value, &Value) -> bool) -> bool {
    match value {
        Value::Pair(a, b) => in_order(a, before) && in_order(b, before),
        Value::Set(members) => {
            let inside = members.iter().all(|member| in_order(member, before));
            inside && members.windows(2).all(|two| before(&two[0], &two[1]))
        }
        _ => true,
    }
}

#[test]
fn values_rise_and_choice_gives_the_least() {
    let mut generator = Generator::new(61, false, None);
    let (mut turned, mut chosen) = (0, 0);
    for number in 0..9_000 {
        let class = [Class::Boundary, Class::Typed, Class::Mixture][number % 3];
        let sample = generator.sample(class);
        let (_, seen) = observe(&sample.table, &sample.values, sample.budget.min(2_000));
        let Ok(table) = table::read(&sample.table) else {
            continue;
        };
        let mut latest = vec![None; table.nodes.len()];
        for (node, value) in seen.formed {
            assert!(rises(&value), "{value:?}");
            turned += usize::from(!rose(&value));
            let operation = &table.nodes[node];
            if operation.kind == Kind::Choice {
                let operand = latest[operation.fields[0] as usize].as_ref();
                chosen += usize::from(least(operand.expect("the operand is formed"), &value));
            }
            latest[node] = Some(value);
        }
    }
    assert!(turned > 600, "{turned} values");
    assert!(chosen > 25, "{chosen} choices");
}

/// The value is the least member of the set; whether it was not before N6.
fn least(whole: &Value, value: &Value) -> bool {
    let (Value::Set(members), Value::Set(before)) = (whole, former::arranged(whole)) else {
        panic!("{whole:?} is no set");
    };
    assert!(members.contains(value));
    assert!(members.iter().all(|m| m == value || precedes(value, m)));
    before[0] != former::arranged(value)
}

/// The value at the front of the cells, whatever the order of its members.
fn loose(cells: &[u8]) -> Option<(Value, &[u8])> {
    let (cell, rest) = cells.split_at_checked(8)?;
    let payload = u32::from_le_bytes([cell[0], cell[1], cell[2], cell[3]]);
    match (&cell[4..], payload) {
        ([1, 0, 0, 0], _) => Some((Value::Integer(payload as i32), rest)),
        ([2, 0, 0, 0], 0 | 1) => Some((Value::Truth(payload == 1), rest)),
        ([3, 0, 0, 0], _) => Some((Value::Element(payload / 256, payload % 256), rest)),
        ([4, 0, 0, 0], 0) => {
            let (first, rest) = loose(rest)?;
            let (second, rest) = loose(rest)?;
            Some((pair(first, second), rest))
        }
        ([5, 0, 0, 0], count) => {
            let (mut members, mut rest) = (Vec::new(), rest);
            for _ in 0..count {
                let (member, behind) = loose(rest)?;
                members.push(member);
                rest = behind;
            }
            Some((Value::Set(members), rest))
        }
        _ => None,
    }
}

/// The value of each free identifier, where nothing but the order of members
/// can be wrong with any of them.
fn well_formed(table: &Table, buffer: &[u8]) -> Option<Vec<(usize, Value)>> {
    let mut rest = buffer;
    let mut found = Vec::new();
    for identifier in table.free() {
        let (value, behind) = loose(rest)?;
        let sound = value.shape().is_some() && value.weight() <= MAX_VALUE_WEIGHT;
        if !sound || !elements_exist(table, &value) {
            return None;
        }
        found.push((identifier, value));
        rest = behind;
    }
    rest.is_empty().then_some(found)
}

fn elements_exist(table: &Table, value: &Value) -> bool {
    match value {
        Value::Element(g, k) => table.sizes.get(*g as usize).is_some_and(|size| k < size),
        Value::Pair(a, b) => elements_exist(table, a) && elements_exist(table, b),
        Value::Set(members) => members.iter().all(|m| elements_exist(table, m)),
        _ => true,
    }
}

#[test]
fn buffers_are_malformed_exactly_where_members_do_not_rise() {
    let mut generator = Generator::new(62, false, None);
    // By whether all members rose before N6, and whether they rise now.
    let mut counts = [[0; 2]; 2];
    let mut places = [0; 3];
    for number in 0..9_000 {
        let class = [Class::Buffers, Class::Boundary, Class::Typed][number % 3];
        let sample = generator.sample(class);
        let Ok(table) = table::read(&sample.table) else {
            continue;
        };
        let Some(values) = well_formed(&table, &sample.values) else {
            continue;
        };
        let falling = values.iter().find(|(_, value)| !rises(value));
        let answer = evaluate(&sample.table, &sample.values, sample.budget.min(2_000));
        match (falling, answer.outcome) {
            (Some((identifier, _)), outcome) => {
                let refusal = Refusal::new(14, *identifier);
                assert_eq!((outcome, answer.steps), (Outcome::Refused(refusal), 0));
                places[(*identifier).min(2)] += 1;
            }
            (None, Outcome::Refused(refusal)) => assert_ne!(refusal.number, 14),
            (None, Outcome::Truth(_)) => {}
        }
        let before = values.iter().all(|(_, value)| rose(value));
        counts[usize::from(before)][usize::from(falling.is_none())] += 1;
    }
    let [[neither, now], [before, both]] = counts;
    assert!(before > 150 && now > 250, "{counts:?}");
    assert!(neither > 100 && both > 1_000, "{counts:?}");
    assert!(places.iter().all(|&count| count > 100), "{places:?}");
}
