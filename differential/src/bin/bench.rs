//! bench: the time of Check, Evaluate and merges against the reference on the same cases in one run, as a ratio (above 1: the
//! library is faster).

use std::time::Instant;

use differential::{case, sheet_length, Case};
use falgrumi::MAX_VALUE_BYTES;
use reference::build::Draft;
use reference::evaluate::Outcome;
use reference::generate::{Class, Generator};
use reference::kinds::Kind;
use reference::values::{pair, set, Value};

/// Accepted tables of 10 to 40 nodes.
fn small() -> Vec<Vec<u8>> {
    let mut generator = Generator::new(5, false, Some(Class::Typed));
    let mut tables = Vec::new();
    while tables.len() < 200 {
        let table = generator.sample(Class::Typed).table;
        let nodes = u32::from_le_bytes([table[12], table[13], table[14], table[15]]);
        if (10..=40).contains(&nodes) {
            tables.push(table);
        }
    }
    tables
}

/// 512 nodes: equalities of unions of an identifier and a singleton, balanced under conjunctions; `last` ends them.
fn full(last: impl Fn(&mut Draft) -> u32) -> Vec<Vec<u8>> {
    let mut draft = Draft::default();
    let names: Vec<u32> = (0..16).map(|_| draft.identifier(0)).collect();
    let mut tests = Vec::new();
    for i in 0..63usize {
        let x = draft.using(names[i % 16]);
        let n = draft.integer(i as i32);
        let single = draft.one(Kind::Singleton, n);
        let sum = draft.two(Kind::Union, x, single);
        let y = draft.using(names[(i + 1) % 16]);
        let test = draft.two(Kind::Equal, sum, y);
        let not = draft.one(Kind::Not, test);
        tests.push(not);
    }
    tests.push(last(&mut draft));
    draft.joined(Kind::And, &tests);
    vec![draft.bytes()]
}

fn equal(draft: &mut Draft) -> u32 {
    let a = draft.integer(1);
    let b = draft.integer(2);
    draft.two(Kind::Equal, a, b)
}

fn clash(draft: &mut Draft) -> u32 {
    let a = draft.integer(1);
    let b = draft.one(Kind::Truth, 1);
    draft.two(Kind::Equal, a, b)
}

/// Singletons nested 21 deep on both sides of equalities: as high as a table may be.
fn deep() -> Vec<Vec<u8>> {
    let mut draft = Draft::default();
    let x = draft.identifier(0);
    let mut tests = Vec::new();
    for _ in 0..11 {
        let mut sides = [draft.using(x), draft.integer(1)];
        for side in &mut sides {
            for _ in 0..21 {
                *side = draft.one(Kind::Singleton, *side);
            }
        }
        tests.push(draft.two(Kind::Equal, sides[0], sides[1]));
    }
    draft.joined(Kind::And, &tests);
    vec![draft.bytes()]
}

/// Each identifier is the pair of the one before: the last type weighs above 2^31.
fn heavy() -> Vec<Vec<u8>> {
    let mut draft = Draft::default();
    let names: Vec<u32> = (0..32).map(|_| draft.identifier(0)).collect();
    let first = draft.using(names[0]);
    let one = draft.integer(1);
    let mut tests = vec![draft.two(Kind::Equal, first, one)];
    for pair in names.windows(2) {
        let next = draft.using(pair[1]);
        let a = draft.using(pair[0]);
        let b = draft.using(pair[0]);
        let both = draft.two(Kind::Pair, a, b);
        tests.push(draft.two(Kind::Equal, next, both));
    }
    draft.joined(Kind::And, &tests);
    vec![draft.bytes()]
}

fn time(tables: &[Vec<u8>], rounds: usize, check: impl Fn(&[u8], &mut [u8]) -> bool) -> (f64, usize) {
    let mut sheet = vec![0u8; 64 * 544];
    let mut accepted = 0;
    let start = Instant::now();
    for _ in 0..rounds {
        for table in tables {
            let length = sheet_length(table);
            accepted += usize::from(check(table, &mut sheet[..length]));
        }
    }
    let calls = (rounds * tables.len()) as f64;
    (start.elapsed().as_secs_f64() * 1e6 / calls, accepted)
}

/// x = y, three nodes.
fn three_nodes() -> Case {
    let mut draft = Draft::default();
    let names = [draft.identifier(0), draft.identifier(0)];
    let sides = names.map(|x| draft.using(x));
    draft.two(Kind::Equal, sides[0], sides[1]);
    case(&draft, &[Value::Integer(1), Value::Integer(1)])
}

/// An interval.
fn interval(draft: &mut Draft, from: i32, to: i32) -> u32 {
    let a = draft.integer(from);
    let b = draft.integer(to);
    draft.two(Kind::Interval, a, b)
}

/// For all x, y in 1..100: x + y <= 1000.
fn integer_loops() -> Case {
    let mut draft = Draft::default();
    let (x, y) = (draft.identifier(1), draft.identifier(1));
    let outer = interval(&mut draft, 1, 100);
    let inner = interval(&mut draft, 1, 100);
    let (a, b) = (draft.using(x), draft.using(y));
    let sum = draft.two(Kind::Sum, a, b);
    let limit = draft.integer(1000);
    let test = draft.two(Kind::AtMost, sum, limit);
    let body = draft.node(Kind::ForAll, y, inner, test);
    draft.node(Kind::ForAll, x, outer, body);
    case(&draft, &[])
}

/// For all s, t in a set of sets: s <: u and t <: u.
fn nested_sets() -> Case {
    let mut draft = Draft::default();
    let (family, whole) = (draft.identifier(0), draft.identifier(0));
    let (s, t) = (draft.identifier(1), draft.identifier(1));
    let outer = draft.using(family);
    let inner = draft.using(family);
    let (a, u) = (draft.using(s), draft.using(whole));
    let first = draft.two(Kind::Subset, a, u);
    let (b, v) = (draft.using(t), draft.using(whole));
    let second = draft.two(Kind::Subset, b, v);
    let both = draft.two(Kind::And, first, second);
    let body = draft.node(Kind::ForAll, t, inner, both);
    draft.node(Kind::ForAll, s, outer, body);
    let members = |from: i32, n: i32| set((from..from + n).map(Value::Integer).collect());
    case(&draft, &[set((0..40).map(|i| members(i, 4)).collect()), members(0, 60)])
}

/// For all x in 1..200: a \/ b = c and a /\ b = d, sets of up to 200 members.
fn large_sets() -> Case {
    let mut draft = Draft::default();
    let names: Vec<u32> = (0..4).map(|_| draft.identifier(0)).collect();
    let x = draft.identifier(1);
    let range = interval(&mut draft, 1, 200);
    let mut tests = Vec::new();
    for (kind, result) in [(Kind::Union, names[2]), (Kind::Intersection, names[3])] {
        let (a, b) = (draft.using(names[0]), draft.using(names[1]));
        let both = draft.two(kind, a, b);
        let c = draft.using(result);
        tests.push(draft.two(Kind::Equal, both, c));
    }
    let body = draft.two(Kind::And, tests[0], tests[1]);
    draft.node(Kind::ForAll, x, range, body);
    let members = |from: i32, to: i32| set((from..to).map(Value::Integer).collect());
    case(&draft, &[members(0, 120), members(80, 200), members(0, 200), members(80, 120)])
}

/// For all x in 1..200: card(a \/ b) = n, where a and b have n members together. These alternate, so that both are walked to the end.
fn unions(n: i32, member: impl Fn(i32) -> Value) -> Case {
    let mut draft = Draft::default();
    let names: Vec<u32> = (0..2).map(|_| draft.identifier(0)).collect();
    let x = draft.identifier(1);
    let range = interval(&mut draft, 1, 200);
    let (a, b) = (draft.using(names[0]), draft.using(names[1]));
    let union = draft.two(Kind::Union, a, b);
    let card = draft.one(Kind::Card, union);
    let size = draft.integer(n);
    let body = draft.two(Kind::Equal, card, size);
    draft.node(Kind::ForAll, x, range, body);
    let every_second = |from: i32| set((from..n).step_by(2).map(&member).collect());
    case(&draft, &[every_second(0), every_second(1)])
}

/// Two sets of 100 integers.
fn hundreds() -> Case {
    unions(200, Value::Integer)
}

/// Two sets of 40 pairs; four at a time have the same first part.
fn forties() -> Case {
    unions(80, |i| pair(Value::Integer(i / 4), Value::Integer(i)))
}

/// For all s in a: a \/ b = c and s : c, where c has all 66 sets of two of 0..11, and a and b two thirds of them each.
fn families() -> Case {
    let mut draft = Draft::default();
    let names: Vec<u32> = (0..3).map(|_| draft.identifier(0)).collect();
    let s = draft.identifier(1);
    let range = draft.using(names[0]);
    let (a, b) = (draft.using(names[0]), draft.using(names[1]));
    let union = draft.two(Kind::Union, a, b);
    let c = draft.using(names[2]);
    let equal = draft.two(Kind::Equal, union, c);
    let (member, whole) = (draft.using(s), draft.using(names[2]));
    let test = draft.two(Kind::Member, member, whole);
    let body = draft.two(Kind::And, equal, test);
    draft.node(Kind::ForAll, s, range, body);
    // By the rest of their sums, so that the sets of a and b alternate.
    let without = |rest: i32| {
        let twos = (0..12).flat_map(|m| (m + 1..12).map(move |n| (m, n))).filter(|(m, n)| (m + n) % 3 != rest);
        set(twos.map(|(m, n)| set(vec![Value::Integer(m), Value::Integer(n)])).collect())
    };
    case(&draft, &[without(0), without(1), without(3)])
}

/// For all x in 1..200: card(POW(a)) = 16 and card(b * c) = 60.
fn powers() -> Case {
    let mut draft = Draft::default();
    let names: Vec<u32> = (0..3).map(|_| draft.identifier(0)).collect();
    let x = draft.identifier(1);
    let range = interval(&mut draft, 1, 200);
    let a = draft.using(names[0]);
    let power = draft.one(Kind::Power, a);
    let (b, c) = (draft.using(names[1]), draft.using(names[2]));
    let product = draft.two(Kind::Product, b, c);
    let mut tests = Vec::new();
    for (value, size) in [(power, 16), (product, 60)] {
        let card = draft.one(Kind::Card, value);
        let n = draft.integer(size);
        tests.push(draft.two(Kind::Equal, card, n));
    }
    let body = draft.two(Kind::And, tests[0], tests[1]);
    draft.node(Kind::ForAll, x, range, body);
    let members = |n: i32| set((0..n).map(Value::Integer).collect());
    case(&draft, &[members(4), members(6), members(10)])
}

/// For all x in 1..80: f(x) = x + x, f of 80 pairs.
fn applications() -> Case {
    let mut draft = Draft::default();
    let f = draft.identifier(0);
    let x = draft.identifier(1);
    let range = interval(&mut draft, 1, 80);
    let function = draft.using(f);
    let argument = draft.using(x);
    let image = draft.two(Kind::Application, function, argument);
    let (a, b) = (draft.using(x), draft.using(x));
    let sum = draft.two(Kind::Sum, a, b);
    let body = draft.two(Kind::Equal, image, sum);
    draft.node(Kind::ForAll, x, range, body);
    let pairs = (1..=80).map(|i| pair(Value::Integer(i), Value::Integer(2 * i)));
    case(&draft, &[set(pairs.collect())])
}

/// Nanoseconds a visit, the visits of a call, and whether the condition holds.
fn pace(case: &Case, rounds: u32, evaluate: impl Fn(&[u8], &[u8]) -> (bool, u32)) -> (f64, u32, bool) {
    let (truth, steps) = evaluate(&case.table, &case.values);
    let start = Instant::now();
    for _ in 0..rounds {
        assert_eq!(evaluate(&case.table, &case.values), (truth, steps));
    }
    let visits = f64::from(rounds) * f64::from(steps);
    (start.elapsed().as_secs_f64() * 1e9 / visits, steps, truth)
}

fn evaluation() {
    let workloads = [
        ("a call on three nodes", three_nodes(), 20_000),
        ("integer loops", integer_loops(), 10),
        ("nested quantifiers over sets", nested_sets(), 50),
        ("unions of large sets", large_sets(), 50),
        ("unions of 100 and 100", hundreds(), 50),
        ("unions of 40 and 40 pairs", forties(), 50),
        ("unions of sets of sets", families(), 50),
        ("power sets and products", powers(), 50),
        ("function of 80 pairs", applications(), 200),
    ];
    println!("{:28} {:>8} {:>12} {:>12} {:>7}", "Evaluate", "visits", "library ns", "reference ns", "ratio");
    for (name, case, rounds) in workloads {
        let (ours, steps, a) = pace(&case, rounds, |t, v| {
            let run = falgrumi::evaluate(t, v, u32::MAX);
            (run.outcome.expect("no refusal"), run.steps)
        });
        let (theirs, visits, b) = pace(&case, rounds, |t, v| {
            let run = reference::evaluate::evaluate(t, v, u32::MAX);
            (run.outcome == Outcome::Truth(true), run.steps)
        });
        assert_eq!((steps, a), (visits, b), "the answers differ on {name}");
        println!("{name:28} {steps:8} {ours:12.1} {theirs:12.1} {:7.2}", theirs / ours);
    }
}

/// Microseconds a merge, and its comparisons.
fn merge_time(case: &Case, rounds: u32, mut merge: impl FnMut(&[u8], &[u8]) -> u64) -> (f64, u64) {
    let comparisons = merge(&case.table, &case.values);
    let start = Instant::now();
    for _ in 0..rounds {
        assert_eq!(merge(&case.table, &case.values), comparisons);
    }
    (start.elapsed().as_secs_f64() * 1e6 / f64::from(rounds), comparisons)
}

fn merges() {
    let workloads = [("100 and 100", hundreds()), ("40 and 40 pairs", forties())];
    println!("{:24} {:>12} {:>12} {:>12} {:>7}", "Merge", "comparisons", "library us", "reference us", "ratio");
    for (name, case) in workloads {
        let mut cells = [0; MAX_VALUE_BYTES];
        let (ours, a) = merge_time(&case, 5_000, |t, v| match falgrumi::merge_into(t, v, &mut cells) {
            falgrumi::Merge::Merged { comparisons, .. } => comparisons,
            other => panic!("{other:?} on {name}"),
        });
        let (theirs, b) = merge_time(&case, 5_000, |t, v| match reference::merge::merge(t, v) {
            reference::merge::Merge::Merged { comparisons, .. } => comparisons.into(),
            other => panic!("{other:?} on {name}"),
        });
        assert_eq!(a, b, "the comparisons differ on {name}");
        println!("{name:24} {a:12} {ours:12.2} {theirs:12.2} {:7.2}", theirs / ours);
    }
}

fn main() {
    let workloads = [
        ("small, 10 to 40 nodes", small(), 50),
        ("full, about 512 nodes", full(equal), 200),
        ("deep types", deep(), 200),
        ("heavy types by sharing", heavy(), 200),
        ("clash at the last test", full(clash), 200),
    ];
    println!("{:24} {:>12} {:>12} {:>7}", "Check", "library us", "reference us", "ratio");
    for (name, tables, rounds) in workloads {
        let (ours, a) = time(&tables, rounds, |t, s| falgrumi::check_into(t, s).is_ok());
        let (theirs, b) = time(&tables, rounds, |t, s| reference::check::check(t, s).is_ok());
        assert_eq!(a, b, "the answers differ on {name}");
        println!("{name:24} {ours:12.2} {theirs:12.2} {:7.2}", theirs / ours);
    }
    evaluation();
    merges();
}
