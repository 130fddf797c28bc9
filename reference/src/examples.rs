//! The conditions that document 01 tries: P1 to P12 and the lines after them,
//! and those of document 02.

use crate::build::Draft;
use crate::kinds::Kind;
use crate::values::Value;

/// A condition with the answers that document 01 gives for it, as texts of
/// the batch output. None where the document says nothing.
pub struct Example {
    pub name: &'static str,
    pub draft: Draft,
    pub values: Vec<u8>,
    pub budget: u32,
    pub checked: Option<&'static str>,
    pub evaluated: Option<&'static str>,
}

fn example(name: &'static str, write: impl FnOnce(&mut Draft)) -> Example {
    let mut draft = Draft::default();
    write(&mut draft);
    Example {
        name,
        draft,
        values: Vec::new(),
        budget: 100,
        checked: None,
        evaluated: None,
    }
}

impl Example {
    fn checks(self, answer: &'static str) -> Example {
        Example {
            checked: Some(answer),
            ..self
        }
    }

    fn evaluates(self, answer: &'static str) -> Example {
        Example {
            evaluated: Some(answer),
            ..self
        }
    }

    fn with_value(mut self, value: Value) -> Example {
        value.write_cells(&mut self.values);
        self
    }
}

pub fn all() -> Vec<Example> {
    let mut found = vec![p1(), p2(), p3(), p4(), p5()];
    found.extend([p6_p7("P6", 5).evaluates("true 7")]);
    found.extend([p6_p7("P7", 6).evaluates("refused 18 3 6")]);
    found.extend([p8(), p9(), p10("P10", 100).evaluates("true 4")]);
    found.extend([p10("P11", 3).evaluates("refused 19 1 3"), p12()]);
    found.extend([singletons("weight 64", 1), singletons("weight 65", 2)]);
    found.extend([negations("25 negations", 25), negations("26 negations", 26)]);
    found.extend([
        no_clauses("no clauses", &[]),
        no_clauses("no clauses, free", &[0]),
    ]);
    found.extend([
        no_clauses("no clauses, bound", &[1]),
        no_clauses("no clauses, both", &[0, 1]),
    ]);
    found
}

fn p1() -> Example {
    let example = example("P1", |d| {
        d.sizes.push(2);
        let x = d.identifier(0);
        let e = d.using(x);
        let s = d.one(Kind::GivenSet, 0);
        d.two(Kind::Member, e, s);
    });
    example
        .with_value(Value::Element(0, 1))
        .checks("accepted 10 10 0310 p")
        .evaluates("true 3")
}

fn p2() -> Example {
    let example = example("P2", |d| {
        let e = d.leaf(Kind::Empty);
        let f = d.leaf(Kind::Empty);
        d.two(Kind::Equal, e, f);
    });
    example.checks("refused 12 0")
}

fn p3() -> Example {
    let example = example("P3", |d| {
        let x = d.identifier(0);
        let e = d.using(x);
        let f = d.using(x);
        let s = d.one(Kind::Singleton, f);
        d.two(Kind::Equal, e, s);
    });
    // Document 01 gives Check's answer only; the value serves Evaluate.
    example.with_value(Value::Integer(1)).checks("refused 11 3")
}

fn one_is_true(d: &mut Draft) -> u32 {
    let e = d.integer(1);
    let f = d.one(Kind::Truth, 1);
    d.two(Kind::Equal, e, f)
}

fn one_is_one(d: &mut Draft) -> u32 {
    let e = d.integer(1);
    let f = d.integer(1);
    d.two(Kind::Equal, e, f)
}

fn p4() -> Example {
    let example = example("P4", |d| {
        one_is_true(d);
    });
    example.checks("refused 11 2").evaluates("refused 15 2 3")
}

fn p5() -> Example {
    let example = example("P5", |d| {
        let p = one_is_one(d);
        let q = one_is_true(d);
        d.two(Kind::Or, p, q);
    });
    example.checks("refused 11 5").evaluates("true 4")
}

fn p6_p7(name: &'static str, high: i32) -> Example {
    example(name, |d| {
        let e = d.integer(1);
        let f = d.integer(high);
        let s = d.two(Kind::Interval, e, f);
        let power = d.one(Kind::Power, s);
        let card = d.one(Kind::Card, power);
        let n = d.integer(32);
        d.two(Kind::Equal, card, n);
    })
}

fn p8() -> Example {
    let example = example("P8", |d| {
        let s = d.leaf(Kind::Empty);
        let e = d.one(Kind::Choice, s);
        let f = d.integer(1);
        d.two(Kind::Equal, e, f);
    });
    example
        .checks("accepted 0301 01 01 p")
        .evaluates("refused 16 1 3")
}

fn p9() -> Example {
    let example = example("P9", |d| {
        let e = d.integer(i32::MAX);
        let f = d.integer(1);
        let sum = d.two(Kind::Sum, e, f);
        let n = d.integer(0);
        d.two(Kind::Equal, sum, n);
    });
    example.evaluates("refused 17 2 4")
}

fn p10(name: &'static str, budget: u32) -> Example {
    let example = example(name, |d| {
        let x = d.identifier(1);
        let e = d.integer(2);
        let f = d.integer(1);
        let s = d.two(Kind::Interval, e, f);
        let left = d.using(x);
        let right = d.using(x);
        let body = d.two(Kind::Equal, left, right);
        d.node(Kind::ForAll, x, s, body);
    });
    Example { budget, ..example }
}

fn p12() -> Example {
    let example = example("P12", |d| {
        let f = d.literal_pair_set(&[(1, 3), (1, 2)]);
        let e = d.integer(1);
        let value = d.two(Kind::Application, f, e);
        let n = d.integer(2);
        d.two(Kind::Equal, value, n);
    });
    example.evaluates("refused 16 10 12")
}

impl Draft {
    /// The union of singletons of pairs of integers, in the order given.
    fn literal_pair_set(&mut self, pairs: &[(i32, i32)]) -> u32 {
        let mut whole = None;
        for &(m, n) in pairs {
            let first = self.integer(m);
            let second = self.integer(n);
            let pair = self.two(Kind::Pair, first, second);
            let single = self.one(Kind::Singleton, pair);
            whole = Some(match whole {
                None => single,
                Some(rest) => self.two(Kind::Union, rest, single),
            });
        }
        whole.unwrap_or_else(|| self.leaf(Kind::Empty))
    }
}

/// card of a balanced pairing of 32 integers in that many singletons, = 1.
fn singletons(name: &'static str, depth: u32) -> Example {
    let example = example(name, |d| {
        let mut e = d.balanced(5, &|d| d.integer(1));
        for _ in 0..depth {
            e = d.one(Kind::Singleton, e);
        }
        let card = d.one(Kind::Card, e);
        let n = d.integer(1);
        d.two(Kind::Equal, card, n);
    });
    match depth {
        2 => example.checks("refused 13 64"),
        _ => example,
    }
}

/// A gate with no clauses yet, with identifiers of these flags (document 02,
/// N1); the budget is 0.
fn no_clauses(name: &'static str, flags: &[u32]) -> Example {
    let mut example = example(name, |d| d.flags.extend(flags));
    example.budget = 0;
    if flags.contains(&0) {
        example = example.with_value(Value::Integer(1));
    }
    match flags {
        [] => example.checks("accepted").evaluates("true 0"),
        [0] => example.checks("refused 12 0").evaluates("true 0"),
        [1] => example.checks("refused 9 0").evaluates("refused 9 0 0"),
        _ => example.checks("refused 9 1").evaluates("refused 9 1 0"),
    }
}

fn negations(name: &'static str, count: u32) -> Example {
    let example = example(name, |d| {
        let mut p = one_is_one(d);
        for _ in 0..count {
            p = d.one(Kind::Not, p);
        }
    });
    match count {
        26 => example.checks("refused 8 28").evaluates("refused 8 28 0"),
        _ => example.evaluates("false 28"),
    }
}
