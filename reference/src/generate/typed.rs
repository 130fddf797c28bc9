//! Type-directed writing of conditions.

use super::Condition;
use crate::build::Draft;
use crate::kinds::Kind;
use crate::random::Random;
use crate::types::{pow, product, Type};
use crate::values::{self, Value};

/// How large and how well typed a condition is.
#[derive(Clone)]
pub struct Settings {
    pub depth: u32,
    /// The number of nodes from which only leaves are written.
    pub nodes: usize,
    /// Percent of expressions that get an arbitrary type.
    pub chaos: u32,
    /// Whether the type of every free identifier is determined at the end.
    pub anchored: bool,
    pub small: bool,
    pub sizes: Vec<u32>,
}

impl Settings {
    pub fn random(rng: &mut Random, small: bool, chaos: u32, anchored: bool) -> Settings {
        let sets = rng.below(if small { 2 } else { 4 });
        let largest = if small { 3 } else { 5 };
        let sizes = (0..sets).map(|_| rng.between(1, largest) as u32).collect();
        Settings {
            depth: if small {
                rng.between(1, 3)
            } else {
                rng.between(1, 5)
            } as u32,
            nodes: if small { 9 } else { *rng.pick(&[15, 40, 90]) },
            chaos,
            anchored,
            small,
            sizes,
        }
    }
}

pub fn write(rng: &mut Random, settings: Settings) -> Condition {
    let mut draft = Draft::default();
    draft.sizes.clone_from(&settings.sizes);
    let mut writer = Writer {
        rng,
        settings,
        draft,
        types: Vec::new(),
        scope: Vec::new(),
    };
    let depth = writer.settings.depth;
    let root = writer.predicate(depth);
    if writer.settings.anchored {
        writer.anchors(root);
    }
    writer.condition()
}

/// A value of the type.
pub fn random_value(rng: &mut Random, wanted: &Type, sizes: &[u32], small: bool) -> Value {
    match wanted {
        Type::Integer => Value::Integer(random_integer(rng, small)),
        Type::Bool => Value::Truth(rng.chance(50)),
        Type::Given(g) => {
            let size = sizes.get(usize::from(*g)).copied().unwrap_or(1);
            Value::Element(u32::from(*g), rng.below(size as usize) as u32)
        }
        Type::Product(t, u) => {
            let first = random_value(rng, t, sizes, small);
            values::pair(first, random_value(rng, u, sizes, small))
        }
        Type::Pow(t) => {
            let most = if small { 3 } else { 5 };
            let count = rng.below(most);
            values::set(
                (0..count)
                    .map(|_| random_value(rng, t, sizes, small))
                    .collect(),
            )
        }
    }
}

fn random_integer(rng: &mut Random, small: bool) -> i32 {
    let ends = [
        i32::MIN,
        i32::MIN + 1,
        i32::MAX - 1,
        i32::MAX,
        -1,
        0,
        255,
        256,
    ];
    match rng.below(100) {
        0..=89 => rng.between(-2, if small { 5 } else { 9 }),
        90..=96 => *rng.pick(&ends),
        _ => rng.word() as i32,
    }
}

pub fn random_type(rng: &mut Random, sets: usize, depth: u32) -> Type {
    match rng.below(if depth == 0 { 5 } else { 10 }) {
        0..=1 => Type::Integer,
        2 => Type::Bool,
        3..=4 if sets > 0 => Type::Given(rng.below(sets) as u8),
        3..=4 => Type::Integer,
        5..=7 => pow(random_type(rng, sets, depth - 1)),
        _ => product(
            random_type(rng, sets, depth - 1),
            random_type(rng, sets, depth - 1),
        ),
    }
}

struct Writer<'a> {
    rng: &'a mut Random,
    settings: Settings,
    draft: Draft,
    /// The type that each identifier is meant to have.
    types: Vec<Type>,
    /// The bound identifiers whose body is being written.
    scope: Vec<u32>,
}

impl Writer<'_> {
    fn full(&self) -> bool {
        self.draft.nodes.len() >= self.settings.nodes
    }

    fn any_type(&mut self) -> Type {
        let depth = if self.settings.small { 1 } else { 2 };
        random_type(self.rng, self.settings.sizes.len(), depth)
    }

    fn value(&mut self, wanted: &Type) -> Value {
        random_value(self.rng, wanted, &self.settings.sizes, self.settings.small)
    }

    fn predicate(&mut self, depth: u32) -> u32 {
        use Kind::*;
        let relations = [Equal, Member, Subset, AtMost];
        if depth == 0 || self.full() {
            let kind = *self.rng.pick(&relations);
            return self.relation(kind, 0);
        }
        let kinds = [
            And, Or, Implies, Not, Equivalent, ForAll, Exists, ForAll, Exists,
        ];
        if self.rng.chance(if self.settings.small { 65 } else { 40 }) {
            let kind = *self.rng.pick(&relations);
            return self.relation(kind, depth);
        }
        match *self.rng.pick(&kinds) {
            Not => {
                let p = self.predicate(depth - 1);
                self.draft.one(Not, p)
            }
            kind if kind.is_binder() => {
                let t = self.any_type();
                self.binder(kind, &t, depth)
            }
            kind => {
                let p = self.predicate(depth - 1);
                let q = self.predicate(depth - 1);
                self.draft.two(kind, p, q)
            }
        }
    }

    fn relation(&mut self, kind: Kind, depth: u32) -> u32 {
        let t = self.any_type();
        let (left, right) = match kind {
            Kind::Equal => (t.clone(), t),
            Kind::Member => (t.clone(), pow(t)),
            Kind::Subset => (pow(t.clone()), pow(t)),
            _ => (Type::Integer, Type::Integer),
        };
        let depth = depth.saturating_sub(1);
        let e = self.expression(&left, depth);
        let f = self.expression(&right, depth);
        self.draft.two(kind, e, f)
    }

    /// A binder over members of type t. The identifier is made after the
    /// range, so that free and bound numbers mix.
    fn binder(&mut self, kind: Kind, t: &Type, depth: u32) -> u32 {
        if self.draft.flags.len() >= 31 {
            return match kind {
                Kind::Comprehension => self.leaf(&pow(t.clone())),
                _ => self.relation(Kind::Equal, 0),
            };
        }
        let range = match self.rng.chance(60) {
            true => self.typed_set(t),
            false => self.expression(&pow(t.clone()), depth.saturating_sub(1)),
        };
        let x = self.identifier(1, t);
        self.scope.push(x);
        let body = self.predicate(depth.saturating_sub(1));
        self.scope.pop();
        self.draft.node(kind, x, range, body)
    }

    fn identifier(&mut self, flag: u32, t: &Type) -> u32 {
        self.types.push(t.clone());
        self.draft.identifier(flag)
    }

    fn expression(&mut self, wanted: &Type, depth: u32) -> u32 {
        let other = self.any_type();
        let wanted = match self.rng.chance(self.settings.chaos) {
            true => &other,
            false => wanted,
        };
        if depth == 0 || self.full() {
            return self.leaf(wanted);
        }
        let kinds = kinds_of(wanted);
        let kind = *self.rng.pick(&kinds);
        self.node_of(kind, wanted, depth - 1)
    }

    /// A node of the kind, whose type is `wanted`.
    fn node_of(&mut self, kind: Kind, wanted: &Type, depth: u32) -> u32 {
        match (kind, wanted) {
            (Kind::Application, _) => self.application(wanted, depth),
            (Kind::Choice, _) => self.choice(wanted, depth),
            (Kind::Card, _) => {
                let t = pow(self.any_type());
                self.of_one(kind, &t, depth)
            }
            (Kind::Sum | Kind::Minus | Kind::Interval, _) => {
                self.of_two(kind, &Type::Integer, &Type::Integer, depth)
            }
            (Kind::Bool, _) => {
                let p = self.predicate(depth);
                self.draft.one(kind, p)
            }
            (Kind::Pair, Type::Product(t, u)) => self.of_two(kind, t, u, depth),
            (_, Type::Pow(t)) => self.set_of(kind, wanted, t, depth),
            _ => self.leaf(wanted),
        }
    }

    fn set_of(&mut self, kind: Kind, wanted: &Type, member: &Type, depth: u32) -> u32 {
        match (kind, member) {
            (Kind::Singleton, _) => self.of_one(kind, member, depth),
            (Kind::Union | Kind::Intersection | Kind::Difference, _) => {
                self.of_two(kind, wanted, wanted, depth)
            }
            (Kind::Comprehension, _) => self.binder(kind, member, depth + 1),
            (Kind::Domain, _) => {
                let u = self.any_type();
                self.of_one(kind, &pow(product(member.clone(), u)), depth)
            }
            (Kind::Range, _) => {
                let t = self.any_type();
                self.of_one(kind, &pow(product(t, member.clone())), depth)
            }
            (Kind::Product, Type::Product(t, u)) => {
                self.of_two(kind, &pow((**t).clone()), &pow((**u).clone()), depth)
            }
            (Kind::Power, inner) => self.of_one(kind, inner, depth),
            _ => self.leaf(wanted),
        }
    }

    fn of_one(&mut self, kind: Kind, operand: &Type, depth: u32) -> u32 {
        let e = self.expression(operand, depth);
        self.draft.one(kind, e)
    }

    fn of_two(&mut self, kind: Kind, first: &Type, second: &Type, depth: u32) -> u32 {
        let e = self.expression(first, depth);
        let f = self.expression(second, depth);
        self.draft.two(kind, e, f)
    }

    /// f(e); mostly with a pair for e in f, so that the run goes on.
    fn application(&mut self, wanted: &Type, depth: u32) -> u32 {
        let t = random_type(self.rng, self.settings.sizes.len(), 1);
        let relation = pow(product(t.clone(), wanted.clone()));
        if self.rng.chance(25) {
            return self.of_two(Kind::Application, &relation, &t, depth);
        }
        let argument = self.value(&t);
        let first = self.draft.literal(&argument);
        let second = self.expression(wanted, depth);
        let pair = self.draft.two(Kind::Pair, first, second);
        let mut f = self.draft.one(Kind::Singleton, pair);
        if self.rng.chance(50) {
            let g = self.expression(&relation, depth);
            f = self.draft.two(Kind::Union, g, f);
        }
        let e = self.draft.literal(&argument);
        self.draft.two(Kind::Application, f, e)
    }

    /// The least member; mostly of a set that is not empty.
    fn choice(&mut self, wanted: &Type, depth: u32) -> u32 {
        let mut s = self.expression(&pow(wanted.clone()), depth);
        if self.rng.chance(70) {
            let single = self.of_one(Kind::Singleton, wanted, depth);
            s = self.draft.two(Kind::Union, s, single);
        }
        self.draft.one(Kind::Choice, s)
    }

    fn leaf(&mut self, wanted: &Type) -> u32 {
        if self.rng.chance(55) {
            if let Some(x) = self.some_identifier(wanted) {
                return self.draft.using(x);
            }
        }
        match wanted {
            Type::Pow(t) => match (self.rng.below(4), &**t) {
                (0, _) => self.draft.leaf(Kind::Empty),
                (1, Type::Bool) => self.draft.leaf(Kind::BoolSet),
                (1, Type::Given(g)) => self.draft.one(Kind::GivenSet, u32::from(*g)),
                _ => {
                    let e = self.leaf(t);
                    self.draft.one(Kind::Singleton, e)
                }
            },
            Type::Product(t, u) => {
                let e = self.leaf(t);
                let f = self.leaf(u);
                self.draft.two(Kind::Pair, e, f)
            }
            _ => {
                let value = self.value(wanted);
                self.draft.literal(&value)
            }
        }
    }

    /// An identifier of the type that may stand here, perhaps a new free one.
    fn some_identifier(&mut self, wanted: &Type) -> Option<u32> {
        let careless = self.rng.chance(self.settings.chaos);
        let usable: Vec<u32> = (0..self.draft.flags.len() as u32)
            .filter(|x| self.draft.flags[*x as usize] == 0 || self.scope.contains(x))
            .filter(|x| careless || self.types[*x as usize] == *wanted)
            .collect();
        let most = if self.settings.small { 2 } else { 8 };
        let free = self.draft.flags.iter().filter(|&&flag| flag == 0).count();
        if !usable.is_empty() && self.rng.chance(75) {
            return Some(*self.rng.pick(&usable));
        }
        (free < most && self.draft.flags.len() < 32).then(|| self.identifier(0, wanted))
    }

    /// A set with members of type t, whose type no context is needed for.
    fn typed_set(&mut self, t: &Type) -> u32 {
        match t {
            Type::Integer => {
                let low = self.rng.between(-2, 3);
                let high = low
                    + self
                        .rng
                        .between(-1, if self.settings.small { 2 } else { 6 });
                let e = self.draft.integer(low);
                let f = self.draft.integer(high);
                self.draft.two(Kind::Interval, e, f)
            }
            Type::Bool => self.draft.leaf(Kind::BoolSet),
            Type::Given(g) => self.draft.one(Kind::GivenSet, u32::from(*g)),
            Type::Pow(t) => {
                let s = self.typed_set(t);
                let kinds = [Kind::Singleton, Kind::Singleton, Kind::Power];
                self.draft.one(*self.rng.pick(&kinds), s)
            }
            Type::Product(t, u) => {
                let s = self.typed_set(t);
                let r = self.typed_set(u);
                self.draft.two(Kind::Product, s, r)
            }
        }
    }

    /// Determines the type of each free identifier by a further clause, set
    /// behind the condition so that it does not decide too early.
    fn anchors(&mut self, mut root: u32) {
        for x in 0..self.draft.flags.len() as u32 {
            // Some get their type from the condition itself.
            if self.draft.flags[x as usize] == 1 || self.rng.chance(40) {
                continue;
            }
            let t = self.types[x as usize].clone();
            let e = self.draft.using(x);
            let s = self.typed_set(&t);
            let clause = self.draft.two(Kind::Member, e, s);
            let kinds = [Kind::And, Kind::Or, Kind::Implies, Kind::Equivalent];
            let kind = *self.rng.pick(&kinds);
            root = self.draft.two(kind, root, clause);
        }
    }

    fn condition(mut self) -> Condition {
        let mut found = Vec::new();
        for x in 0..self.draft.flags.len() {
            let other = self.any_type();
            let t = match self.rng.chance(self.settings.chaos / 2) {
                true => other,
                false => self.types[x].clone(),
            };
            let value = self.value(&t);
            found.push((self.draft.flags[x] == 0).then_some(value));
        }
        Condition {
            draft: self.draft,
            values: found,
        }
    }
}

/// The kinds that can give the type, leaves as `Identifier`.
fn kinds_of(wanted: &Type) -> Vec<Kind> {
    use Kind::*;
    let mut kinds = vec![Identifier, Application, Choice];
    match wanted {
        Type::Integer => kinds.extend([Card, Card, Sum, Minus]),
        Type::Bool => kinds.extend([Bool, Bool]),
        Type::Given(_) => {}
        Type::Product(..) => kinds.extend([Pair, Pair, Pair]),
        Type::Pow(t) => {
            kinds.extend([Singleton, Union, Intersection, Difference, Comprehension]);
            kinds.extend([Domain, Range]);
            match **t {
                Type::Integer => kinds.extend([Interval, Interval]),
                Type::Product(..) => kinds.extend([Product, Product]),
                Type::Pow(_) => kinds.extend([Power, Power]),
                _ => {}
            }
        }
    }
    kinds
}
