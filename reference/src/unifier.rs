//! Unification of types on a graph: union-find with shared subterms, so the
//! work does not grow with the weight of a type.

use crate::types::{self, Type};

/// A vertex of the graph.
pub type Var = usize;

/// The head of a type; its parts are vertices.
#[derive(Clone, Copy, PartialEq, Eq, Debug)]
pub enum Head {
    Unknown,
    Integer,
    Bool,
    Given(u8),
    Pow(Var),
    Product(Var, Var),
}

/// What is known of a vertex's type.
#[derive(Clone, Copy, PartialEq, Eq, Debug)]
pub struct Summary {
    /// No unknown stands in it.
    pub known: bool,
    /// Its weight; `u64::MAX` stands for that weight and any above.
    pub weight: u64,
}

#[derive(Clone, Copy, PartialEq, Eq)]
enum Mark {
    New,
    Open,
    Done,
}

#[derive(Default)]
pub struct Unifier {
    parent: Vec<Var>,
    /// Read at representatives only, as is `size`.
    head: Vec<Head>,
    size: Vec<usize>,
}

impl Unifier {
    pub fn fresh(&mut self, head: Head) -> Var {
        self.parent.push(self.parent.len());
        self.head.push(head);
        self.size.push(1);
        self.parent.len() - 1
    }

    /// The representative of the vertex's class.
    pub fn find(&self, mut var: Var) -> Var {
        while self.parent[var] != var {
            var = self.parent[var];
        }
        var
    }

    pub fn head(&self, var: Var) -> Head {
        self.head[self.find(var)]
    }

    /// Makes both vertices one class; false on a clash of heads. Each turn
    /// that adds work joins two classes, so it ends on cyclic graphs too.
    pub fn unify(&mut self, a: Var, b: Var) -> bool {
        let mut pending = vec![(a, b)];
        while let Some((a, b)) = pending.pop() {
            let (a, b) = (self.find(a), self.find(b));
            if a == b {
                continue;
            }
            let (x, y) = (self.head[a], self.head[b]);
            match (x, y) {
                (Head::Unknown, _) | (_, Head::Unknown) => {}
                (Head::Pow(t), Head::Pow(v)) => pending.push((t, v)),
                (Head::Product(t, u), Head::Product(v, w)) => pending.extend([(t, v), (u, w)]),
                _ if x == y => {}
                _ => return false,
            }
            self.join(a, b, if x == Head::Unknown { y } else { x });
        }
        true
    }

    /// Joins two representatives, the smaller class under the larger, so that
    /// no path to a representative is long.
    fn join(&mut self, a: Var, b: Var, head: Head) {
        let (low, high) = if self.size[a] < self.size[b] {
            (a, b)
        } else {
            (b, a)
        };
        self.parent[low] = high;
        self.size[high] += self.size[low];
        self.head[high] = head;
    }

    fn parts(&self, class: Var) -> Vec<Var> {
        match self.head[class] {
            Head::Pow(t) => vec![self.find(t)],
            Head::Product(t, u) => vec![self.find(t), self.find(u)],
            _ => Vec::new(),
        }
    }

    /// The classes, parts before wholes; None where a class holds itself.
    /// This is the occurs check, over classes and not over paths.
    pub fn parts_first(&self) -> Option<Vec<Var>> {
        let mut marks = vec![Mark::New; self.parent.len()];
        let mut order = Vec::new();
        for var in 0..self.parent.len() {
            let mut stack = vec![self.find(var)];
            while let Some(&class) = stack.last() {
                let parts = self.parts(class);
                match marks[class] {
                    Mark::New => {
                        marks[class] = Mark::Open;
                        if parts.iter().any(|&part| marks[part] == Mark::Open) {
                            return None;
                        }
                        stack.extend(parts.iter().filter(|&&part| marks[part] == Mark::New));
                    }
                    Mark::Open => {
                        marks[class] = Mark::Done;
                        order.push(class);
                        stack.pop();
                    }
                    Mark::Done => {
                        stack.pop();
                    }
                }
            }
        }
        Some(order)
    }

    /// A summary for each class representative; None on a cycle.
    pub fn summaries(&self) -> Option<Vec<Option<Summary>>> {
        let mut found: Vec<Option<Summary>> = vec![None; self.parent.len()];
        for class in self.parts_first()? {
            let mut whole = Summary {
                known: self.head[class] != Head::Unknown,
                weight: 1,
            };
            for part in self.parts(class) {
                let part = found[part].expect("parts come first");
                whole.known &= part.known;
                whole.weight = whole.weight.saturating_add(part.weight);
            }
            found[class] = Some(whole);
        }
        Some(found)
    }

    /// The type of a vertex whose summary is known and not heavy.
    pub fn type_of(&self, var: Var) -> Type {
        match self.head(var) {
            Head::Unknown => unreachable!("the type is known"),
            Head::Integer => Type::Integer,
            Head::Bool => Type::Bool,
            Head::Given(g) => Type::Given(g),
            Head::Pow(t) => types::pow(self.type_of(t)),
            Head::Product(t, u) => types::product(self.type_of(t), self.type_of(u)),
        }
    }
}
