//! Check against a search of all typings with small types. The rules are
//! written out again here, at types, so that the search shares nothing with
//! the unifier.

use reference::check;
use reference::generate::{Class, Generator};
use reference::kinds::{Category, Kind};
use reference::table::{self, Table};
use reference::types::{pow, product, Type};
use reference::unifier::{Head, Unifier};

const HEAVIEST: usize = 4;
/// Turns of one search before it is given up.
const TURNS: usize = 8_000;

/// All types over the leaves up to a weight.
fn types(sets: usize) -> Vec<Type> {
    let mut leaves = vec![Type::Integer, Type::Bool];
    leaves.extend((0..sets).map(|g| Type::Given(g as u8)));
    let mut by_weight = vec![Vec::new(), leaves];
    for weight in 2..=HEAVIEST {
        let mut found: Vec<Type> = by_weight[weight - 1].iter().cloned().map(pow).collect();
        for first in 1..weight - 1 {
            for t in &by_weight[first] {
                let second: &Vec<Type> = &by_weight[weight - 1 - first];
                found.extend(second.iter().map(|u| product(t.clone(), u.clone())));
            }
        }
        by_weight.push(found);
    }
    by_weight.concat()
}

fn member(t: &Type) -> Option<&Type> {
    match t {
        Type::Pow(t) => Some(t),
        _ => None,
    }
}

fn parts(t: &Type) -> Option<(&Type, &Type)> {
    match member(t)? {
        Type::Product(t, u) => Some((t, u)),
        _ => None,
    }
}

/// What a node's rule says at given types of its operands and identifier.
fn obeys(kind: Kind, a: u32, name: Option<&Type>, operands: &[&Type], own: Option<&Type>) -> bool {
    use Kind::*;
    let integer = Type::Integer;
    let gives = |t: Type| own == Some(&t);
    let given = Type::Given(a as u8);
    match (kind, operands) {
        (And | Or | Implies | Not | Equivalent, _) => true,
        (Equal, [t, u]) => t == u,
        (Member, [t, s]) => member(s) == Some(t),
        (Subset, [s, r]) => s == r && member(s).is_some(),
        (AtMost, [t, u]) => **t == integer && **u == integer,
        (ForAll | Exists, [s]) => member(s) == name,
        (Comprehension, [s]) => member(s) == name && own == Some(s),
        (Identifier, []) => own == name,
        (GivenSet, []) => gives(pow(given)),
        (Element, []) => gives(given),
        (Integer, []) => gives(integer),
        (Truth | Bool, []) => gives(Type::Bool),
        (Empty, []) => own.and_then(member).is_some(),
        (Singleton, [t]) => gives(pow((*t).clone())),
        (Pair, [t, u]) => gives(product((*t).clone(), (*u).clone())),
        (Union | Intersection | Difference, [s, r]) => {
            s == r && member(s).is_some() && own == Some(s)
        }
        (Product, [s, r]) => match (member(s), member(r)) {
            (Some(t), Some(u)) => gives(pow(product(t.clone(), u.clone()))),
            _ => false,
        },
        (Power, [s]) => member(s).is_some() && gives(pow((*s).clone())),
        (Domain, [f]) => parts(f).is_some_and(|(t, _)| gives(pow(t.clone()))),
        (Range, [f]) => parts(f).is_some_and(|(_, u)| gives(pow(u.clone()))),
        (Application, [f, e]) => parts(f).is_some_and(|(t, u)| t == *e && own == Some(u)),
        (Card, [s]) => member(s).is_some() && gives(integer),
        (Sum | Minus, [t, u]) => **t == integer && **u == integer && gives(integer),
        (Interval, [t, u]) => **t == integer && **u == integer && gives(pow(integer)),
        (BoolSet, []) => gives(pow(Type::Bool)),
        (Choice, [s]) => own.is_some() && member(s) == own,
        _ => unreachable!("the operands are those of the kind"),
    }
}

struct Search<'a> {
    table: &'a Table,
    universe: &'a [Type],
    /// Only the rules of the nodes below this count.
    nodes: usize,
    places: Vec<Option<Type>>,
    found: Vec<Vec<Option<Type>>>,
    /// Work left before the search is given up.
    turns: usize,
}

impl Search<'_> {
    fn identifiers(&mut self, x: usize) {
        if x == self.table.identifiers() {
            return self.nodes_from(0);
        }
        for t in self.universe {
            if self.turns == 0 {
                return;
            }
            self.places[x] = Some(t.clone());
            self.identifiers(x + 1);
        }
    }

    fn nodes_from(&mut self, node: usize) {
        if self.turns == 0 {
            return;
        }
        self.turns -= 1;
        if node == self.nodes {
            self.found.push(self.places.clone());
            return;
        }
        let place = self.table.identifiers() + node;
        if self.table.category(node) == Category::Predicate {
            if self.node_obeys(node) {
                self.nodes_from(node + 1);
            }
            return;
        }
        for t in self.universe {
            self.places[place] = Some(t.clone());
            if self.turns > 0 && self.node_obeys(node) {
                self.nodes_from(node + 1);
            }
        }
        self.places[place] = None;
    }

    fn node_obeys(&self, node: usize) -> bool {
        let record = &self.table.nodes[node];
        let first = self.table.identifiers();
        let at = |place: usize| self.places[place].as_ref();
        let named = record.kind.is_binder() || record.kind == Kind::Identifier;
        let name = named.then(|| at(record.fields[0] as usize)).flatten();
        let operands: Vec<&Type> = record
            .operands()
            .map(|operand| at(first + operand).expect("operands have types"))
            .collect();
        obeys(
            record.kind,
            record.fields[0],
            name,
            &operands,
            at(first + node),
        )
    }
}

/// The typings of the nodes below `nodes`; None where there are too many.
fn typings(table: &Table, universe: &[Type], nodes: usize) -> Option<Vec<Vec<Option<Type>>>> {
    let mut search = Search {
        table,
        universe,
        nodes,
        places: vec![None; table.places()],
        found: Vec::new(),
        turns: TURNS,
    };
    search.identifiers(0);
    (search.turns > 0).then_some(search.found)
}

fn differs(found: &[Vec<Option<Type>>], place: usize) -> bool {
    found.iter().any(|typing| typing[place] != found[0][place])
}

#[derive(Default, Debug)]
struct Tally {
    accepted: usize,
    clashes: usize,
    ambiguous: usize,
}

/// Compares Check with the search; types above the search's weight can only
/// hide typings, so claims of existence are tested where one is found.
fn compare(table: &Table, tally: &mut Tally) {
    let universe = types(table.sizes.len());
    let Some(all) = typings(table, &universe, table.nodes.len()) else {
        return;
    };
    match check::typing(table) {
        Ok(rows) => {
            assert!(all.len() <= 1);
            let light =
                |row: &Option<Type>| row.as_ref().is_none_or(|t| t.weight() <= HEAVIEST as u64);
            if rows.iter().all(light) {
                assert_eq!(all, vec![rows]);
                tally.accepted += 1;
            }
        }
        Err(refusal) if refusal.number == 11 => {
            let k = refusal.place as usize;
            let Some(with) = typings(table, &universe, k + 1) else {
                return;
            };
            assert!(with.is_empty());
            if typings(table, &universe, k).is_some_and(|below| !below.is_empty()) {
                tally.clashes += 1;
            }
        }
        Err(refusal) => {
            assert_eq!(refusal.number, 12);
            let place = refusal.place as usize;
            assert!((0..place).all(|p| all.is_empty() || !differs(&all, p)));
            if all.len() > 1 {
                assert!(differs(&all, place));
                tally.ambiguous += 1;
            }
        }
    }
}

#[test]
fn check_agrees_with_a_search_of_typings() {
    let mut tally = Tally::default();
    let mut generator = Generator::new(41, true, None);
    let classes = [
        Class::Typed,
        Class::Mutated,
        Class::Mixture,
        Class::Ambiguous,
        Class::Cyclic,
    ];
    for i in 0..2_000 {
        let sample = generator.sample(classes[i % classes.len()]);
        let Ok(table) = table::read(&sample.table) else {
            continue;
        };
        if table.nodes.len() <= 9 && table.identifiers() <= 2 && table.sizes.len() <= 1 {
            compare(&table, &mut tally);
        }
    }
    assert!(tally.accepted > 100, "{tally:?}");
    assert!(tally.clashes > 100, "{tally:?}");
    assert!(tally.ambiguous > 100, "{tally:?}");
}

#[test]
fn the_unifier_is_exact_beyond_every_counter() {
    let chain = |unifier: &mut Unifier, end: Head, length: usize| {
        let mut at = unifier.fresh(end);
        let first = at;
        for _ in 0..length {
            at = unifier.fresh(Head::Product(at, at));
        }
        (first, at)
    };
    let mut unifier = Unifier::default();
    let (_, a) = chain(&mut unifier, Head::Integer, 5_000);
    let (open, b) = chain(&mut unifier, Head::Unknown, 5_000);
    let summary =
        |unifier: &Unifier, var| unifier.summaries().expect("no cycle")[unifier.find(var)];
    assert!(summary(&unifier, a).is_some_and(|s| s.known && s.weight == u64::MAX));
    assert!(summary(&unifier, b).is_some_and(|s| !s.known));
    assert!(unifier.unify(a, b));
    assert_eq!(unifier.head(open), Head::Integer);
    let (_, c) = chain(&mut unifier, Head::Bool, 5_000);
    assert!(!unifier.unify(a, c));
    let mut cyclic = Unifier::default();
    let (first, last) = chain(&mut cyclic, Head::Unknown, 5_000);
    assert!(cyclic.parts_first().is_some());
    assert!(cyclic.unify(first, last));
    assert!(cyclic.parts_first().is_none());
}
