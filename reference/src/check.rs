//! Check: refusals 10 to 13 and the sheet.

use crate::kinds::Category;
use crate::rules::{rule, Pattern};
use crate::table::{self, Table};
use crate::types::{Type, MAX_TYPE_WEIGHT, ROW_BYTES};
use crate::unifier::{Head, Unifier, Var};
use crate::Refusal;

/// Checks a table and writes the sheet; a refusal leaves the sheet untouched.
pub fn check(bytes: &[u8], sheet: &mut [u8]) -> Result<(), Refusal> {
    let table = table::read(bytes)?;
    if sheet.len() != sheet_length(&table) {
        return Err(Refusal::new(10, 0));
    }
    let types = typing(&table)?;
    sheet.fill(0);
    for (row, found) in sheet.chunks_exact_mut(ROW_BYTES).zip(&types) {
        let code = found.as_ref().map_or(Vec::new(), Type::code);
        row[..code.len()].copy_from_slice(&code);
    }
    Ok(())
}

pub fn sheet_length(table: &Table) -> usize {
    ROW_BYTES * table.places()
}

/// The only typing: the type of each place, None at predicates; or 11 to 13.
pub fn typing(table: &Table) -> Result<Vec<Option<Type>>, Refusal> {
    let mut solver = Solver::new(table);
    for node in 0..table.nodes.len() {
        // A cycle belongs to the node that closes it, so the occurs check
        // runs after each node.
        if !solver.add_rule(table, node) || solver.unifier.parts_first().is_none() {
            return Err(Refusal::new(11, node));
        }
    }
    solver.rows(table)
}

struct Solver {
    unifier: Unifier,
    /// One vertex for each place, identifiers first.
    places: Vec<Var>,
}

impl Solver {
    fn new(table: &Table) -> Solver {
        let mut unifier = Unifier::default();
        let places = (0..table.places())
            .map(|_| unifier.fresh(Head::Unknown))
            .collect();
        Solver { unifier, places }
    }

    /// Adds the equations of one node; false where they clash.
    fn add_rule(&mut self, table: &Table, node: usize) -> bool {
        let record = &table.nodes[node];
        let rule = rule(record.kind);
        let t = self.unifier.fresh(Head::Unknown);
        let u = self.unifier.fresh(Head::Unknown);
        let first_node = table.identifiers();
        let mut equations: Vec<(usize, Pattern)> = Vec::new();
        for (operand, pattern) in record.operands().zip(rule.operands) {
            equations.push((first_node + operand, *pattern));
        }
        if let Some(pattern) = rule.identifier {
            equations.push((record.fields[0] as usize, pattern));
        }
        if let Some(pattern) = rule.result {
            equations.push((first_node + node, pattern));
        }
        equations.into_iter().all(|(place, pattern)| {
            let wanted = self.instance(pattern, t, u, record.fields[0]);
            self.unifier.unify(self.places[place], wanted)
        })
    }

    fn instance(&mut self, pattern: Pattern, t: Var, u: Var, field_a: u32) -> Var {
        let head = match pattern {
            Pattern::T => return t,
            Pattern::U => return u,
            Pattern::Integer => Head::Integer,
            Pattern::Bool => Head::Bool,
            Pattern::GivenOfA => Head::Given(field_a as u8),
            Pattern::Pow(member) => Head::Pow(self.instance(*member, t, u, field_a)),
            Pattern::Product(first, second) => Head::Product(
                self.instance(*first, t, u, field_a),
                self.instance(*second, t, u, field_a),
            ),
        };
        self.unifier.fresh(head)
    }

    /// Refusals 12 and 13, then the types.
    fn rows(&self, table: &Table) -> Result<Vec<Option<Type>>, Refusal> {
        let summaries = self.unifier.summaries().expect("no cycle is left");
        let typed: Vec<bool> = (0..table.places()).map(|p| has_type(table, p)).collect();
        let summary = |place: &usize| {
            summaries[self.unifier.find(self.places[*place])].expect("every class has a summary")
        };
        let places = || (0..table.places()).filter(|&place| typed[place]);
        if let Some(place) = places().find(|place| !summary(place).known) {
            return Err(Refusal::new(12, place));
        }
        if let Some(place) = places().find(|place| summary(place).weight > MAX_TYPE_WEIGHT) {
            return Err(Refusal::new(13, place));
        }
        let row = |place: usize| typed[place].then(|| self.unifier.type_of(self.places[place]));
        Ok((0..table.places()).map(row).collect())
    }
}

/// Identifiers and expressions have a type, predicates have none.
fn has_type(table: &Table, place: usize) -> bool {
    match place.checked_sub(table.identifiers()) {
        None => true,
        Some(node) => table.category(node) == Category::Expression,
    }
}
