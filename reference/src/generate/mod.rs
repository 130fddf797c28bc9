//! A seeded generator of cases, by class.

mod boundary;
mod buffers;
mod damage;
mod groups;
mod merges;
mod sized;
mod templates;
mod typed;
mod unions;

use crate::batch::Case;
use crate::build::Draft;
use crate::check;
use crate::evaluate::{evaluate, observe, Outcome};
use crate::kinds::{Kind, KINDS};
use crate::random::Random;
use crate::table;
use crate::types::Type;
use crate::values::Value;

/// The classes of cases, each reachable by its name.
#[derive(Clone, Copy, PartialEq, Eq, Debug)]
pub enum Class {
    /// Accepted by Check, with values of the written types.
    Typed,
    /// Well typed but for one node of another kind with the same fields.
    Mutated,
    /// Nodes of the right category and arbitrary types.
    Mixture,
    Ambiguous,
    Cyclic,
    /// Identifiers that no node uses.
    Unused,
    /// Tables with damaged bytes, fields or binding.
    Damaged,
    /// Values buffers with every fault.
    Buffers,
    /// Tables and values at the limits.
    Boundary,
}

impl Class {
    pub const ALL: [Class; 9] = [
        Class::Typed,
        Class::Mutated,
        Class::Mixture,
        Class::Ambiguous,
        Class::Cyclic,
        Class::Unused,
        Class::Damaged,
        Class::Buffers,
        Class::Boundary,
    ];

    pub fn name(self) -> &'static str {
        match self {
            Class::Typed => "typed",
            Class::Mutated => "mutated",
            Class::Mixture => "mixture",
            Class::Ambiguous => "ambiguous",
            Class::Cyclic => "cyclic",
            Class::Unused => "unused",
            Class::Damaged => "damaged",
            Class::Buffers => "buffers",
            Class::Boundary => "boundary",
        }
    }

    pub fn from_name(name: &str) -> Option<Class> {
        Class::ALL.into_iter().find(|class| class.name() == name)
    }
}

/// A table with what Check and Evaluate take beside it.
#[derive(Clone, Debug)]
pub struct Sample {
    pub table: Vec<u8>,
    pub sheet: u32,
    pub values: Vec<u8>,
    pub budget: u32,
}

/// A condition before its bytes: the draft and each identifier's value, None
/// for the bound ones.
#[derive(Clone, Debug)]
pub struct Condition {
    pub draft: Draft,
    pub values: Vec<Option<Value>>,
}

impl Condition {
    pub fn buffer(&self) -> Vec<u8> {
        let mut out = Vec::new();
        for value in self.values.iter().flatten() {
            value.write_cells(&mut out);
        }
        out
    }
}

pub struct Generator {
    rng: Random,
    /// The numbers of the merges alone.
    merging: Random,
    /// Only cases that a slow proof assistant can compute.
    small: bool,
    /// Only this class, if any.
    only: Option<Class>,
    made: usize,
}

/// Limits of the small mode.
const SMALL_NODES: usize = 14;
const SMALL_TABLE: usize = 32 + 4 * 8 + 16 * SMALL_NODES;
const SMALL_VALUES: usize = 12 * 8;
const SMALL_INTERVAL: i64 = 12;
const SMALL_STEPS: u32 = 200;
const LARGE_STEPS: u32 = 20_000;

impl Generator {
    pub fn new(seed: u64, small: bool, only: Option<Class>) -> Generator {
        Generator {
            rng: Random::new(seed),
            merging: Random::new(!seed),
            small,
            only,
            made: 0,
        }
    }

    /// The next case: the three operations in turn.
    pub fn case(&mut self) -> Case {
        self.made += 1;
        let sample = self.next_sample();
        match self.made % 3 {
            0 => Case::Read {
                table: sample.table,
            },
            1 => self.checking(sample),
            _ => evaluating(sample),
        }
    }

    /// The next case for a batch: Check and Evaluate in turn.
    pub fn batch_case(&mut self) -> Case {
        self.made += 1;
        let sample = self.next_sample();
        match self.made % 2 {
            0 => self.checking(sample),
            _ => evaluating(sample),
        }
    }

    fn checking(&mut self, sample: Sample) -> Case {
        let right = sample.sheet;
        let wrong = [0, right.saturating_sub(1), right + 1, right + 64, right / 2];
        let sheet = match self.rng.chance(4) {
            true => *self.rng.pick(&wrong),
            false => right,
        };
        Case::Check {
            table: sample.table,
            sheet,
        }
    }

    fn next_sample(&mut self) -> Sample {
        let class = match self.only {
            Some(class) => class,
            None => *self.rng.pick(&Class::ALL),
        };
        self.sample(class)
    }

    /// A sample of the class; in small mode one that is small.
    pub fn sample(&mut self, class: Class) -> Sample {
        loop {
            let sample = self.any_sample(class);
            if !self.small || is_small(&sample) {
                return sample;
            }
        }
    }

    fn any_sample(&mut self, class: Class) -> Sample {
        match class {
            Class::Damaged => self.damaged(),
            Class::Buffers => self.buffers(),
            Class::Boundary if self.rng.chance(8) => self.scrap(),
            _ => {
                let condition = self.condition(class);
                self.finished(&condition)
            }
        }
    }

    fn condition(&mut self, class: Class) -> Condition {
        match class {
            Class::Typed => self.well_typed(),
            Class::Mutated => self.mutated(),
            Class::Mixture => {
                let chaos = *self.rng.pick(&[5, 15, 40, 80]);
                self.written(chaos, true)
            }
            Class::Ambiguous => match self.rng.chance(50) {
                true => templates::ambiguous(&mut self.rng),
                false => self.written(0, false),
            },
            Class::Cyclic => templates::cyclic(&mut self.rng),
            Class::Unused => self.unused(),
            _ => boundary::condition(&mut self.rng, self.small),
        }
    }

    fn written(&mut self, chaos: u32, anchored: bool) -> Condition {
        let settings = typed::Settings::random(&mut self.rng, self.small, chaos, anchored);
        typed::write(&mut self.rng, settings)
    }

    /// A condition that Check accepts.
    pub fn well_typed(&mut self) -> Condition {
        loop {
            let condition = self.written(0, true);
            let table = table::read(&condition.draft.bytes());
            if table.is_ok_and(|table| check::typing(&table).is_ok()) {
                return condition;
            }
        }
    }

    fn mutated(&mut self) -> Condition {
        let mut condition = self.well_typed();
        self.mutate(&mut condition.draft);
        condition
    }

    /// Gives one node another kind of the same category and fields.
    fn mutate(&mut self, draft: &mut Draft) {
        let node = self.rng.below(draft.nodes.len());
        let record = &mut draft.nodes[node];
        let row = crate::kinds::row(record[0]).expect("a written kind is known");
        let alike: Vec<Kind> = KINDS
            .iter()
            .filter(|other| other.category == row.category && other.fields == row.fields)
            .map(|other| other.kind)
            .collect();
        record[0] = *self.rng.pick(&alike) as u32;
    }

    /// Adds identifiers without a use: free ones are ambiguous, bound ones
    /// lack a binder.
    fn unused(&mut self) -> Condition {
        let mut condition = self.well_typed();
        for _ in 0..=self.rng.below(2) {
            let flag = u32::from(self.rng.chance(30));
            condition.draft.identifier(flag);
            let value = typed::random_value(&mut self.rng, &Type::Integer, &[], self.small);
            condition.values.push((flag == 0).then_some(value));
        }
        condition
    }

    /// A condition that Check accepts, or a gate with no clauses yet.
    fn sound(&mut self) -> Condition {
        match self.rng.chance(10) {
            true => boundary::no_nodes(&mut self.rng),
            false => self.well_typed(),
        }
    }

    fn damaged(&mut self) -> Sample {
        let base = self.sound();
        let draft = damage::draft(&mut self.rng, &base.draft);
        let condition = Condition {
            draft,
            values: base.values,
        };
        let mut sample = self.finished(&condition);
        damage::bytes(&mut self.rng, &mut sample.table);
        sample.budget = self.budget(&sample.table, &sample.values);
        sample
    }

    fn buffers(&mut self) -> Sample {
        let mut condition = self.sound();
        while condition.values.iter().flatten().next().is_none() && self.rng.chance(90) {
            condition = self.sound();
        }
        let values = buffers::damaged(&mut self.rng, &condition);
        let mut sample = self.finished(&condition);
        sample.budget = self.budget(&sample.table, &values);
        sample.values = values;
        sample
    }

    /// Bytes that are hardly a table.
    fn scrap(&mut self) -> Sample {
        let length = *self.rng.pick(&[0, 1, 3, 4, 31, 32, 33, 48, 64]);
        let fill = *self.rng.pick(&[0, 1, 255]);
        let mut table = vec![fill; length];
        if self.rng.chance(60) && length >= 4 {
            table[..4].copy_from_slice(&1u32.to_le_bytes());
        }
        Sample {
            table,
            sheet: 64,
            values: Vec::new(),
            budget: 100,
        }
    }

    /// The bytes of a condition, its nodes renumbered half of the time.
    fn finished(&mut self, condition: &Condition) -> Sample {
        let draft = match self.rng.chance(50) {
            true => condition.draft.clone(),
            false => shuffled(&mut self.rng, &condition.draft),
        };
        let table = draft.bytes();
        let values = condition.buffer();
        let budget = self.budget(&table, &values);
        Sample {
            sheet: draft.sheet_length() as u32,
            table,
            values,
            budget,
        }
    }

    /// A budget around the steps of the run. The largest budget is used only
    /// where the run is known to end.
    fn budget(&mut self, table: &[u8], values: &[u8]) -> u32 {
        let most = if self.small { SMALL_STEPS } else { LARGE_STEPS };
        let evaluation = evaluate(table, values, most);
        let steps = evaluation.steps;
        let below = self.rng.below(steps as usize + 1) as u32;
        let spent = matches!(evaluation.outcome, Outcome::Refused(r) if r.number == 19);
        if spent {
            return *self.rng.pick(&[0, 1, below, most / 2, most]);
        }
        let around = [0, below, steps.saturating_sub(1), steps, steps, steps + 1];
        match self.rng.chance(70) {
            true => *self.rng.pick(&[steps, u32::MAX, u32::MAX, most]),
            false => *self.rng.pick(&around),
        }
    }
}

fn evaluating(sample: Sample) -> Case {
    Case::Evaluate {
        table: sample.table,
        values: sample.values,
        budget: sample.budget,
    }
}

fn is_small(sample: &Sample) -> bool {
    let many = table::read(&sample.table).is_ok_and(|table| table.nodes.len() > SMALL_NODES);
    if many || sample.table.len() > SMALL_TABLE || sample.values.len() > SMALL_VALUES {
        return false;
    }
    let budget = sample.budget.min(SMALL_STEPS + 1);
    let (evaluation, seen) = observe(&sample.table, &sample.values, budget);
    evaluation.steps <= SMALL_STEPS && seen.widest_interval <= SMALL_INTERVAL
}

/// The same condition with its nodes numbered in another order that keeps
/// children below their parents.
fn shuffled(rng: &mut Random, draft: &Draft) -> Draft {
    let count = draft.nodes.len();
    let mut waiting = vec![0; count];
    let mut parent = vec![None; count];
    for (node, record) in draft.nodes.iter().enumerate() {
        let fields = draft.child_fields(node as u32);
        waiting[node] = fields.len();
        for child in fields.iter().map(|&field| record[field] as usize) {
            if child < node {
                parent[child] = Some(node);
            }
        }
    }
    let mut ready: Vec<usize> = (0..count).filter(|&node| waiting[node] == 0).collect();
    let mut order = Vec::new();
    while !ready.is_empty() {
        let node = ready.swap_remove(rng.below(ready.len()));
        order.push(node as u32);
        if let Some(above) = parent[node] {
            waiting[above] -= 1;
            if waiting[above] == 0 {
                ready.push(above);
            }
        }
    }
    // A draft that is no tree keeps its numbers.
    let root_last = order.last().map(|&last| last as usize) == count.checked_sub(1);
    match order.len() == count && root_last {
        true => draft.renumbered(&order),
        false => draft.clone(),
    }
}
