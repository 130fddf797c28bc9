//! Counts over generated cases: answers and kinds.

use crate::batch::Case;
use crate::kinds::KINDS;
use crate::table;
use std::collections::BTreeMap;

#[derive(Default)]
pub struct Stats {
    /// By operation and answer, for example ("check", "refused 11").
    pub answers: BTreeMap<(&'static str, String), u64>,
    /// Nodes by kind code, over the readable tables.
    pub kinds: BTreeMap<u32, u64>,
    /// Nodes by kind code, over the accepted tables.
    pub accepted_kinds: BTreeMap<u32, u64>,
}

impl Stats {
    pub fn add(&mut self, case: &Case) {
        let operation = match case {
            Case::Read { .. } => "read",
            Case::Check { .. } => "check",
            Case::Evaluate { .. } => "evaluate",
            Case::Merge { .. } => "merge",
        };
        let answer = case.answer();
        let words: Vec<&str> = answer.split(' ').collect();
        let label = match words[0] {
            "refused" => format!("refused {:>2}", words[1]),
            other => other.to_string(),
        };
        let accepted = label == "accepted";
        *self.answers.entry((operation, label)).or_default() += 1;
        if let Ok(table) = table::read(case.table()) {
            for node in &table.nodes {
                *self.kinds.entry(node.kind as u32).or_default() += 1;
                if accepted {
                    *self.accepted_kinds.entry(node.kind as u32).or_default() += 1;
                }
            }
        }
    }

    pub fn text(&self) -> String {
        let mut out = String::new();
        for ((operation, answer), count) in &self.answers {
            out += &format!("{operation} {answer}: {count}\n");
        }
        for row in &KINDS {
            let code = row.kind as u32;
            let all = self.kinds.get(&code).copied().unwrap_or(0);
            let accepted = self.accepted_kinds.get(&code).copied().unwrap_or(0);
            out += &format!("kind {code:>2}: {all} nodes, {accepted} in accepted checks\n");
        }
        out
    }
}
