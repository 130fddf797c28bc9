//! Document 01's notation of nodes and of values.

use crate::table::Table;
use falgrumi::{word, CELL_BYTES};

/// How a kind is written: the text around what its fields hold.
#[derive(Clone, Copy)]
enum Form {
    Leaf,
    /// The child in a.
    One(&'static str, &'static str),
    /// The children in a and b.
    Two(&'static str, &'static str, &'static str),
    /// The identifier in a with its range in b, and the body in c.
    Binder(&'static str, &'static str, &'static str),
    Unknown,
}

fn form(kind: u32) -> Form {
    match kind {
        1 => Form::Two("", " ∧ ", ""),
        2 => Form::Two("", " ∨ ", ""),
        3 => Form::Two("", " ⇒ ", ""),
        4 => Form::One("¬", ""),
        5 => Form::Two("", " ⇔ ", ""),
        6 => Form::Two("", " = ", ""),
        7 => Form::Two("", " ∈ ", ""),
        8 => Form::Two("", " ⊆ ", ""),
        9 => Form::Two("", " ≤ ", ""),
        10 => Form::Binder("∀ ", " · ", ""),
        11 => Form::Binder("∃ ", " · ", ""),
        20..=24 | 26 | 42 => Form::Leaf,
        25 => Form::One("bool(", ")"),
        27 => Form::One("{", "}"),
        28 => Form::Two("(", ", ", ")"),
        29 => Form::Two("", " ∪ ", ""),
        30 => Form::Two("", " ∩ ", ""),
        31 => Form::Two("", " ∖ ", ""),
        32 => Form::Two("", " × ", ""),
        33 => Form::One("POW(", ")"),
        34 => Form::Binder("{", " | ", "}"),
        35 => Form::One("dom(", ")"),
        36 => Form::One("ran(", ")"),
        37 => Form::Two("", "(", ")"),
        38 => Form::One("card(", ")"),
        39 => Form::Two("", " + ", ""),
        40 => Form::Two("", " − ", ""),
        41 => Form::Two("", "..", ""),
        43 => Form::One("choice(", ")"),
        _ => Form::Unknown,
    }
}

/// Whether a node of the form stands in parentheses beside an operator.
fn is_loose(form: Form) -> bool {
    matches!(form, Form::Two("", _, "") | Form::Binder(_, _, ""))
}

fn leaf(kind: u32, a: u32, b: u32) -> String {
    match (kind, a) {
        (20, _) => format!("x{a}"),
        (21, _) => format!("G{a}"),
        (22, _) => format!("G{a}.{b}"),
        (23, _) => format!("{}", a as i32),
        (24, 0) => "FALSE".to_string(),
        (24, 1) => "TRUE".to_string(),
        (24, _) => format!("truth {a}"),
        (26, _) => "∅".to_string(),
        _ => "BOOL".to_string(),
    }
}

/// The value whose cells stand at the front, as nodes that form it are written, and the cells behind it; None where the bytes hold
/// no value.
pub fn value(cells: &[u8]) -> Option<(String, &[u8])> {
    let (cell, rest) = cells.split_at_checked(CELL_BYTES)?;
    let payload = word(cell, 0)?;
    match cell[4] {
        1 => Some((leaf(23, payload, 0), rest)),
        2 => Some((leaf(24, payload, 0), rest)),
        3 => Some((leaf(22, payload / 256, payload % 256), rest)),
        4 => values(2, rest).map(|(parts, rest)| (format!("({parts})"), rest)),
        5 if payload == 0 => Some((leaf(26, 0, 0), rest)),
        5 => values(payload, rest).map(|(members, rest)| (format!("{{{members}}}"), rest)),
        _ => None,
    }
}

/// So many values with commas between them, and the cells behind the last.
fn values(count: u32, cells: &[u8]) -> Option<(String, &[u8])> {
    let (mut texts, mut rest) = (Vec::new(), cells);
    for _ in 0..count {
        let (text, behind) = value(rest)?;
        texts.push(text);
        rest = behind;
    }
    Some((texts.join(", "), rest))
}

impl Table {
    /// The fields of a node that hold children, whatever their numbers are.
    pub fn children(&self, node: usize) -> Vec<u32> {
        let [kind, a, b, c] = self.nodes[node];
        match form(kind) {
            Form::Leaf | Form::Unknown => vec![],
            Form::One(..) => vec![a],
            Form::Two(..) => vec![a, b],
            Form::Binder(..) => vec![b, c],
        }
    }

    /// The node in document 01's notation. What lies deeper than `levels` is left out (…), so that a text is short for
    /// fields that refer to one node again and again too.
    pub fn text(&self, node: usize, levels: u32) -> String {
        let [kind, a, b, c] = self.nodes[node];
        let child = |number, edge| self.operand(node, number, levels - 1, edge);
        match form(kind) {
            Form::Leaf => leaf(kind, a, b),
            Form::One(open, close) => format!("{open}{}{close}", child(a, close)),
            Form::Two(open, between, close) => {
                format!(
                    "{open}{}{between}{}{close}",
                    child(a, open),
                    child(b, close)
                )
            }
            Form::Binder(open, between, close) => {
                let (range, body) = (child(b, between), child(c, between));
                format!("{open}x{a} ∈ {range}{between}{body}{close}")
            }
            Form::Unknown => format!("kind {kind}"),
        }
    }

    /// A child's text; in parentheses if it is loose and has no text of its parent at its outer edge.
    fn operand(&self, parent: usize, number: u32, levels: u32, edge: &str) -> String {
        let node = number as usize;
        if node >= parent {
            return format!("?{number}");
        }
        if levels == 0 {
            return "…".to_string();
        }
        let text = self.text(node, levels);
        if is_loose(form(self.nodes[node][0])) && edge.is_empty() {
            return format!("({text})");
        }
        text
    }
}

#[cfg(test)]
mod tests {
    use super::*;

    /// The text of the last of these nodes.
    fn text(nodes: &[[u32; 4]], levels: u32) -> String {
        let table = Table {
            sizes: vec![],
            marks: vec![],
            nodes: nodes.to_vec(),
        };
        table.text(nodes.len() - 1, levels)
    }

    #[test]
    fn every_kind_has_its_notation() {
        let (x, y) = ([20, 0, 0, 0], [20, 1, 0, 0]);
        let over = |kind| text(&[x, y, [kind, 0, 1, 1]], 2);
        let predicates = [1, 2, 3, 4, 5, 6, 7, 8, 9, 10, 11].map(over).join("; ");
        let sets = [27, 28, 29, 30, 31, 32, 33, 34].map(over).join("; ");
        let functions = [25, 35, 36, 37, 38, 39, 40, 41, 43].map(over).join("; ");
        let leaves = [20, 21, 22, 23, 24, 26, 42, 12, 44].map(over).join("; ");
        assert_eq!(
            predicates,
            "x0 ∧ x1; x0 ∨ x1; x0 ⇒ x1; ¬x0; x0 ⇔ x1; x0 = x1; x0 ∈ x1; x0 ⊆ x1; x0 ≤ x1; \
             ∀ x0 ∈ x1 · x1; ∃ x0 ∈ x1 · x1"
        );
        assert_eq!(
            sets,
            "{x0}; (x0, x1); x0 ∪ x1; x0 ∩ x1; x0 ∖ x1; x0 × x1; POW(x0); {x0 ∈ x1 | x1}"
        );
        assert_eq!(
            functions,
            "bool(x0); dom(x0); ran(x0); x0(x1); card(x0); x0 + x1; x0 − x1; x0..x1; choice(x0)"
        );
        assert_eq!(leaves, "x0; G0; G0.1; 0; FALSE; ∅; BOOL; kind 12; kind 44");
        assert_eq!(text(&[[23, u32::MAX, 0, 0]], 1), "-1");
    }

    #[test]
    fn parentheses_stand_beside_operators_only() {
        let (one, sum) = ([23, 1, 0, 0], [39, 0, 0, 0]);
        let over = |node| text(&[one, sum, node], 3);
        assert_eq!(over([40, 1, 1, 0]), "(1 + 1) − (1 + 1)");
        assert_eq!(over([28, 1, 1, 0]), "(1 + 1, 1 + 1)");
        assert_eq!(over([37, 1, 1, 0]), "(1 + 1)(1 + 1)");
        assert_eq!(over([4, 1, 0, 0]), "¬(1 + 1)");
        assert_eq!(over([10, 3, 1, 1]), "∀ x3 ∈ 1 + 1 · 1 + 1");
    }

    fn cells(tags_and_payloads: &[(u8, u32)]) -> Vec<u8> {
        let cell = |&(tag, p): &(u8, u32)| [&p.to_le_bytes()[..], &[tag, 0, 0, 0]].concat();
        tags_and_payloads.iter().flat_map(cell).collect()
    }

    #[test]
    fn values_are_written_as_nodes_are() {
        let text = |some: &[(u8, u32)]| value(&cells(some)).map(|(text, _)| text);
        let wanted = |t: &str| Some(t.to_string());
        assert_eq!(text(&[(1, u32::MAX)]), wanted("-1"));
        assert_eq!(text(&[(2, 0)]), wanted("FALSE"));
        assert_eq!(text(&[(3, 256 * 15 + 31)]), wanted("G15.31"));
        assert_eq!(text(&[(4, 0), (1, 2), (2, 1)]), wanted("(2, TRUE)"));
        assert_eq!(text(&[(5, 0)]), wanted("∅"));
        assert_eq!(text(&[(5, 2), (1, 2), (1, 3)]), wanted("{2, 3}"));
        let group = [(5, 2), (5, 0), (5, 1), (4, 0), (1, 7), (5, 0)];
        assert_eq!(text(&group), wanted("{∅, {(7, ∅)}}"));
    }

    #[test]
    fn bytes_that_hold_no_value_have_no_text() {
        let behind = cells(&[(1, 2), (1, 3)]);
        assert_eq!(value(&behind), Some(("2".to_string(), &behind[8..])));
        for some in [&[][..], &[(6, 0)], &[(4, 0), (1, 1)], &[(5, u32::MAX)]] {
            assert_eq!(value(&cells(some)), None);
        }
        assert_eq!(value(&behind[..7]), None);
    }

    #[test]
    fn what_is_deep_or_out_of_range_is_left_out() {
        let (one, sum) = ([23, 1, 0, 0], [39, 0, 0, 0]);
        assert_eq!(text(&[one, sum, [39, 1, 0, 0]], 2), "(… + …) + 1");
        assert_eq!(text(&[one, [39, 1, 9, 0]], 2), "?1 + ?9");
    }
}
