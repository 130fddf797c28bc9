//! A table as a person reads it. Any bytes can be shown: only what is in range is drawn, and every node once.

use crate::table::{wanted_header, Table};
use falgrumi::{word, Refusal, Sheet, Subject};

/// How deep the text of a node goes.
const LEVELS: u32 = 6;

/// The refusal with its place named, and the text of the node there.
pub fn refusal(bytes: &[u8], refusal: &Refusal) -> String {
    let Some(table) = Table::read(bytes) else {
        return format!("{refusal}\n");
    };
    let number = refusal.number;
    let place = Place::of(&table, refusal);
    let owner = match place {
        Place::None => String::new(),
        Place::GivenSet(g) => format!(" at given set G{g}"),
        Place::Identifier(x) if x == table.marks.len() => " behind the last value".to_string(),
        Place::Identifier(x) => format!(" at identifier x{x}"),
        Place::Node(n) => match table.nodes.get(n) {
            Some(_) => format!(" at node {n}, {}", table.text(n, LEVELS)),
            None => format!(" at node {n}"),
        },
    };
    format!(
        "refused {number}{owner}: {}\n",
        reason(&table, refusal, place)
    )
}

/// What the refusal says, of 16 only what concerns the node's kind.
fn reason(table: &Table, refusal: &Refusal, place: Place) -> &'static str {
    let node = match place {
        Place::Node(n) => table.nodes.get(n),
        _ => None,
    };
    match (refusal.number, node.map(|node| node[0])) {
        (16, Some(37)) => {
            "the relation is no function (two of its pairs share a first part), or the argument is \
             outside its domain"
        }
        (16, Some(43)) => "the set is empty",
        _ => refusal.sentence(),
    }
}

/// What a refusal's place names in a table.
#[derive(Clone, Copy, PartialEq, Eq)]
enum Place {
    None,
    GivenSet(usize),
    Identifier(usize),
    Node(usize),
}

impl Place {
    fn of(table: &Table, refusal: &Refusal) -> Place {
        let place = refusal.place as usize;
        match refusal.subject() {
            Subject::Whole => Place::None,
            Subject::GivenSet => Place::GivenSet(place),
            Subject::Identifier | Subject::Value => Place::Identifier(place),
            Subject::Node => Place::Node(place),
            Subject::Row => match place.checked_sub(table.marks.len()) {
                None => Place::Identifier(place),
                Some(node) => Place::Node(node),
            },
        }
    }
}

/// The whole table with Check's answer: types where it is accepted, else the refused place marked.
pub fn table(bytes: &[u8], checked: &Result<Sheet, Refusal>) -> String {
    let Some(table) = Table::read(bytes) else {
        return header(bytes);
    };
    let mut drawing = Drawing {
        table: &table,
        types: checked.as_ref().ok(),
        refused: checked.as_ref().err(),
        drawn: vec![false; table.nodes.len()],
        out: String::new(),
    };
    drawing.given_sets();
    drawing.identifiers();
    drawing.trees();
    drawing.out
}

struct Drawing<'a> {
    table: &'a Table,
    types: Option<&'a Sheet>,
    refused: Option<&'a Refusal>,
    drawn: Vec<bool>,
    out: String,
}

impl Drawing<'_> {
    fn given_sets(&mut self) {
        for (g, &size) in self.table.sizes.iter().enumerate() {
            let elements = match size {
                0 => "no elements".to_string(),
                1 => format!("1 element, G{g}.0"),
                _ => format!("{size} elements, G{g}.0 to G{g}.{}", size - 1),
            };
            let mark = self.mark(Place::GivenSet(g));
            self.out += &format!("given set G{g}: {elements}{mark}\n");
        }
    }

    fn identifiers(&mut self) {
        for (x, &mark) in self.table.marks.iter().enumerate() {
            let bound = match mark {
                0 => "free".to_string(),
                1 => "bound".to_string(),
                _ => format!("marked {mark}"),
            };
            let found = self.types.and_then(|sheet| sheet.identifier(x));
            let type_ = found.map_or(String::new(), |t| format!(" : {t}"));
            let mark = self.mark(Place::Identifier(x));
            self.out += &format!("identifier x{x}, {bound}{type_}{mark}\n");
        }
    }

    /// The tree of the last node, then those of nodes that are in no tree above; a readable table has none.
    fn trees(&mut self) {
        if self.table.nodes.is_empty() {
            self.out += "the gate has no clauses yet\n";
        }
        for node in (0..self.table.nodes.len()).rev() {
            if !self.drawn[node] {
                self.tree(node, "", "");
            }
        }
    }

    /// Children have lower numbers than their parent, so the recursion ends.
    fn tree(&mut self, node: usize, lead: &str, branch: &str) {
        let again = std::mem::replace(&mut self.drawn[node], true);
        let line = self.line(node);
        let above = if again { "  (drawn above)" } else { "" };
        self.out += &format!("{branch}{node}  {line}{above}\n");
        if again {
            return;
        }
        let children = self.table.children(node);
        for (k, &number) in children.iter().enumerate() {
            let last = k + 1 == children.len();
            let (stem, under) = if last {
                ("└─ ", "   ")
            } else {
                ("├─ ", "│  ")
            };
            let (branch, lead) = (format!("{lead}{stem}"), format!("{lead}{under}"));
            match number as usize {
                child if child < node => self.tree(child, &lead, &branch),
                _ => self.out += &format!("{branch}{number}?  not a node below {node}\n"),
            }
        }
    }

    fn line(&self, node: usize) -> String {
        let found = self.types.and_then(|sheet| sheet.node(node));
        let type_ = found.map_or(String::new(), |t| format!(" : {t}"));
        let mark = self.mark(Place::Node(node));
        format!("{}{type_}{mark}", self.table.text(node, LEVELS))
    }

    /// The mark behind the refused place; a node that cannot be read shows its record.
    fn mark(&self, place: Place) -> String {
        match (self.refused, place) {
            (Some(r), _) if Place::of(self.table, r) != place => String::new(),
            (Some(Refusal { number: 6, .. }), Place::Node(n)) => {
                let [kind, a, b, c] = self.table.nodes[n];
                format!("  ◄ refused 6: kind {kind}, fields {a}, {b}, {c}")
            }
            (Some(r), _) => format!("  ◄ refused {}", r.number),
            (None, _) => String::new(),
        }
    }
}

/// What each word of a header is.
const WORDS: [&str; 8] = [
    "form",
    "given sets",
    "identifiers",
    "nodes",
    "offset of the given sets",
    "offset of the identifiers",
    "offset of the nodes",
    "length",
];

/// The words of a header that is not sound, as far as they are there, with what they must be.
fn header(bytes: &[u8]) -> String {
    let wanted = wanted_header(bytes);
    let must = |k: usize| wanted.map_or(String::new(), |w| format!(" (must be {})", w[k]));
    let mut out = format!(
        "the table has {} bytes{}; its header:\n",
        bytes.len(),
        must(7)
    );
    for (k, name) in WORDS.iter().enumerate() {
        let found = word(bytes, k).map_or("missing".to_string(), |w| w.to_string());
        let limits = match k {
            0 => " (must be 1)".to_string(),
            1 => " (must be 0 to 16)".to_string(),
            2 => " (must be 0 to 32)".to_string(),
            3 => " (must be 0 to 512)".to_string(),
            _ => must(k),
        };
        out += &format!("{name}: {found}{limits}\n");
    }
    out
}

#[cfg(test)]
mod tests {
    use super::*;

    fn show(bytes: &[u8]) -> String {
        table(bytes, &falgrumi::check(bytes))
    }

    fn bytes(sizes: &[u32], marks: &[u32], nodes: &[[u32; 4]]) -> Vec<u8> {
        let identifiers_at = 32 + 4 * sizes.len();
        let nodes_at = identifiers_at + 4 * marks.len();
        let length = nodes_at + 16 * nodes.len();
        let counts = [1, sizes.len(), marks.len(), nodes.len()];
        let header = [32, identifiers_at, nodes_at, length];
        let words = counts.into_iter().chain(header).map(|w| w as u32);
        let records = [sizes, marks, nodes.as_flattened()].concat();
        words.chain(records).flat_map(u32::to_le_bytes).collect()
    }

    #[test]
    fn the_refused_place_is_marked() {
        let (x, empty) = ([20, 0, 0, 0], [26, 0, 0, 0]);
        let ambiguous = bytes(&[], &[0], &[x, empty, [7, 0, 1, 0]]);
        assert!(show(&ambiguous).starts_with("identifier x0, free  ◄ refused 12\n"));
        let unsized_ = bytes(&[2, 0], &[], &[empty, empty, [6, 0, 1, 0]]);
        assert!(show(&unsized_).contains("given set G1: no elements  ◄ refused 4\n"));
        let unmarked = bytes(&[], &[2], &[empty, empty, [6, 0, 1, 0]]);
        assert!(show(&unmarked).contains("identifier x0, marked 2  ◄ refused 5\n"));
        let unknown = bytes(&[], &[], &[empty, [12, 1, 2, 3], [6, 0, 1, 0]]);
        assert!(show(&unknown).contains("1  kind 12  ◄ refused 6: kind 12, fields 1, 2, 3\n"));
    }

    #[test]
    fn every_node_is_drawn_once() {
        let (empty, equal) = ([26, 0, 0, 0], [6, 0, 0, 0]);
        let drawn = show(&bytes(&[], &[], &[empty, empty, equal, [6, 1, 7, 0]]));
        assert_eq!(
            drawn,
            "3  ∅ = ?7  ◄ refused 6: kind 6, fields 1, 7, 0\n\
             ├─ 1  ∅\n\
             └─ 7?  not a node below 3\n\
             2  ∅ = ∅\n\
             ├─ 0  ∅\n\
             └─ 0  ∅  (drawn above)\n"
        );
        // Both fields of each node name the one before: a tree of 2^511 leaves, were it drawn whole.
        let doubled: Vec<[u32; 4]> = (0..512u32)
            .map(|n| [1, n.wrapping_sub(1), n.wrapping_sub(1), 0])
            .collect();
        assert_eq!(
            show(&bytes(&[], &[], &doubled)).lines().count(),
            512 + 511 + 2
        );
    }

    #[test]
    fn a_gate_with_no_clauses_says_so() {
        assert_eq!(show(&bytes(&[], &[], &[])), "the gate has no clauses yet\n");
        let marked = "identifier x0, bound  ◄ refused 9\nthe gate has no clauses yet\n";
        assert_eq!(show(&bytes(&[], &[1], &[])), marked);
    }

    #[test]
    fn a_bad_header_is_told() {
        assert!(show(&[])
            .starts_with("the table has 0 bytes; its header:\nform: missing (must be 1)\n"));
        let mut long = bytes(&[], &[], &[[26, 0, 0, 0]]);
        long.push(0);
        assert!(show(&long).starts_with("the table has 49 bytes (must be 48); its header:\n"));
    }

    /// A number below the limit, from a small generator.
    fn random(state: &mut u64, limit: u64) -> u32 {
        *state = state
            .wrapping_mul(6364136223846793005)
            .wrapping_add(1442695040888963407);
        ((*state >> 33) % limit) as u32
    }

    #[test]
    fn any_bytes_can_be_shown() {
        let mut state = 1;
        for _ in 0..2000 {
            let mut some = |most: u64, limit: u64| -> Vec<u32> {
                let count = random(&mut state, most + 1);
                (0..count).map(|_| random(&mut state, limit)).collect()
            };
            let (sizes, marks, words) = (some(3, 4), some(3, 3), some(60, 45));
            let nodes: Vec<[u32; 4]> = words
                .chunks_exact(4)
                .map(|w| [w[0], w[1], w[2], w[3]])
                .collect();
            let whole = bytes(&sizes, &marks, &nodes);
            let cut = random(&mut state, whole.len() as u64) as usize;
            for shown in [&whole[..], &whole[..cut]] {
                let checked = falgrumi::check(shown);
                let lines = table(shown, &checked).lines().count();
                assert!(lines <= sizes.len() + marks.len() + 4 * nodes.len() + 9);
                let told = checked.err().map(|r| refusal(shown, &r));
                assert!(told.is_none_or(|text| text.starts_with("refused ")));
            }
        }
    }
}
