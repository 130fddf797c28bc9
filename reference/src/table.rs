//! Reading a table: refusals 1 to 9, in that order, each with its least place.

use crate::kinds::{self, Category, Field, Kind};
use crate::Refusal;

pub const FORM: u32 = 1;
pub const HEADER_WORDS: usize = 8;
pub const HEADER_BYTES: usize = 4 * HEADER_WORDS;
pub const MAX_GIVEN_SETS: u32 = 16;
pub const MAX_IDENTIFIERS: u32 = 32;
pub const MAX_NODES: u32 = 512;
pub const MAX_SET_SIZE: u32 = 32;
/// The limit of refusal 8.
pub const MAX_HEIGHT: u32 = 27;

#[derive(Clone, Copy, PartialEq, Eq, Debug)]
pub struct Node {
    pub kind: Kind,
    pub fields: [u32; 3],
}

/// A readable table: its bytes passed refusals 1 to 9.
#[derive(Clone, PartialEq, Eq, Debug)]
pub struct Table {
    pub sizes: Vec<u32>,
    pub bound: Vec<bool>,
    pub nodes: Vec<Node>,
}

impl Node {
    /// The node's children in field order, each with its field number.
    pub fn children(&self) -> impl Iterator<Item = (usize, usize)> + '_ {
        let held = self.kind.row().fields;
        (0..3).filter_map(move |i| match held[i] {
            Field::Child(_) => Some((i, self.fields[i] as usize)),
            _ => None,
        })
    }

    /// The children that are expressions, in field order: the operands.
    pub fn operands(&self) -> impl Iterator<Item = usize> + '_ {
        let held = self.kind.row().fields;
        self.children()
            .filter(move |(i, _)| held[*i] == Field::Child(Category::Expression))
            .map(|(_, child)| child)
    }
}

impl Table {
    pub fn identifiers(&self) -> usize {
        self.bound.len()
    }

    /// The last node; None where the table has no nodes.
    pub fn root(&self) -> Option<usize> {
        self.nodes.len().checked_sub(1)
    }

    /// Identifiers and nodes together: the number of rows of a sheet.
    pub fn places(&self) -> usize {
        self.bound.len() + self.nodes.len()
    }

    /// The free identifiers, rising.
    pub fn free(&self) -> impl Iterator<Item = usize> + '_ {
        (0..self.bound.len()).filter(|&i| !self.bound[i])
    }

    pub fn category(&self, node: usize) -> Category {
        self.nodes[node].kind.category()
    }
}

/// Reads a table from any bytes.
pub fn read(bytes: &[u8]) -> Result<Table, Refusal> {
    let counts = read_header(bytes)?;
    let sizes = read_sizes(&words(bytes, HEADER_WORDS, counts.given_sets))?;
    let flags_at = HEADER_WORDS + counts.given_sets;
    let bound = read_flags(&words(bytes, flags_at, counts.identifiers))?;
    let nodes_at = flags_at + counts.identifiers;
    let records = words(bytes, nodes_at, 4 * counts.nodes);
    let nodes = read_nodes(&records, &sizes, bound.len())?;
    let table = Table {
        sizes,
        bound,
        nodes,
    };
    let parents = read_parents(&table)?;
    check_heights(&table)?;
    check_binding(&table, &parents)?;
    Ok(table)
}

struct Counts {
    given_sets: usize,
    identifiers: usize,
    nodes: usize,
}

fn word(bytes: &[u8], index: usize) -> u32 {
    let at = 4 * index;
    u32::from_le_bytes([bytes[at], bytes[at + 1], bytes[at + 2], bytes[at + 3]])
}

fn words(bytes: &[u8], first: usize, count: usize) -> Vec<u32> {
    (first..first + count).map(|i| word(bytes, i)).collect()
}

/// Refusals 1, 2 and 3.
fn read_header(bytes: &[u8]) -> Result<Counts, Refusal> {
    if bytes.len() < HEADER_BYTES || word(bytes, 0) != FORM {
        return Err(Refusal::new(1, 0));
    }
    let (g, i, n) = (word(bytes, 1), word(bytes, 2), word(bytes, 3));
    if g > MAX_GIVEN_SETS || i > MAX_IDENTIFIERS || n > MAX_NODES {
        return Err(Refusal::new(2, 0));
    }
    let identifiers_at = 32 + 4 * g;
    let nodes_at = identifiers_at + 4 * i;
    let length = nodes_at + 16 * n;
    let expected = [32, identifiers_at, nodes_at, length];
    if words(bytes, 4, 4) != expected || length as usize != bytes.len() {
        return Err(Refusal::new(3, 0));
    }
    Ok(Counts {
        given_sets: g as usize,
        identifiers: i as usize,
        nodes: n as usize,
    })
}

/// Refusal 4.
fn read_sizes(records: &[u32]) -> Result<Vec<u32>, Refusal> {
    match records
        .iter()
        .position(|size| !(1..=MAX_SET_SIZE).contains(size))
    {
        Some(place) => Err(Refusal::new(4, place)),
        None => Ok(records.to_vec()),
    }
}

/// Refusal 5.
fn read_flags(records: &[u32]) -> Result<Vec<bool>, Refusal> {
    match records.iter().position(|&flag| flag > 1) {
        Some(place) => Err(Refusal::new(5, place)),
        None => Ok(records.iter().map(|&flag| flag == 1).collect()),
    }
}

/// Refusal 6. The nodes read so far are the possible children of the next.
fn read_nodes(records: &[u32], sizes: &[u32], identifiers: usize) -> Result<Vec<Node>, Refusal> {
    let mut nodes: Vec<Node> = Vec::new();
    for record in records.chunks_exact(4) {
        let refusal = Refusal::new(6, nodes.len());
        let row = kinds::row(record[0]).ok_or(refusal)?;
        let fields = [record[1], record[2], record[3]];
        let sound =
            (0..3).all(|i| field_is_sound(row.fields[i], i, &fields, sizes, identifiers, &nodes));
        if !sound {
            return Err(refusal);
        }
        nodes.push(Node {
            kind: row.kind,
            fields,
        });
    }
    Ok(nodes)
}

fn field_is_sound(
    held: Field,
    index: usize,
    fields: &[u32; 3],
    sizes: &[u32],
    identifiers: usize,
    lower: &[Node],
) -> bool {
    let word = fields[index];
    let number = word as usize;
    match held {
        Field::Unused => word == 0,
        Field::Identifier => number < identifiers,
        Field::GivenSet => number < sizes.len(),
        // Field a is the given set; it may itself be out of range.
        Field::Element => sizes
            .get(fields[0] as usize)
            .is_some_and(|&size| word < size),
        Field::Integer => true,
        Field::Truth => word <= 1,
        Field::Child(category) => lower
            .get(number)
            .is_some_and(|child| child.kind.category() == category),
    }
}

/// The field of another node that a node stands in.
#[derive(Clone, Copy)]
struct Parent {
    node: usize,
    field: usize,
}

/// Refusal 7; the parent of every node but the last.
fn read_parents(table: &Table) -> Result<Vec<Parent>, Refusal> {
    let mut found: Vec<Vec<Parent>> = vec![Vec::new(); table.nodes.len()];
    for (node, record) in table.nodes.iter().enumerate() {
        for (field, child) in record.children() {
            found[child].push(Parent { node, field });
        }
    }
    let Some(root) = table.root() else {
        return Ok(Vec::new());
    };
    if let Some(place) = (0..root).find(|&node| found[node].len() != 1) {
        return Err(Refusal::new(7, place));
    }
    if table.category(root) == Category::Expression {
        return Err(Refusal::new(7, root));
    }
    Ok(found[..root].iter().map(|parents| parents[0]).collect())
}

/// Refusal 8. Children have lower numbers, so their heights are known.
fn check_heights(table: &Table) -> Result<(), Refusal> {
    let mut heights: Vec<u32> = Vec::new();
    for (place, node) in table.nodes.iter().enumerate() {
        let tallest = node.children().map(|(_, child)| heights[child]).max();
        let height = 1 + tallest.unwrap_or(0);
        if height > MAX_HEIGHT {
            return Err(Refusal::new(8, place));
        }
        heights.push(height);
    }
    Ok(())
}

/// Refusal 9.
fn check_binding(table: &Table, parents: &[Parent]) -> Result<(), Refusal> {
    match (0..table.identifiers()).find(|&x| !binding_is_sound(table, parents, x)) {
        Some(place) => Err(Refusal::new(9, place)),
        None => Ok(()),
    }
}

fn binding_is_sound(table: &Table, parents: &[Parent], identifier: usize) -> bool {
    let named = |node: &usize| table.nodes[*node].fields[0] as usize == identifier;
    let nodes = 0..table.nodes.len();
    let binders: Vec<usize> = nodes
        .clone()
        .filter(|&node| table.nodes[node].kind.is_binder())
        .filter(named)
        .collect();
    if !table.bound[identifier] {
        return binders.is_empty();
    }
    let [binder] = binders[..] else {
        return false;
    };
    nodes
        .filter(|&node| table.nodes[node].kind == Kind::Identifier)
        .filter(named)
        .all(|node| stands_in_body(table, parents, node, binder))
}

/// Whether a walk from the node upward enters the binder by its body field.
fn stands_in_body(table: &Table, parents: &[Parent], node: usize, binder: usize) -> bool {
    const BODY: usize = 2;
    let mut at = node;
    while Some(at) != table.root() {
        let parent = parents[at];
        if parent.node == binder {
            return parent.field == BODY;
        }
        at = parent.node;
    }
    false
}
