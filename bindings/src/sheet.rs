//! A sheet's rows as types.

use crate::ROW_BYTES;
use std::fmt;

#[derive(Clone, PartialEq, Eq, Debug)]
pub enum Type {
    Integer,
    Bool,
    /// The given set with this number.
    Given(u8),
    Pow(Box<Type>),
    Product(Box<Type>, Box<Type>),
}

impl Type {
    /// The type at the front of the bytes, in prefix order, and the bytes behind it.
    fn read(bytes: &[u8]) -> Option<(Type, &[u8])> {
        let (code, rest) = bytes.split_first()?;
        match code {
            1 => Some((Type::Integer, rest)),
            2 => Some((Type::Bool, rest)),
            3 => {
                let (member, rest) = Type::read(rest)?;
                Some((Type::Pow(Box::new(member)), rest))
            }
            4 => {
                let (first, rest) = Type::read(rest)?;
                let (second, rest) = Type::read(rest)?;
                Some((Type::Product(Box::new(first), Box::new(second)), rest))
            }
            16..=31 => Some((Type::Given(code - 16), rest)),
            _ => None,
        }
    }
}

impl fmt::Display for Type {
    fn fmt(&self, out: &mut fmt::Formatter) -> fmt::Result {
        match self {
            Type::Integer => write!(out, "INTEGER"),
            Type::Bool => write!(out, "BOOL"),
            Type::Given(g) => write!(out, "G{g}"),
            // A product brings its own parentheses.
            Type::Pow(t) if matches!(**t, Type::Product(..)) => write!(out, "POW{t}"),
            Type::Pow(t) => write!(out, "POW({t})"),
            Type::Product(t, u) => write!(out, "({t} × {u})"),
        }
    }
}

/// The rows that Check wrote for an accepted table.
#[derive(Clone, PartialEq, Eq, Debug)]
pub struct Sheet {
    rows: Vec<u8>,
    identifiers: usize,
}

impl Sheet {
    pub(crate) fn new(rows: Vec<u8>, identifiers: usize) -> Sheet {
        Sheet { rows, identifiers }
    }

    /// The sheet as Check wrote it.
    pub fn bytes(&self) -> &[u8] {
        &self.rows
    }

    pub fn identifiers(&self) -> usize {
        self.identifiers
    }

    pub fn nodes(&self) -> usize {
        self.rows.len() / ROW_BYTES - self.identifiers
    }

    /// The type in a row, identifiers first and then nodes; None for a predicate, and where there is no such row.
    pub fn row(&self, place: usize) -> Option<Type> {
        let row = self.rows.chunks_exact(ROW_BYTES).nth(place)?;
        Type::read(row).map(|(found, _)| found)
    }

    /// An identifier's type.
    pub fn identifier(&self, number: usize) -> Option<Type> {
        (number < self.identifiers).then(|| self.row(number))?
    }

    /// A node's type; None for a predicate.
    pub fn node(&self, number: usize) -> Option<Type> {
        self.row(self.identifiers.checked_add(number)?)
    }
}

#[cfg(test)]
mod tests {
    use super::*;

    fn text(codes: &[u8]) -> Option<String> {
        let mut row = vec![0; ROW_BYTES];
        row[..codes.len()].copy_from_slice(codes);
        Sheet::new(row, 0).row(0).map(|found| found.to_string())
    }

    #[test]
    fn rows_read_as_types() {
        let wanted = |t: &str| Some(t.to_string());
        assert_eq!(text(&[1]), wanted("INTEGER"));
        assert_eq!(text(&[3, 3, 2]), wanted("POW(POW(BOOL))"));
        assert_eq!(text(&[3, 4, 16, 31]), wanted("POW(G0 × G15)"));
        assert_eq!(
            text(&[4, 4, 1, 2, 3, 1]),
            wanted("((INTEGER × BOOL) × POW(INTEGER))")
        );
        assert_eq!(
            text(&[4, 1, 4, 2, 1]),
            wanted("(INTEGER × (BOOL × INTEGER))")
        );
    }

    #[test]
    fn a_row_that_is_no_type_reads_as_none() {
        for codes in [&[][..], &[3], &[4, 1], &[5], &[32], &[3; 64]] {
            assert_eq!(text(codes), None);
        }
    }
}
