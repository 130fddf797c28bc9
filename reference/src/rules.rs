//! The typing rules as data. Check reads them at types, refusal 15 at values.

use crate::kinds::Kind;

/// A type with the rule's own unknowns t and u.
#[derive(Clone, Copy, PartialEq, Eq, Debug)]
pub enum Pattern {
    T,
    U,
    Integer,
    Bool,
    /// The given set that the node's field a numbers.
    GivenOfA,
    Pow(&'static Pattern),
    Product(&'static Pattern, &'static Pattern),
}

/// What a rule asks of the operands (in field order), of the identifier that
/// the node names, and what type it gives the node.
pub struct Rule {
    pub operands: &'static [Pattern],
    pub identifier: Option<Pattern>,
    pub result: Option<Pattern>,
}

const T: Pattern = Pattern::T;
const U: Pattern = Pattern::U;
const INT: Pattern = Pattern::Integer;
const BOOL: Pattern = Pattern::Bool;
const POW_T: Pattern = Pattern::Pow(&T);
const POW_U: Pattern = Pattern::Pow(&U);
const POW_POW_T: Pattern = Pattern::Pow(&POW_T);
const POW_INT: Pattern = Pattern::Pow(&INT);
const POW_BOOL: Pattern = Pattern::Pow(&BOOL);
const GIVEN: Pattern = Pattern::GivenOfA;
const POW_GIVEN: Pattern = Pattern::Pow(&GIVEN);
const T_U: Pattern = Pattern::Product(&T, &U);
const POW_T_U: Pattern = Pattern::Pow(&T_U);

const fn predicate(operands: &'static [Pattern]) -> Rule {
    Rule {
        operands,
        identifier: None,
        result: None,
    }
}

const fn expression(operands: &'static [Pattern], result: Pattern) -> Rule {
    Rule {
        operands,
        identifier: None,
        result: Some(result),
    }
}

const fn naming(operands: &'static [Pattern], result: Option<Pattern>) -> Rule {
    Rule {
        operands,
        identifier: Some(T),
        result,
    }
}

pub fn rule(kind: Kind) -> Rule {
    match kind {
        Kind::And | Kind::Or | Kind::Implies | Kind::Not | Kind::Equivalent => predicate(&[]),
        Kind::Equal => predicate(&[T, T]),
        Kind::Member => predicate(&[T, POW_T]),
        Kind::Subset => predicate(&[POW_T, POW_T]),
        Kind::AtMost => predicate(&[INT, INT]),
        Kind::ForAll | Kind::Exists => naming(&[POW_T], None),
        Kind::Identifier => naming(&[], Some(T)),
        Kind::GivenSet => expression(&[], POW_GIVEN),
        Kind::Element => expression(&[], GIVEN),
        Kind::Integer => expression(&[], INT),
        Kind::Truth | Kind::Bool => expression(&[], BOOL),
        Kind::Empty => expression(&[], POW_T),
        Kind::Singleton => expression(&[T], POW_T),
        Kind::Pair => expression(&[T, U], T_U),
        Kind::Union | Kind::Intersection | Kind::Difference => expression(&[POW_T, POW_T], POW_T),
        Kind::Product => expression(&[POW_T, POW_U], POW_T_U),
        Kind::Power => expression(&[POW_T], POW_POW_T),
        Kind::Comprehension => naming(&[POW_T], Some(POW_T)),
        Kind::Domain => expression(&[POW_T_U], POW_T),
        Kind::Range => expression(&[POW_T_U], POW_U),
        Kind::Application => expression(&[POW_T_U, T], U),
        Kind::Card => expression(&[POW_T], INT),
        Kind::Sum | Kind::Minus => expression(&[INT, INT], INT),
        Kind::Interval => expression(&[INT, INT], POW_INT),
        Kind::BoolSet => expression(&[], POW_BOOL),
        Kind::Choice => expression(&[POW_T], T),
    }
}
