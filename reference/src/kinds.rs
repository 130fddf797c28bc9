//! The set of kinds, and what each of a node's three fields holds.

/// Every kind of node, by its code.
#[derive(Clone, Copy, PartialEq, Eq, Debug)]
pub enum Kind {
    And = 1,
    Or = 2,
    Implies = 3,
    Not = 4,
    Equivalent = 5,
    Equal = 6,
    Member = 7,
    Subset = 8,
    AtMost = 9,
    ForAll = 10,
    Exists = 11,
    Identifier = 20,
    GivenSet = 21,
    Element = 22,
    Integer = 23,
    Truth = 24,
    Bool = 25,
    Empty = 26,
    Singleton = 27,
    Pair = 28,
    Union = 29,
    Intersection = 30,
    Difference = 31,
    Product = 32,
    Power = 33,
    Comprehension = 34,
    Domain = 35,
    Range = 36,
    Application = 37,
    Card = 38,
    Sum = 39,
    Minus = 40,
    Interval = 41,
    BoolSet = 42,
    Choice = 43,
}

#[derive(Clone, Copy, PartialEq, Eq, Debug)]
pub enum Category {
    Predicate,
    Expression,
}

/// What a field of a node record holds.
#[derive(Clone, Copy, PartialEq, Eq, Debug)]
pub enum Field {
    Unused,
    Identifier,
    GivenSet,
    /// An element of the given set in field a.
    Element,
    Integer,
    Truth,
    Child(Category),
}

pub struct Row {
    pub kind: Kind,
    pub category: Category,
    pub fields: [Field; 3],
}

const P: Field = Field::Child(Category::Predicate);
const E: Field = Field::Child(Category::Expression);
const ID: Field = Field::Identifier;
const NO: Field = Field::Unused;

const fn predicate(kind: Kind, a: Field, b: Field, c: Field) -> Row {
    Row {
        kind,
        category: Category::Predicate,
        fields: [a, b, c],
    }
}

const fn expression(kind: Kind, a: Field, b: Field, c: Field) -> Row {
    Row {
        kind,
        category: Category::Expression,
        fields: [a, b, c],
    }
}

/// The constant table of fields by kind; the only list of the kinds there are.
pub const KINDS: [Row; 35] = [
    predicate(Kind::And, P, P, NO),
    predicate(Kind::Or, P, P, NO),
    predicate(Kind::Implies, P, P, NO),
    predicate(Kind::Not, P, NO, NO),
    predicate(Kind::Equivalent, P, P, NO),
    predicate(Kind::Equal, E, E, NO),
    predicate(Kind::Member, E, E, NO),
    predicate(Kind::Subset, E, E, NO),
    predicate(Kind::AtMost, E, E, NO),
    predicate(Kind::ForAll, ID, E, P),
    predicate(Kind::Exists, ID, E, P),
    expression(Kind::Identifier, ID, NO, NO),
    expression(Kind::GivenSet, Field::GivenSet, NO, NO),
    expression(Kind::Element, Field::GivenSet, Field::Element, NO),
    expression(Kind::Integer, Field::Integer, NO, NO),
    expression(Kind::Truth, Field::Truth, NO, NO),
    expression(Kind::Bool, P, NO, NO),
    expression(Kind::Empty, NO, NO, NO),
    expression(Kind::Singleton, E, NO, NO),
    expression(Kind::Pair, E, E, NO),
    expression(Kind::Union, E, E, NO),
    expression(Kind::Intersection, E, E, NO),
    expression(Kind::Difference, E, E, NO),
    expression(Kind::Product, E, E, NO),
    expression(Kind::Power, E, NO, NO),
    expression(Kind::Comprehension, ID, E, P),
    expression(Kind::Domain, E, NO, NO),
    expression(Kind::Range, E, NO, NO),
    expression(Kind::Application, E, E, NO),
    expression(Kind::Card, E, NO, NO),
    expression(Kind::Sum, E, E, NO),
    expression(Kind::Minus, E, E, NO),
    expression(Kind::Interval, E, E, NO),
    expression(Kind::BoolSet, NO, NO, NO),
    expression(Kind::Choice, E, NO, NO),
];

/// The row of a kind code, if the code is known.
pub fn row(code: u32) -> Option<&'static Row> {
    KINDS.iter().find(|row| row.kind as u32 == code)
}

impl Kind {
    pub fn row(self) -> &'static Row {
        row(self as u32).expect("every kind has a row")
    }

    pub fn category(self) -> Category {
        self.row().category
    }

    /// A binder names an identifier and has a body.
    pub fn is_binder(self) -> bool {
        matches!(self, Kind::ForAll | Kind::Exists | Kind::Comprehension)
    }
}
