//! Refusals in plain words.

use std::fmt;

/// A refusal of document 01's list.
#[derive(Clone, Copy, PartialEq, Eq, Debug)]
pub struct Refusal {
    /// 1 to 19.
    pub number: u8,
    /// The least thing that is at fault; `subject` says what is counted.
    pub place: u32,
}

/// What a refusal's place counts.
#[derive(Clone, Copy, PartialEq, Eq, Debug)]
pub enum Subject {
    /// The whole table or sheet; the place is 0.
    Whole,
    GivenSet,
    Identifier,
    /// The values of identifiers; the number of identifiers stands for bytes behind the last value.
    Value,
    Node,
    /// The sheet's rows: identifiers, then nodes.
    Row,
}

/// What each number says, 1 first.
const SENTENCES: [&str; 19] = [
    "the table is shorter than its header of 32 bytes, or its first word is not 1",
    "there are more than 16 given sets, 32 identifiers or 512 nodes",
    "an offset or the length in the header is wrong, or the length is not that of the bytes given",
    "the given set does not have 1 to 32 elements",
    "the identifier is marked neither free (0) nor bound (1)",
    "the node has an unknown kind, a field out of range, a nonzero unused field, or a child that is \
     a predicate where an expression belongs or the other way round",
    "the node is not the child of exactly one field, or it is the last and not a predicate",
    "the tree under the node is more than 27 nodes high",
    "the identifier is free and has a binder, or is bound and has not exactly one, or is used \
     outside its binder's body",
    "the sheet does not have 64 bytes for each identifier and each node",
    "the types clash: the rules of the nodes up to this one do not hold together",
    "the type is ambiguous: the rules leave several",
    "the type weighs more than 64, which is more than a row holds",
    "the identifier's value is malformed, cut short, over 256 cells, a set whose members do not \
     rise or are of mixed types, or an element that is not there, or bytes are left behind the last \
     value",
    "the operands' values have no types that the node's rule allows",
    "choice has an empty set, or the application has a relation that is no function (two of its \
     pairs share a first part) or an argument outside its domain",
    "the sum or difference does not fit in 32 bits",
    "the node's value would weigh more than 256 cells",
    "the step budget is spent before the visit of this node",
];

impl Refusal {
    /// The refusal in plain words.
    pub fn sentence(&self) -> &'static str {
        let index = usize::from(self.number).wrapping_sub(1);
        SENTENCES.get(index).unwrap_or(&"an unknown refusal")
    }

    /// What the place counts.
    pub fn subject(&self) -> Subject {
        match self.number {
            4 => Subject::GivenSet,
            5 | 9 => Subject::Identifier,
            6..=8 | 11 | 15..=19 => Subject::Node,
            12 | 13 => Subject::Row,
            14 => Subject::Value,
            _ => Subject::Whole,
        }
    }
}

impl fmt::Display for Refusal {
    fn fmt(&self, out: &mut fmt::Formatter) -> fmt::Result {
        write!(out, "refused {}", self.number)?;
        let place = self.place;
        match self.subject() {
            Subject::Whole => Ok(()),
            Subject::GivenSet => write!(out, " at given set {place}"),
            Subject::Identifier | Subject::Value => write!(out, " at identifier {place}"),
            Subject::Node => write!(out, " at node {place}"),
            Subject::Row => write!(out, " at row {place}"),
        }?;
        write!(out, ": {}", self.sentence())
    }
}

impl std::error::Error for Refusal {}

#[cfg(test)]
mod tests {
    use super::*;
    use std::collections::HashSet;

    fn refusal(number: u8) -> Refusal {
        Refusal { number, place: 7 }
    }

    #[test]
    fn every_number_has_its_own_sentence() {
        let sentences: HashSet<&str> = (1..=19).map(|n| refusal(n).sentence()).collect();
        assert_eq!(sentences.len(), 19);
        for number in [0, 20, 255] {
            assert_eq!(refusal(number).sentence(), "an unknown refusal");
        }
    }

    #[test]
    fn a_text_names_number_and_place() {
        let starts = |number, text| refusal(number).to_string().starts_with(text);
        assert!(starts(3, "refused 3: an offset"));
        assert!(starts(4, "refused 4 at given set 7: "));
        assert!(starts(9, "refused 9 at identifier 7: "));
        assert!(starts(12, "refused 12 at row 7: "));
        assert!(starts(14, "refused 14 at identifier 7: "));
        assert!(starts(19, "refused 19 at node 7: "));
    }
}
