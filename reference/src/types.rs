//! Types: weight and prefix code.

/// The heaviest type that a row of a sheet holds; the limit of refusal 13.
pub const MAX_TYPE_WEIGHT: u64 = 64;
pub const ROW_BYTES: usize = 64;

pub const CODE_INTEGER: u8 = 1;
pub const CODE_BOOL: u8 = 2;
pub const CODE_POW: u8 = 3;
pub const CODE_PRODUCT: u8 = 4;
pub const CODE_GIVEN: u8 = 16;

#[derive(Clone, PartialEq, Eq, Debug, PartialOrd, Ord)]
pub enum Type {
    Integer,
    Bool,
    Given(u8),
    Pow(Box<Type>),
    Product(Box<Type>, Box<Type>),
}

pub fn pow(member: Type) -> Type {
    Type::Pow(Box::new(member))
}

pub fn product(first: Type, second: Type) -> Type {
    Type::Product(Box::new(first), Box::new(second))
}

impl Type {
    pub fn weight(&self) -> u64 {
        match self {
            Type::Integer | Type::Bool | Type::Given(_) => 1,
            Type::Pow(t) => 1 + t.weight(),
            Type::Product(t, u) => 1 + t.weight() + u.weight(),
        }
    }

    /// The prefix code, without fill.
    pub fn code(&self) -> Vec<u8> {
        let mut out = Vec::new();
        self.write_code(&mut out);
        out
    }

    fn write_code(&self, out: &mut Vec<u8>) {
        match self {
            Type::Integer => out.push(CODE_INTEGER),
            Type::Bool => out.push(CODE_BOOL),
            Type::Given(g) => out.push(CODE_GIVEN + g),
            Type::Pow(t) => {
                out.push(CODE_POW);
                t.write_code(out);
            }
            Type::Product(t, u) => {
                out.push(CODE_PRODUCT);
                t.write_code(out);
                u.write_code(out);
            }
        }
    }

    /// The type whose prefix code the bytes are, zero fill allowed behind it.
    pub fn from_row(row: &[u8]) -> Option<Type> {
        let (found, rest) = Type::from_prefix(row)?;
        rest.iter().all(|&byte| byte == 0).then_some(found)
    }

    fn from_prefix(code: &[u8]) -> Option<(Type, &[u8])> {
        let (&head, rest) = code.split_first()?;
        match head {
            CODE_INTEGER => Some((Type::Integer, rest)),
            CODE_BOOL => Some((Type::Bool, rest)),
            CODE_POW => {
                let (t, rest) = Type::from_prefix(rest)?;
                Some((pow(t), rest))
            }
            CODE_PRODUCT => {
                let (t, rest) = Type::from_prefix(rest)?;
                let (u, rest) = Type::from_prefix(rest)?;
                Some((product(t, u), rest))
            }
            16..=31 => Some((Type::Given(head - CODE_GIVEN), rest)),
            _ => None,
        }
    }
}
