//! Types. A type is known by its number on the sheet.

pub type TypeId = usize;

pub const INT: TypeId = 0;
pub const ERROR: TypeId = 1;
pub const PACKAGE: TypeId = 2;
/// int+int, the type of a guard of `w`.
pub const CHOICE: TypeId = 3;
/// pkg+error, the type of a pack.
pub const PACKED: TypeId = 4;

#[derive(Clone, Copy, Debug, PartialEq, Eq)]
pub enum Type {
    Int,
    Error,
    Package,
    Sum(TypeId, TypeId),
    Pair(TypeId, TypeId),
}

/// The types 0 to 4, which every sheet has.
pub fn given() -> Vec<Type> {
    vec![Type::Int, Type::Error, Type::Package, Type::Sum(INT, INT), Type::Sum(PACKAGE, ERROR)]
}
