//! The names that the two files take from the crate `object`.

#[derive(Debug, Copy, Clone, PartialEq, Eq, Hash)]
pub struct SectionIndex(pub usize);

#[derive(Debug, Copy, Clone, PartialEq, Eq, Hash)]
pub enum SymbolKind {
    Unknown,
    Text,
    Data,
    Section,
}

#[derive(Debug, Copy, Clone, PartialEq, Eq)]
pub enum Endianness {
    Little,
    Big,
}
