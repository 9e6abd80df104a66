//! A map, as far as `relocate_maps` looks at one.

#[derive(Debug, Copy, Clone, PartialEq, Eq)]
pub enum EbpfSectionKind {
    Undefined,
    Maps,
    Bss,
    Data,
    Rodata,
}

#[derive(Debug, Clone)]
pub struct Map {
    pub section_index: usize,
    pub symbol_index: Option<usize>,
    pub data: Vec<u8>,
}

impl Map {
    pub fn section_index(&self) -> usize {
        self.section_index
    }

    pub fn symbol_index(&self) -> Option<usize> {
        self.symbol_index
    }

    pub fn data(&self) -> &[u8] {
        &self.data
    }

    /// Only debug assertions and log lines read it.
    pub fn section_kind(&self) -> EbpfSectionKind {
        EbpfSectionKind::Undefined
    }
}
