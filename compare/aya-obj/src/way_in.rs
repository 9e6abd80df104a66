//! What the two files keep to their crate, opened for `compare`: rows in, an object to run, causes out.
use std::error::Error as _;

use object::SectionIndex;
pub use object::{Endianness, SymbolKind};

use crate::{
    btf::info::{FuncSecInfo, LineSecInfo},
    obj::Object,
    relocation::{EbpfRelocationError, Relocation, RelocationError, Symbol},
    util::HashMap,
};

pub fn add_symbol(object: &mut Object, index: u32, section: Option<u32>, address: u64, kind: SymbolKind) {
    let symbol = Symbol {
        index: index as usize,
        section_index: section.map(|s| s as usize),
        name: None,
        address,
        size: 0,
        is_definition: true,
        kind,
    };
    object.symbol_table.insert(index as usize, symbol);
}

pub fn add_relocation(object: &mut Object, section: u32, symbol: u32, offset: u64, size: u8) {
    let relocation = Relocation { offset, size, symbol_index: symbol as usize };
    let section: &mut HashMap<_, _> = object.relocations.entry(SectionIndex(section as usize)).or_default();
    section.insert(offset, relocation);
}

pub fn section_index(section: u32) -> SectionIndex {
    SectionIndex(section as usize)
}

/// The offsets of a section's relocations in the order in which `relocate_maps` will take them.
pub fn order(object: &Object, section: u32) -> Vec<u64> {
    match object.relocations.get(&SectionIndex(section as usize)) {
        Some(relocations) => relocations.values().map(|r| r.offset).collect(),
        None => Vec::new(),
    }
}

/// The original error behind the one returned, as `Error::source` gives it.
pub fn cause(error: &EbpfRelocationError) -> &RelocationError {
    error.source().and_then(|e| e.downcast_ref()).expect("the error has its source")
}

pub fn parse_func_info(num_info: u32, rec_size: usize, data: &[u8], endianness: Endianness) -> FuncSecInfo {
    FuncSecInfo::parse(0, num_info, rec_size, data, endianness)
}

pub fn parse_line_info(num_info: u32, rec_size: usize, data: &[u8], endianness: Endianness) -> LineSecInfo {
    LineSecInfo::parse(0, num_info, rec_size, data, endianness)
}
