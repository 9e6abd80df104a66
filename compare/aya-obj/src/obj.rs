//! The object, as far as the two files look at one.
use std::collections::BTreeMap;

use object::SectionIndex;

use crate::{
    btf::info::{FuncSecInfo, LineSecInfo},
    generated::bpf_insn,
    relocation::{Relocation, Symbol},
    util::HashMap,
};

#[derive(Debug, Clone)]
pub struct Function {
    pub address: u64,
    pub name: String,
    pub section_index: SectionIndex,
    pub section_offset: usize,
    pub instructions: Vec<bpf_insn>,
    pub func_info: FuncSecInfo,
    pub line_info: LineSecInfo,
}

#[derive(Debug, Clone)]
pub struct Program {
    pub section_index: usize,
    pub address: u64,
}

impl Program {
    pub(crate) fn function_key(&self) -> (usize, u64) {
        (self.section_index, self.address)
    }
}

#[derive(Debug, Clone, Default)]
pub struct Object {
    pub programs: HashMap<String, Program>,
    pub functions: BTreeMap<(usize, u64), Function>,
    pub(crate) relocations: HashMap<SectionIndex, HashMap<u64, Relocation>>,
    pub(crate) symbol_table: HashMap<usize, Symbol>,
}
