//! The crate: an object built from the tables' rows, and its two steps run.
use std::{
    collections::HashSet,
    panic::{AssertUnwindSafe, catch_unwind},
    sync::atomic::{AtomicBool, Ordering::Relaxed},
};

use aya_obj::{
    btf::info::{FuncSecInfo, LineSecInfo},
    generated::{bpf_func_info, bpf_insn, bpf_line_info},
    maps::Map,
    obj::{Function, Object, Program},
    relocation::{EbpfRelocationError, RelocationError},
    way_in::{self, SymbolKind},
};

use crate::{
    rng::Rng,
    tables::{Case, NONE, Rows, SECTION, Slot, Steps, TEXT},
};

/// How a step of the crate ended.
#[derive(Debug, Clone, PartialEq)]
pub enum Ended<T> {
    Ok(T),
    Err(Cause),
    Panic,
}

#[derive(Debug, Clone, Copy, PartialEq)]
pub enum Cause {
    UnknownSymbol,
    SectionNotFound,
    UnknownFunction,
    UnknownProgram,
    InvalidRelocationOffset,
}

impl Cause {
    /// The number of document 01 with that cause.
    pub fn number(self) -> u32 {
        match self {
            Self::UnknownSymbol => 3,
            Self::InvalidRelocationOffset => 4,
            Self::SectionNotFound => 5,
            Self::UnknownFunction => 10,
            Self::UnknownProgram => 13,
        }
    }
}

/// The linked program.
#[derive(Debug, Clone, PartialEq)]
pub struct Image {
    pub slots: Vec<Slot>,
    pub funcs: Vec<[u32; 2]>,
    pub lines: Vec<[u32; 4]>,
    pub func_bytes: Vec<u8>,
    pub line_bytes: Vec<u8>,
    pub func_num: u32,
    pub line_num: u32,
}

#[derive(Debug, Clone, PartialEq)]
pub struct Ran {
    /// All functions' slots after the map step.
    pub maps: Ended<Vec<Slot>>,
    /// Not run where the map step did not end well.
    pub calls: Option<Ended<Image>>,
}

pub fn slot_of(i: &bpf_insn) -> Slot {
    crate::tables::insn(i.code, i.registers, i.off, i.imm)
}

fn insn_of(s: &Slot) -> bpf_insn {
    bpf_insn { code: s[0], registers: s[1], off: i16::from_le_bytes([s[2], s[3]]), imm: crate::tables::immediate(s) }
}

fn num(records: usize, more: i32) -> u32 {
    (records as u32).wrapping_add_signed(more)
}

fn functions(case: &Case, rows: &Rows, object: &mut Object) {
    for (row, (f, (slots, funcs, lines))) in rows.functions.iter().zip(rows.parts()).enumerate() {
        let nums = if row == case.root as usize { case.root_nums } else { case.other_nums };
        let mut func_info = FuncSecInfo::default();
        func_info.num_info = num(funcs.len(), nums.0);
        func_info.func_info = funcs.iter().map(|&[insn_off, type_id]| bpf_func_info { insn_off, type_id }).collect();
        let mut line_info = LineSecInfo::default();
        line_info.num_info = num(lines.len(), nums.1);
        line_info.line_info = lines
            .iter()
            .map(|&[insn_off, file_name_off, line_off, line_col]| bpf_line_info { insn_off, file_name_off, line_off, line_col })
            .collect();
        let function = Function {
            address: f.address,
            name: String::new(),
            section_index: way_in::section_index(f.section),
            section_offset: f.offset as usize,
            instructions: slots.iter().map(insn_of).collect(),
            func_info,
            line_info,
        };
        object.functions.insert((f.section as usize, f.address), function);
    }
}

/// The object of the rows, with the root as the only program, and its text sections.
pub fn object(case: &Case, rows: &Rows) -> (Object, HashSet<usize>) {
    let mut object = Object::default();
    functions(case, rows, &mut object);
    for s in &rows.symbols {
        let kind = match s.kind {
            TEXT => SymbolKind::Text,
            SECTION => SymbolKind::Section,
            _ => SymbolKind::Data,
        };
        let section = (s.section != NONE).then_some(s.section);
        way_in::add_symbol(&mut object, s.index, section, s.address, kind);
    }
    for r in &rows.relocations {
        way_in::add_relocation(&mut object, r.section, r.symbol, r.offset, r.size);
    }
    let program = match rows.functions.get(case.root as usize) {
        Some(root) => Program { section_index: root.section as usize, address: root.address },
        None => Program { section_index: usize::MAX, address: 0 },
    };
    object.programs.insert("root".to_string(), program);
    if case.steps == Steps::TwoPrograms && !rows.functions.is_empty() {
        let other = &rows.functions[(case.root as usize + 1) % rows.functions.len()];
        object.programs.insert("other".to_string(), Program { section_index: other.section as usize, address: other.address });
    }
    (object, rows.code.iter().map(|&c| c as usize).collect())
}

/// The rows of table 5 as the crate's maps, in the case's order.
pub fn maps(case: &Case, rows: &Rows) -> Vec<(i32, Map)> {
    let mut maps: Vec<_> = rows
        .maps
        .iter()
        .map(|m| {
            let symbol_index = (m.symbol != NONE).then_some(m.symbol as usize);
            (m.fd, Map { section_index: m.section as usize, symbol_index, data: vec![0; m.data.into()] })
        })
        .collect();
    if case.order != 0 {
        Rng::new(case.order).shuffle(&mut maps);
    }
    maps
}

static QUIET: AtomicBool = AtomicBool::new(false);

/// Panics of the crate are answers and are not shown; all others are.
pub fn quiet_panics() {
    let shown = std::panic::take_hook();
    std::panic::set_hook(Box::new(move |info| {
        if !QUIET.load(Relaxed) {
            shown(info);
        }
    }));
}

/// Runs the crate: none where it panics.
pub fn caught<T>(run: impl FnOnce() -> T) -> Option<T> {
    QUIET.store(true, Relaxed);
    let result = catch_unwind(AssertUnwindSafe(run));
    QUIET.store(false, Relaxed);
    result.ok()
}

fn ended<T>(run: impl FnOnce() -> Result<T, EbpfRelocationError>) -> Ended<T> {
    match caught(run) {
        Some(Ok(value)) => Ended::Ok(value),
        Some(Err(error)) => Ended::Err(match way_in::cause(&error) {
            RelocationError::UnknownSymbol { .. } => Cause::UnknownSymbol,
            RelocationError::SectionNotFound { .. } => Cause::SectionNotFound,
            RelocationError::UnknownFunction { .. } => Cause::UnknownFunction,
            RelocationError::UnknownProgram { .. } => Cause::UnknownProgram,
            RelocationError::InvalidRelocationOffset { .. } => Cause::InvalidRelocationOffset,
        }),
        None => Ended::Panic,
    }
}

fn image(object: &Object) -> Image {
    let program = &object.programs["root"];
    let f = &object.functions[&(program.section_index, program.address)];
    let (funcs, lines) = (&f.func_info, &f.line_info);
    Image {
        slots: f.instructions.iter().map(slot_of).collect(),
        funcs: funcs.func_info.iter().map(|r| [r.insn_off, r.type_id]).collect(),
        lines: lines.line_info.iter().map(|r| [r.insn_off, r.file_name_off, r.line_off, r.line_col]).collect(),
        func_bytes: funcs.func_info_bytes(),
        line_bytes: lines.line_info_bytes(),
        func_num: funcs.num_info,
        line_num: lines.num_info,
    }
}

/// The two steps; and whether a map step that did not end well has changed slots all the same.
pub fn run(case: &Case, rows: &Rows) -> (Ran, bool) {
    let (mut object, text) = object(case, rows);
    let maps = maps(case, rows);
    let all = |object: &Object| -> Vec<Slot> { object.functions.values().flat_map(|f| f.instructions.iter().map(slot_of)).collect() };
    let before = all(&object);
    let mapped = if case.steps == Steps::CallsAlone {
        Ended::Ok(all(&object))
    } else {
        ended(|| {
            object.relocate_maps(maps.iter().map(|(fd, map)| ("", *fd, map)), &text)?;
            Ok(all(&object))
        })
    };
    if !matches!(mapped, Ended::Ok(_)) {
        return (Ran { maps: mapped, calls: None }, all(&object) != before);
    }
    let calls = ended(|| {
        object.relocate_calls(&text)?;
        if case.steps == Steps::LinkedTwice {
            object.relocate_calls(&text)?;
        }
        Ok(image(&object))
    });
    (Ran { maps: mapped, calls: Some(calls) }, false)
}
