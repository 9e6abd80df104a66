//! The eight tables: rows, their bytes, and the rows that stand in any bytes.

pub const NONE: u32 = 0xffff_ffff;
pub const OTHER: u8 = 0;
pub const TEXT: u8 = 1;
pub const SECTION: u8 = 2;

/// Bytes of a row and most rows, by table number less one.
pub const ROW_SIZE: [usize; 8] = [4, 24, 32, 24, 16, 8, 8, 16];
pub const MOST_ROWS: [usize; 8] = [64, 1024, 64, 1024, 64, 8192, 256, 4096];

pub type Bytes = [Vec<u8>; 8];
pub type Slot = [u8; 8];

#[derive(Debug, Clone, PartialEq)]
pub struct Symbol {
    pub index: u32,
    pub section: u32,
    pub address: u64,
    pub kind: u8,
}

#[derive(Debug, Clone, PartialEq)]
pub struct Function {
    pub section: u32,
    pub slots: u32,
    pub address: u64,
    pub offset: u64,
    pub funcs: u32,
    pub lines: u32,
}

#[derive(Debug, Clone, PartialEq)]
pub struct Relocation {
    pub section: u32,
    pub symbol: u32,
    pub offset: u64,
    pub size: u8,
}

#[derive(Debug, Clone, PartialEq)]
pub struct Map {
    pub section: u32,
    pub symbol: u32,
    pub fd: i32,
    pub data: u8,
}

#[derive(Debug, Clone, Default, PartialEq)]
pub struct Rows {
    pub code: Vec<u32>,
    pub symbols: Vec<Symbol>,
    pub functions: Vec<Function>,
    pub relocations: Vec<Relocation>,
    pub maps: Vec<Map>,
    pub slots: Vec<Slot>,
    pub funcs: Vec<[u32; 2]>,
    pub lines: Vec<[u32; 4]>,
}

pub fn insn(opcode: u8, registers: u8, offset: i16, immediate: i32) -> Slot {
    let (o, i) = (offset.to_le_bytes(), immediate.to_le_bytes());
    [opcode, registers, o[0], o[1], i[0], i[1], i[2], i[3]]
}

pub fn call(immediate: i32) -> Slot {
    insn(0x85, 0x10, 0, immediate)
}

pub const EXIT: Slot = [0x95, 0, 0, 0, 0, 0, 0, 0];
pub const MOVE: Slot = [0xb7, 1, 0, 0, 5, 0, 0, 0];

pub fn immediate(slot: &Slot) -> i32 {
    i32::from_le_bytes(slot[4..8].try_into().unwrap())
}

pub fn u32_at(bytes: &[u8], at: usize) -> u32 {
    u32::from_le_bytes(bytes[at..at + 4].try_into().unwrap())
}

fn u64_at(bytes: &[u8], at: usize) -> u64 {
    u64::from_le_bytes(bytes[at..at + 8].try_into().unwrap())
}

/// A row of u32 and u64 fields, each with its bytes.
fn row(out: &mut Vec<u8>, fields: &[(u64, usize)]) {
    for &(value, size) in fields {
        out.extend_from_slice(&value.to_le_bytes()[..size]);
    }
}

impl Rows {
    pub fn bytes(&self) -> Bytes {
        let mut t: Bytes = Default::default();
        for &c in &self.code {
            row(&mut t[0], &[(c.into(), 4)]);
        }
        for s in &self.symbols {
            row(&mut t[1], &[(s.index.into(), 4), (s.section.into(), 4), (s.address, 8), (s.kind.into(), 8)]);
        }
        for f in &self.functions {
            row(&mut t[2], &[(f.section.into(), 4), (f.slots.into(), 4), (f.address, 8), (f.offset, 8)]);
            row(&mut t[2], &[(f.funcs.into(), 4), (f.lines.into(), 4)]);
        }
        for r in &self.relocations {
            row(&mut t[3], &[(r.section.into(), 4), (r.symbol.into(), 4), (r.offset, 8), (r.size.into(), 8)]);
        }
        for m in &self.maps {
            let fd = u64::from(m.fd as u32);
            row(&mut t[4], &[(m.section.into(), 4), (m.symbol.into(), 4), (fd, 4), (m.data.into(), 4)]);
        }
        t[5] = self.slots.concat();
        t[6] = self.funcs.iter().flatten().flat_map(|w| w.to_le_bytes()).collect();
        t[7] = self.lines.iter().flatten().flat_map(|w| w.to_le_bytes()).collect();
        t
    }

    /// The whole rows of any bytes, padding left out.
    pub fn of(t: &Bytes) -> Self {
        let rows = |n: usize| t[n].chunks_exact(ROW_SIZE[n]);
        Self {
            code: rows(0).map(|r| u32_at(r, 0)).collect(),
            symbols: rows(1).map(|r| Symbol { index: u32_at(r, 0), section: u32_at(r, 4), address: u64_at(r, 8), kind: r[16] }).collect(),
            functions: rows(2).map(function).collect(),
            relocations: rows(3)
                .map(|r| Relocation { section: u32_at(r, 0), symbol: u32_at(r, 4), offset: u64_at(r, 8), size: r[16] })
                .collect(),
            maps: rows(4).map(|r| Map { section: u32_at(r, 0), symbol: u32_at(r, 4), fd: u32_at(r, 8) as i32, data: r[12] }).collect(),
            slots: rows(5).map(|r| r.try_into().unwrap()).collect(),
            funcs: rows(6).map(|r| [u32_at(r, 0), u32_at(r, 4)]).collect(),
            lines: rows(7).map(|r| [u32_at(r, 0), u32_at(r, 4), u32_at(r, 8), u32_at(r, 12)]).collect(),
        }
    }

    /// Each function's slots, function records and line records, as far as the tables go.
    pub fn parts(&self) -> Vec<(&[Slot], &[[u32; 2]], &[[u32; 4]])> {
        let (mut s, mut f, mut l) = (&self.slots[..], &self.funcs[..], &self.lines[..]);
        let mut parts = Vec::new();
        for row in &self.functions {
            parts.push((front(&mut s, row.slots), front(&mut f, row.funcs), front(&mut l, row.lines)));
        }
        parts
    }
}

fn function(r: &[u8]) -> Function {
    Function {
        section: u32_at(r, 0),
        slots: u32_at(r, 4),
        address: u64_at(r, 8),
        offset: u64_at(r, 16),
        funcs: u32_at(r, 24),
        lines: u32_at(r, 28),
    }
}

fn front<'a, T>(list: &mut &'a [T], n: u32) -> &'a [T] {
    let (front, rest) = list.split_at(list.len().min(n as usize));
    *list = rest;
    front
}

// ---- what a slot is and what a relocation names, for making objects and for stating the domain

pub fn is_call(s: &Slot) -> bool {
    s[..4] == [0x85, 0x10, 0, 0]
}

pub fn is_wide_load(slots: &[Slot], k: usize) -> bool {
    slots[k][0] == 0x18 && slots.get(k + 1).is_some_and(|next| next[..4] == [0; 4])
}

pub fn symbol_of<'a>(rows: &'a Rows, r: &Relocation) -> Option<&'a Symbol> {
    rows.symbols.iter().find(|s| s.index == r.symbol)
}

pub fn is_code(rows: &Rows, section: u32) -> bool {
    section != NONE && rows.code.contains(&section)
}

/// What runs: the tables' bytes, the root, and what the tables do not say.
#[derive(Debug, Clone)]
pub struct Case {
    pub kind: usize,
    pub bytes: Bytes,
    pub root: u32,
    /// Lengths of the three outputs, in bytes.
    pub room: [usize; 3],
    /// The crate's `num_info` of each function less its record count: the root's, and all others'.
    pub root_nums: (i32, i32),
    pub other_nums: (i32, i32),
    /// The order in which the crate is given the maps: a seed.
    pub order: u64,
    pub steps: Steps,
}

#[derive(Debug, Clone, Copy, PartialEq)]
pub enum Steps {
    /// "Maps first, then calls"
    MapsThenCalls,
    CallsAlone,
    /// The crate links its object a second time.
    LinkedTwice,
    /// The function after the root is a program of the crate's too.
    TwoPrograms,
}
