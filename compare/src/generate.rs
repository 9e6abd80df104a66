//! Objects of every kind, from a seed: clean ones, then spoiled in a named way.
use std::collections::BTreeMap;

use crate::{
    domain,
    rng::Rng,
    tables::{
        self, Case, EXIT, Function, MOST_ROWS, MOVE, Map, NONE, OTHER, ROW_SIZE, Relocation, Rows, SECTION, Slot, Steps, Symbol, TEXT,
        call, immediate, insn,
    },
};

/// The kinds, with how often each is made.
pub const KINDS: [(&str, u64); 16] = [
    ("plain", 300),
    ("far addresses", 80),
    ("one refusal of 3, 4, 5, 10", 140),
    ("one added refusal", 100),
    ("one clause broken", 140),
    ("twins", 60),
    ("overlapping functions", 30),
    ("odd in several ways", 60),
    ("damaged", 80),
    ("num_info", 20),
    ("short outputs", 30),
    ("no root", 10),
    ("calls without maps", 20),
    ("linked twice", 10),
    ("two programs", 10),
    ("at the limits", 8),
];

const TOP: u64 = (1 << 48) - 1;

#[derive(Debug, Clone, Default)]
struct Fun {
    section: u32,
    address: u64,
    offset: u64,
    slots: Vec<Slot>,
    funcs: Vec<[u32; 2]>,
    lines: Vec<[u32; 4]>,
}

#[derive(Default)]
struct Object {
    code: Vec<u32>,
    symbols: Vec<Symbol>,
    functions: Vec<Fun>,
    relocations: BTreeMap<(u32, u64), (u32, u8)>,
    maps: Vec<Map>,
    root: usize,
}

#[derive(Default)]
struct Layout {
    twins: bool,
    far: bool,
    overlap: bool,
}

struct Maker<'a> {
    rng: &'a mut Rng,
    o: Object,
}

impl Maker<'_> {
    /// Functions in sections, each with the number of slots it will have.
    fn lay_out(&mut self, layout: &Layout) -> Vec<u64> {
        let rng = &mut *self.rng;
        let mut sections = vec![1, 2, 3, 4];
        rng.shuffle(&mut sections);
        sections.truncate(rng.between(1, 3) as usize);
        self.o.code = sections.clone();
        self.o.code.sort_unstable();
        if rng.chance(10) {
            sections.push(9);
        }
        let mut next: BTreeMap<u32, u64> = BTreeMap::new();
        let mut deltas: BTreeMap<u32, u64> = BTreeMap::new();
        for (i, &s) in sections.iter().enumerate() {
            next.insert(s, if layout.twins { 0 } else { 0x1000 * i as u64 });
            let delta = match rng.below(10) {
                0..7 if !layout.far => 0,
                _ if layout.twins => 0,
                _ if layout.far => (TOP >> rng.below(20)) / 8 * 8 - 0x10_0000 * (i as u64 + 1),
                _ => 0x10_0000 * (i as u64 + 1),
            };
            deltas.insert(s, delta);
        }
        let mut counts = Vec::new();
        for _ in 0..rng.between(1, 6) {
            let section = rng.pick(&sections);
            let slots = rng.between(1, 6);
            let offset = next[&section];
            let step = if layout.overlap && rng.chance(40) { rng.between(1, slots) } else { slots + rng.below(2) * rng.below(3) };
            next.insert(section, offset + 8 * step);
            let odd = if rng.chance(3) { rng.between(1, 7) } else { 0 };
            let address = offset + deltas[&section] + odd;
            self.o.functions.push(Fun { section, address, offset, ..Fun::default() });
            counts.push(slots);
        }
        self.o.root = rng.below(counts.len() as u64) as usize;
        counts
    }

    fn name(&mut self, layout: &Layout) {
        let rng = &mut *self.rng;
        let mut rows: Vec<(u32, u64, u8)> = Vec::new();
        for f in &self.o.functions {
            if rng.chance(70) {
                rows.push((f.section, f.address, TEXT));
            }
            if self.o.code.contains(&f.section) && rng.chance(60) {
                rows.push((f.section, section_symbol(rng, f, layout.far), SECTION));
            }
        }
        for _ in 0..rng.below(3) {
            let kind = rng.pick(&[OTHER, SECTION]);
            rows.push((20, rng.below(64), kind));
        }
        for _ in 0..rng.below(3) {
            rows.push((21, rng.below(64), OTHER));
        }
        if rng.chance(15) {
            let kind = rng.pick(&[OTHER, SECTION]);
            rows.push((NONE, rng.below(64), kind));
        }
        rng.shuffle(&mut rows);
        let mut index = rng.below(3) as u32;
        for (section, address, kind) in rows {
            self.o.symbols.push(Symbol { index, section, address, kind });
            index += rng.between(1, 4) as u32;
        }
    }

    fn map(&mut self, section: u32, symbol: u32) {
        let fd = match self.rng.below(4) {
            0 => self.rng.next() as i32,
            1 => -1,
            _ => self.rng.below(100) as i32,
        };
        let data = self.rng.below(2) as u8;
        self.o.maps.push(Map { section, symbol, fd, data });
    }

    fn set_maps(&mut self) {
        if self.o.symbols.iter().any(|s| s.section == 20) || self.rng.chance(20) {
            self.map(20, NONE);
        }
        for (section, index) in self.o.symbols.iter().map(|s| (s.section, s.index)).collect::<Vec<_>>() {
            if section == 21 {
                let home = if self.rng.chance(80) { 21 } else { 33 };
                self.map(home, index);
            } else if section == 20 && self.rng.chance(20) {
                self.map(33, index);
            }
        }
        if self.rng.chance(10) {
            self.map(25, NONE);
        }
        if self.rng.chance(10) {
            self.map(34, 4_000_000_000);
        }
        let mut maps = std::mem::take(&mut self.o.maps);
        self.rng.shuffle(&mut maps);
        self.o.maps = maps;
    }

    fn relocate(&mut self, f: usize, k: usize, symbol: u32, size: u8) {
        let (section, at) = (self.o.functions[f].section, self.o.functions[f].offset + 8 * k as u64);
        self.o.relocations.insert((section, at), (symbol, size));
    }

    /// A reference of a function through a relocation: its immediate, or none where no symbol can do it.
    fn reference(&mut self, f: usize, k: usize, wide: bool) -> Option<i32> {
        let g = self.rng.below(self.o.functions.len() as u64) as usize;
        let (section, address) = (self.o.functions[g].section, self.o.functions[g].address);
        let named = |s: &&Symbol| s.section == section && (s.kind == SECTION || s.kind == TEXT && s.address == address);
        let symbols: Vec<_> = self.o.symbols.iter().filter(named).cloned().collect();
        if symbols.is_empty() || wide && !self.o.code.contains(&section) {
            return None;
        }
        let s = &symbols[self.rng.below(symbols.len() as u64) as usize];
        if s.kind == TEXT {
            let size = self.rng.pick(&[32, 64, 64, 0]);
            self.relocate(f, k, s.index, size);
            return Some(self.rng.pick(&[-1, 0, 5, -77, i32::MIN]));
        }
        let difference = i128::from(address) - i128::from(s.address);
        let size = if wide != self.rng.chance(10) { 64 } else { 32 };
        let size = if difference % 8 == 0 { size } else { 64 };
        let value = if size == 32 { difference / 8 - 1 } else { difference };
        let value = i32::try_from(value).ok().filter(|&v| v != i32::MAX)?;
        self.relocate(f, k, s.index, size);
        Some(value)
    }

    /// The immediate of a call without a relocation, to a function of the same section.
    fn relative(&mut self, f: usize, k: usize) -> Option<i32> {
        let here = &self.o.functions[f];
        let near: Vec<u64> = self.o.functions.iter().filter(|g| g.section == here.section).map(|g| g.address).collect();
        let difference = i128::from(self.rng.pick(&near)) - i128::from(here.offset) - 8 * k as i128;
        (difference % 8 == 0).then(|| i32::try_from(difference / 8 - 1).ok().filter(|&v| v != i32::MAX)).flatten()
    }

    /// A wide load of a map's value, or of nothing.
    fn load(&mut self, f: usize, k: usize) -> i32 {
        let data: Vec<_> = self.o.symbols.iter().filter(|s| [20, 21, NONE].contains(&s.section)).cloned().collect();
        let value = match self.rng.below(5) {
            0 => self.rng.next() as i32,
            1 => i32::MIN,
            _ => self.rng.below(64) as i32 - 8,
        };
        if data.is_empty() || self.rng.chance(10) {
            return value;
        }
        let s = &data[self.rng.below(data.len() as u64) as usize];
        let size = self.rng.pick(&[64, 64, 32, 0]);
        self.relocate(f, k, s.index, size);
        if i32::try_from(i64::from(value) + s.address as i64).is_ok() { value } else { i32::MAX - s.address as i32 }
    }

    fn plain(&mut self) -> Slot {
        match self.rng.below(8) {
            0 => self.rng.next().to_le_bytes(),
            1 => insn(0x85, 0, 0, 1),
            2 => insn(0x85, 0x10, 1, 1),
            3 => insn(0x05, 0, -2, 0),
            4 => insn(0x18, 3, 0, 0),
            5 => MOVE,
            _ => EXIT,
        }
    }

    fn fill(&mut self, f: usize, count: usize) {
        let mut k = 0;
        while k < count {
            let way = self.rng.below(100);
            let wide = way >= 40 && way < 65 && k + 1 < count;
            let value = match way {
                0..22 => self.relative(f, k),
                22..40 => self.reference(f, k, false),
                40..50 if wide => self.reference(f, k, true),
                50..65 if wide => Some(self.load(f, k)),
                _ => None,
            };
            let slots = match value {
                None => vec![self.plain()],
                Some(v) if wide => {
                    let registers = if self.rng.chance(80) { self.rng.below(10) } else { self.rng.below(256) } as u8;
                    let next = self.rng.pick(&[0, 0, 3, -3]);
                    vec![insn(0x18, registers, self.rng.pick(&[0, 0, 0, 9]), v), insn(0, 0, 0, next)]
                }
                Some(v) => vec![call(v)],
            };
            k += slots.len();
            self.o.functions[f].slots.extend(slots);
        }
        self.records(f);
    }

    fn records(&mut self, f: usize) {
        let rng = &mut *self.rng;
        let fun = &mut self.o.functions[f];
        for _ in 0..rng.pick(&[0, 1, 1, 1, 2]) {
            fun.funcs.push([rng.pick(&[0, 7, 99, u32::MAX]), rng.below(99) as u32]);
        }
        let first = rng.pick(&[0, 0, 10, 37, u32::MAX - 9]);
        for i in 0..rng.pick(&[0, 1, 2, 2, 3, 4]) {
            let step = if i == 0 { 0 } else { rng.below(fun.slots.len() as u64) as u32 };
            fun.lines.push([first + step, rng.below(3) as u32, rng.below(500) as u32, rng.next() as u32]);
        }
    }
}

/// An address for a Section symbol by which a function can be named, at an immediate of choice.
fn section_symbol(rng: &mut Rng, f: &Fun, far: bool) -> u64 {
    let value =
        if far { rng.pick(&[-1 << 31, (-1 << 31) + 1, -1000, -1, 0, (1 << 31) - 2, (1 << 31) - 3]) } else { rng.between(0, 40) as i64 - 2 };
    let address = f.address as i64 - if rng.chance(50) { 8 * (value + 1) } else { value };
    if (0..=TOP as i64).contains(&address) { address as u64 } else { f.address / 8 * 8 }
}

fn clean(rng: &mut Rng, layout: &Layout) -> Object {
    let mut maker = Maker { rng, o: Object::default() };
    let counts = maker.lay_out(layout);
    maker.name(layout);
    maker.set_maps();
    for (f, count) in counts.into_iter().enumerate() {
        maker.fill(f, count as usize);
    }
    if layout.far {
        far_call(maker.rng, &mut maker.o);
    }
    maker.o
}

/// A relative call at one of the ends of i32: the caller's section offset is set so that it meets a function.
fn far_call(rng: &mut Rng, o: &mut Object) {
    let root = o.root;
    let value: i64 = rng.pick(&[-1 << 31, (-1 << 31) + 7, (1 << 31) - 2, -1, 0]);
    let section = o.functions[root].section;
    let near: Vec<u64> = o.functions.iter().filter(|g| g.section == section).map(|g| g.address).collect();
    let offset = rng.pick(&near) as i64 - 8 * (value + 1);
    let f = &mut o.functions[root];
    let taken = (0..f.slots.len() as u64).any(|k| o.relocations.contains_key(&(section, f.offset + 8 * k)));
    let moved = !taken && offset % 8 == 0 && (0..TOP as i64 - 100).contains(&offset);
    if moved && !f.slots.iter().any(|s| tables::is_call(s)) {
        f.offset = offset as u64;
        f.slots[0] = call(value as i32);
    }
}

impl Object {
    fn rows(mut self) -> (Rows, u32) {
        let key = |f: &Fun| (f.section, f.address);
        let root = key(&self.functions[self.root]);
        self.functions.sort_by_key(key);
        self.functions.dedup_by_key(|f| key(f));
        self.symbols.sort_by_key(|s| s.index);
        let mut rows = Rows { code: self.code, symbols: self.symbols, maps: self.maps, ..Rows::default() };
        let index = self.functions.iter().position(|f| key(f) == root).unwrap();
        for f in self.functions {
            rows.functions.push(Function {
                section: f.section,
                slots: f.slots.len() as u32,
                address: f.address,
                offset: f.offset,
                funcs: f.funcs.len() as u32,
                lines: f.lines.len() as u32,
            });
            rows.slots.extend(f.slots);
            rows.funcs.extend(f.funcs);
            rows.lines.extend(f.lines);
        }
        rows.relocations =
            self.relocations.into_iter().map(|((section, offset), (symbol, size))| Relocation { section, symbol, offset, size }).collect();
        (rows, index as u32)
    }
}

// ---- spoiled in a named way

/// A slot of some function that passes, with its function.
fn find(rng: &mut Rng, o: &Object, test: impl Fn(&Object, &Fun, usize) -> bool) -> Option<(usize, usize)> {
    let found: Vec<_> = o
        .functions
        .iter()
        .enumerate()
        .flat_map(|(f, fun)| (0..fun.slots.len()).map(move |k| (f, k)))
        .filter(|&(f, k)| test(o, &o.functions[f], k))
        .collect();
    if found.is_empty() { None } else { Some(rng.pick(&found)) }
}

fn relocation(o: &Object, f: &Fun, k: usize) -> Option<(u32, u8)> {
    o.relocations.get(&(f.section, f.offset + 8 * k as u64)).copied()
}

fn symbol(o: &Object, f: &Fun, k: usize) -> Option<Symbol> {
    let index = relocation(o, f, k)?.0;
    o.symbols.iter().find(|s| s.index == index).cloned()
}

fn unused(o: &Object) -> u32 {
    o.symbols.iter().map(|s| s.index).max().unwrap_or(0) + 5
}

fn is_data(o: &Object, f: &Fun, k: usize) -> bool {
    symbol(o, f, k).is_some_and(|s| s.section == 20 || s.section == 21)
}

fn is_data_load(o: &Object, f: &Fun, k: usize) -> bool {
    is_data(o, f, k) && tables::is_wide_load(&f.slots, k)
}

fn is_reference(o: &Object, f: &Fun, k: usize) -> bool {
    tables::is_wide_load(&f.slots, k) && symbol(o, f, k).is_some_and(|s| s.kind != OTHER && o.code.contains(&s.section))
}

fn is_relocated(o: &Object, f: &Fun, k: usize) -> bool {
    relocation(o, f, k).is_some()
}

fn is_free_call(o: &Object, f: &Fun, k: usize) -> bool {
    tables::is_call(&f.slots[k]) && relocation(o, f, k).is_none()
}

fn is_root(o: &Object, f: &Fun) -> bool {
    o.functions[o.root].section == f.section && o.functions[o.root].address == f.address
}

/// Symbol of a slot's relocation, to be changed.
fn symbol_mut(o: &mut Object, f: usize, k: usize) -> Option<&mut Symbol> {
    let index = relocation(o, &o.functions[f], k)?.0;
    o.symbols.iter_mut().find(|s| s.index == index)
}

fn set_relocation(o: &mut Object, f: usize, k: usize, to: (u32, u8)) {
    let fun = &o.functions[f];
    o.relocations.insert((fun.section, fun.offset + 8 * k as u64), to);
}

type Spoiler = fn(&mut Rng, &mut Object) -> Option<()>;

fn unknown_symbol(rng: &mut Rng, o: &mut Object) -> Option<()> {
    let (f, k) = find(rng, o, is_relocated)?;
    let (index, size) = (unused(o), relocation(o, &o.functions[f], k)?.1);
    set_relocation(o, f, k, (index, size));
    Some(())
}

/// Only maps with symbols in a section where one without was.
fn maps_with_symbols(rng: &mut Rng, o: &mut Object) -> Option<()> {
    find(rng, o, is_data)?;
    let symbol = unused(o) + 100;
    o.maps.iter_mut().find(|m| m.symbol == NONE)?.symbol = symbol;
    Some(())
}

/// Immediate 2,147,483,647 in the root's first slot, where functions stand both at the place meant and at the one to which the crate's
/// sum wraps: a call without a relocation, or a wide load by a Section symbol of size 32.
fn wraps_to_another(rng: &mut Rng, o: &mut Object) -> Option<()> {
    let (root, index) = (o.root, unused(o));
    let f = &o.functions[root];
    if (0..f.slots.len()).any(|k| is_relocated(o, f, k)) || !o.code.contains(&f.section) {
        return None;
    }
    let (section, far) = (f.section, f.offset + (1 << 35));
    let f = &mut o.functions[root];
    f.slots.iter_mut().filter(|s| tables::is_call(s)).for_each(|s| *s = EXIT);
    if rng.chance(50) || f.slots.len() < 2 {
        f.offset = far;
        f.slots[0] = call(i32::MAX);
    } else {
        f.slots[0] = insn(0x18, 1, 0, i32::MAX);
        f.slots[1] = insn(0, 0, 0, 0);
        o.symbols.push(Symbol { index, section, address: far, kind: SECTION });
        set_relocation(o, root, 0, (index, 32));
    }
    for (address, slots) in [(far + (1 << 34), 1), (far - (1 << 34), 2)] {
        if rng.chance(80) {
            o.functions.push(Fun { section, address, offset: address, slots: vec![EXIT; slots], ..Fun::default() });
        }
    }
    Some(())
}

/// 3, 4, 5, 10, each once.
const REFUSALS: [Spoiler; 7] = [
    unknown_symbol,
    |rng, o| {
        let (f, k) = find(rng, o, is_relocated)?;
        let (section, offset) = (o.functions[f].section, o.functions[f].offset + 8 * k as u64);
        let row = o.relocations.remove(&(section, offset))?;
        o.relocations.insert((section, offset + rng.between(1, 7)), row);
        Some(())
    },
    |rng, o| {
        let (f, k) = find(rng, o, is_data)?;
        let s = symbol(o, &o.functions[f], k)?;
        o.maps.retain(|m| m.symbol != s.index && m.section != s.section);
        Some(())
    },
    |rng, o| {
        // a symbol of a section without a map, on one more wide load
        let (f, _) = find(rng, o, |_, _, k| k == 0)?;
        let index = unused(o);
        let (section, address) = (rng.pick(&[22, 65_535]), rng.below(99));
        let kind = rng.pick(&[OTHER, SECTION]);
        o.symbols.push(Symbol { index, section, address, kind });
        let k = o.functions[f].slots.len();
        let at = (o.functions[f].section, o.functions[f].offset + 8 * k as u64);
        let free = !o.functions.iter().any(|g| g.section == at.0 && (g.offset..g.offset + 16).contains(&at.1));
        if !free || o.relocations.contains_key(&at) {
            return None;
        }
        o.functions[f].slots.extend([insn(0x18, 1, 0, 3), insn(0, 0, 0, 0)]);
        o.relocations.insert(at, (index, 64));
        Some(())
    },
    |rng, o| {
        let (f, k) = find(rng, o, |o, f, k| is_root(o, f) && is_free_call(o, f, k)).or_else(|| find(rng, o, is_free_call))?;
        let value = rng.pick(&[i32::MIN, -5, 1000, i32::MAX - 1, immediate(&o.functions[f].slots[k]).wrapping_add(40)]);
        o.functions[f].slots[k] = call(value);
        Some(())
    },
    |rng, o| {
        let (f, k) = find(rng, o, |o, f, k| is_relocated(o, f, k) && !is_data(o, f, k))?;
        let s = symbol_mut(o, f, k)?;
        s.address ^= rng.pick(&[1, 8, 64, 1 << 40]);
        Some(())
    },
    |rng, o| {
        let k = o.functions[o.root].slots.iter().position(|s| *s == EXIT || *s == MOVE)?;
        let root = o.root;
        o.functions[root].slots[k] = call(rng.pick(&[-9, 77, i32::MIN, i32::MAX - 1]));
        Some(())
    },
];

/// 6, 7, 8, 9, 12.
const ADDED: [Spoiler; 10] = [
    |rng, o| {
        let (f, k) = find(rng, o, is_data_load)?;
        let bit = rng.below(4) as usize;
        o.functions[f].slots[k + 1][bit] = 1;
        Some(())
    },
    |rng, o| {
        let (f, k) = find(rng, o, is_data_load)?;
        o.functions[f].slots[k][0] = rng.pick(&[0xb7, 0x95, 0x19, 0x85]);
        Some(())
    },
    |rng, o| {
        // the last slot of a function
        let symbol = o.symbols.iter().find(|s| [20, 21].contains(&s.section))?.index;
        let (f, k) = find(rng, o, |o, f, k| k + 1 == f.slots.len() && relocation(o, f, k).is_none() && !tables::is_call(&f.slots[k]))?;
        set_relocation(o, f, k, (symbol, 64));
        o.functions[f].slots[k][0] = rng.pick(&[0x18, 0x95]);
        Some(())
    },
    |rng, o| {
        let (f, k) = find(rng, o, is_reference)?;
        if rng.chance(50) {
            o.functions[f].slots[k][0] = 0xb7
        } else {
            o.functions[f].slots[k + 1][0] = 1
        }
        Some(())
    },
    |rng, o| {
        let (f, k) = find(rng, o, is_data_load)?;
        let value = rng.pick(&[i32::MAX, i32::MAX - 1, 0, -1]);
        symbol_mut(o, f, k)?.address = rng.pick(&[1, 2, 1 << 31, (1 << 31) + 1, 1 << 40]);
        o.functions[f].slots[k] = insn(0x18, 1, 0, value);
        Some(())
    },
    |rng, o| {
        let (f, k) = find(rng, o, |o, f, k| symbol(o, f, k).is_some_and(|s| s.kind == SECTION && o.code.contains(&s.section)))?;
        let index = relocation(o, &o.functions[f], k)?.0;
        set_relocation(o, f, k, (index, rng.pick(&[0, 16, 31, 33, 63, 65, 255])));
        Some(())
    },
    |rng, o| {
        let (f, k) = find(rng, o, |o, f, k| symbol(o, f, k).is_some_and(|s| o.code.contains(&s.section)))?;
        symbol_mut(o, f, k)?.kind = OTHER;
        Some(())
    },
    |rng, o| {
        let (f, k) = find(rng, o, |o, f, k| symbol(o, f, k).is_some_and(|s| s.kind == TEXT))?;
        symbol_mut(o, f, k)?.section = NONE;
        Some(())
    },
    |rng, o| {
        let symbol = o.symbols.iter().find(|s| [20, 21, NONE].contains(&s.section) && s.kind != TEXT)?.index;
        let (f, k) = find(rng, o, |_, f, k| tables::is_call(&f.slots[k]))?;
        set_relocation(o, f, k, (symbol, 32));
        Some(())
    },
    |rng, o| {
        let lined: Vec<_> = (0..o.functions.len()).filter(|&f| o.functions[f].lines.len() > 1).collect();
        if lined.is_empty() {
            return None;
        }
        let f = &mut o.functions[rng.pick(&lined)];
        let last = f.lines.len() - 1;
        f.lines[last][0] = f.lines[0][0].wrapping_add_signed(rng.pick(&[f.slots.len() as i32, -1, 5000]));
        Some(())
    },
];

/// A clause of the domain each.
const CLAUSES: [Spoiler; 10] = [
    wraps_to_another,
    // two refusable relocations
    |rng, o| {
        let (f, k) = find(rng, o, |o, f, k| is_relocated(o, f, k) && f.slots.len() > 1)?;
        let index = unused(o);
        set_relocation(o, f, k, (index, 64));
        let (section, offset) = (o.functions[f].section, o.functions[f].offset);
        let at = offset + rng.below(8 * o.functions[f].slots.len() as u64);
        o.relocations.insert((section, at), (index + 1, 64));
        Some(())
    },
    // kind Text outside table 1, with and without a map
    |rng, o| {
        let (f, k) = find(rng, o, is_data)?;
        let s = symbol_mut(o, f, k)?;
        s.kind = TEXT;
        let (index, section) = (s.index, s.section);
        if rng.chance(50) {
            o.maps.retain(|m| m.symbol != index && m.section != section);
        }
        Some(())
    },
    maps_with_symbols,
    // the same, and another function refused before it is come to
    |rng, o| maps_with_symbols(rng, o).and_then(|()| unknown_symbol(rng, o)),
    |rng, o| {
        let (f, k) = find(rng, o, |o, f, k| symbol(o, f, k).is_some_and(|s| s.section == 21))?;
        let (from, to) = (symbol(o, &o.functions[f], k)?.index, unused(o) + 100);
        o.maps.iter_mut().find(|m| m.symbol == from)?.symbol = to;
        Some(())
    },
    // a map without a symbol, and another
    |rng, o| {
        let section = o.maps.iter().find(|m| m.symbol == NONE)?.section;
        let symbol = unused(o) + 100;
        let at = rng.below(o.maps.len() as u64 + 1) as usize;
        let data = rng.below(2) as u8;
        o.maps.insert(at, Map { section, symbol, fd: 606, data });
        Some(())
    },
    // immediate 2,147,483,647 in a call: the function that it means stands 2^34 on
    |rng, o| {
        let (f, k) = find(rng, o, |o, f, k| is_free_call(o, f, k) || f.slots[k] == EXIT && relocation(o, f, k).is_none())?;
        let (section, offset) = (o.functions[f].section, o.functions[f].offset + 8 * k as u64);
        o.functions[f].slots[k] = call(i32::MAX);
        if rng.chance(80) {
            let exact = Fun { section, address: offset + (1 << 34), offset: offset + (1 << 34), slots: vec![EXIT], ..Fun::default() };
            o.functions.push(exact);
        }
        Some(())
    },
    // the same by a Section symbol of size 32, and by one of size 64
    |rng, o| {
        let (f, k) = find(rng, o, |o, f, k| symbol(o, f, k).is_some_and(|s| s.kind == SECTION && o.code.contains(&s.section)))?;
        let s = symbol(o, &o.functions[f], k)?;
        let size = if rng.chance(80) { 32 } else { 64 };
        let target = s.address + if size == 32 { 1 << 34 } else { (1 << 31) - 1 };
        set_relocation(o, f, k, (s.index, size));
        o.functions[f].slots[k][4..].copy_from_slice(&i32::MAX.to_le_bytes());
        o.functions.push(Fun { section: s.section, address: target, offset: (1 << 34) + 8, slots: vec![EXIT], ..Fun::default() });
        Some(())
    },
    // a call by a Text symbol with that immediate
    |rng, o| {
        let (f, k) = find(rng, o, |o, f, k| symbol(o, f, k).is_some_and(|s| s.kind == TEXT))?;
        o.functions[f].slots[k][4..].copy_from_slice(&i32::MAX.to_le_bytes());
        Some(())
    },
];

fn spoil(rng: &mut Rng, o: &mut Object, ways: &[Spoiler]) {
    for _ in 0..4 {
        let way = ways[rng.below(ways.len() as u64) as usize];
        if way(rng, o).is_some() {
            return;
        }
    }
}

/// Bytes changed, rows swapped, dropped, doubled or cut.
fn damage(rng: &mut Rng, case: &mut Case) {
    let tables: Vec<usize> = (0..8).filter(|&n| !case.bytes[n].is_empty()).collect();
    let n = rng.pick(&tables);
    let (t, size) = (&mut case.bytes[n], ROW_SIZE[n]);
    let rows = t.len() / size;
    let row = rng.below(rows as u64) as usize * size;
    match rng.below(10) {
        0..6 => t[row + rng.below(size as u64) as usize] ^= rng.pick(&[1, 2, 4, 8, 16, 64, 128, 255]),
        6 => {
            let other = rng.below(rows as u64) as usize * size;
            (0..size).for_each(|i| t.swap(row + i, other + i));
        }
        7 => drop(t.drain(row..row + size)),
        8 => {
            let copy = t[row..row + size].to_vec();
            t.extend(copy);
        }
        _ => t.truncate(t.len() - rng.between(1, size as u64 - 1) as usize),
    }
}

// ---- at the limits

fn chain(functions: usize, slots: usize, calls_root: bool) -> Object {
    let mut o = Object { code: vec![1], ..Object::default() };
    for f in 0..functions {
        let offset = 8 * (f * slots) as u64;
        let mut fun = Fun { section: 1, address: offset, offset, slots: vec![EXIT; slots], funcs: vec![[0, f as u32]], ..Fun::default() };
        if f + 1 < functions {
            fun.slots[0] = call(slots as i32 - 1);
        } else if calls_root {
            fun.slots[0] = call(-((functions - 1) as i32 * slots as i32) - 1);
        }
        fun.lines = vec![[3, 1, f as u32, 0]];
        o.functions.push(fun);
    }
    o
}

/// Two functions of so many slots, function records and line records, the first calling the second where `calls` says so.
fn two(slots: [usize; 2], funcs: [usize; 2], lines: [usize; 2], calls: bool) -> Object {
    let mut o = Object { code: vec![1], ..Object::default() };
    for i in 0..2 {
        let offset = 8 * (i * slots[0]) as u64;
        let funcs = vec![[0, 7]; funcs[i]];
        let lines = (0..lines[i]).map(|k| [(k % slots[i]) as u32, 1, k as u32, 2]).collect();
        o.functions.push(Fun { section: 1, address: offset, offset, slots: vec![MOVE; slots[i]], funcs, lines });
    }
    if calls {
        o.functions[0].slots[0] = call(slots[0] as i32 - 1);
    }
    o
}

/// The highest numbers that fields hold, or one of them passed.
fn at_edges(rng: &mut Rng) -> Object {
    let past = rng.below(10);
    let more = |which: u64, n: u64| if past == which { n + 1 } else { n };
    let section = more(0, 65_535) as u32;
    let index = more(1, 0xffff_fffe) as u32;
    let last = TOP - 7;
    let code = vec![section];
    let symbols = vec![Symbol { index, section, address: more(2, TOP), kind: TEXT }];
    let mut relocations = BTreeMap::new();
    relocations.insert((section, more(3, last)), (index, 32));
    let slots = if past == 4 { 4097 } else { rng.pick(&[1, 2, 4096]) };
    let caller = Fun { section, address: 0, offset: if past == 5 { TOP + 1 } else { last }, slots: vec![call(-1)], ..Fun::default() };
    let callee = Fun { section, address: more(2, TOP), offset: last - 8 * slots as u64, slots: vec![EXIT; slots], ..Fun::default() };
    Object { code, symbols, relocations, functions: vec![caller, callee], ..Object::default() }
}

fn at_limits(rng: &mut Rng) -> Object {
    match rng.below(18) {
        0 => two([4096, 1], [0; 2], [0; 2], false),
        1 => two([2048, 2048], [1; 2], [5; 2], true),
        2 => two([2048, 2049], [1; 2], [5; 2], true),
        3 => chain(64, 2, true),
        4 => chain(63, 65, false),
        5 => chain(65, 2, true),
        6 => two([3, 3], [128, 128], [1; 2], true),
        7 => two([3, 3], [128, 129], [1; 2], true),
        8 => two([4, 4], [1; 2], [2048, 2048], true),
        9 => two([4, 4], [1; 2], [2048, 2049], true),
        10 => two([4096, 4096], [0; 2], [0; 2], false),
        11 => chain(64, 64, false),
        12 => two([4095, 2], [256, 0], [4095, 1], rng.chance(50)),
        13 => two([4096, 4096], [256, 0], [0, 4096], false),
        _ => at_edges(rng),
    }
}

/// A table filled to its most rows, or past them by a row or a part of one.
fn filled(rng: &mut Rng, mut o: Object) -> Case {
    let past = rng.below(2) as usize;
    let n = rng.pick(&[0, 1, 3, 4]);
    let most = MOST_ROWS[n] + past;
    let next = o.symbols.iter().map(|s| s.index + 1).max().unwrap_or(0);
    match n {
        0 => o.code.extend((100..).take(most - o.code.len())),
        1 => o.symbols.extend((next..).take(most - o.symbols.len()).map(|index| Symbol { index, section: 300, address: 8, kind: OTHER })),
        3 => (0..most - o.relocations.len()).for_each(|i| _ = o.relocations.insert((500, i as u64), (1, 64))),
        _ => o.maps.extend((900..).take(most - o.maps.len()).map(|section| Map { section, symbol: NONE, fd: 1, data: 1 })),
    }
    let mut case = bare(o);
    if past == 1 && rng.chance(50) {
        let part = rng.between(1, ROW_SIZE[n] as u64 - 1) as usize;
        case.bytes[n].truncate(MOST_ROWS[n] * ROW_SIZE[n] + part);
    }
    case
}

/// Tables 6 to 8 past their most rows.
fn overfull(rng: &mut Rng, o: Object) -> Case {
    let mut case = bare(o);
    let n = rng.pick(&[5, 6, 7]);
    case.bytes[n].resize(MOST_ROWS[n] * ROW_SIZE[n] + rng.between(1, ROW_SIZE[n] as u64) as usize, 0);
    case
}

// ---- cases

fn bare(o: Object) -> Case {
    let (rows, root) = o.rows();
    let room = [16 * rows.slots.len(), 16 * rows.funcs.len(), 32 * rows.lines.len()];
    let room = [room[0].min(8 * 4096 + 8), room[1].min(8 * 256 + 8), room[2].min(16 * 4096 + 16)];
    Case { kind: 0, bytes: rows.bytes(), root, room, root_nums: (0, 0), other_nums: (0, 0), order: 0, steps: Steps::MapsThenCalls }
}

/// Outputs that are too short in one place, or just long enough.
fn shorten(rng: &mut Rng, case: &mut Case) {
    let rows = Rows::of(&case.bytes);
    if let Some(used) = domain::say(case, &rows).link.filter(|l| l.number == 0).map(|l| l.places.map(|n| n as usize)) {
        let size = [8, 8, 16];
        case.room = [0, 1, 2].map(|i| used[i] * size[i]);
        let i = rng.below(3) as usize;
        if case.room[i] > 0 {
            case.room[i] -= rng.pick(&[0, 1, 7, 8]).min(case.room[i]);
        }
    } else {
        case.room = [0; 3];
    }
}

fn spoiled(rng: &mut Rng, layout: Layout, times: u64, ways: &[Spoiler]) -> Case {
    let mut o = clean(rng, &layout);
    for _ in 0..times {
        spoil(rng, &mut o, ways);
    }
    bare(o)
}

pub fn case(rng: &mut Rng) -> Case {
    let mut kind = 0;
    let mut at = rng.below(KINDS.iter().map(|k| k.1).sum());
    while at >= KINDS[kind].1 {
        at -= KINDS[kind].1;
        kind += 1;
    }
    let mut case = of_kind(rng, KINDS[kind].0);
    case.kind = kind;
    // what the crate holds and no table says, inside the domain: others' `num_info`, and the order of the maps
    case.order = rng.next();
    if rng.chance(10) {
        case.other_nums = (rng.next() as i32, rng.next() as i32);
    }
    let more = |rng: &mut Rng| if rng.chance(70) { 0 } else { rng.below(50) as usize };
    if KINDS[kind].0 != "short outputs" {
        case.room = case.room.map(|n| n + more(rng));
    }
    case
}

fn of_kind(rng: &mut Rng, kind: &str) -> Case {
    let plain = Layout::default;
    let all: Vec<Spoiler> = REFUSALS.into_iter().chain(ADDED).chain(CLAUSES).collect();
    match kind {
        "plain" => spoiled(rng, plain(), 0, &all),
        "far addresses" => spoiled(rng, Layout { far: true, ..plain() }, 0, &all),
        "one refusal of 3, 4, 5, 10" => spoiled(rng, plain(), 1, &REFUSALS),
        "one added refusal" => spoiled(rng, plain(), 1, &ADDED),
        "one clause broken" => spoiled(rng, plain(), 1, &CLAUSES),
        "twins" => spoiled(rng, Layout { twins: true, ..plain() }, 0, &all),
        "overlapping functions" => spoiled(rng, Layout { overlap: true, ..plain() }, 0, &all),
        "odd in several ways" => {
            let layout = Layout { twins: rng.chance(20), far: rng.chance(20), overlap: rng.chance(20) };
            let times = rng.between(2, 5);
            spoiled(rng, layout, times, &all)
        }
        "at the limits" => limits(rng),
        _ => {
            let times = if matches!(kind, "damaged" | "calls without maps") { rng.below(2) } else { 0 };
            let ways = if kind == "damaged" { &all[..] } else { &REFUSALS[..1] };
            let mut case = spoiled(rng, plain(), times, ways);
            change(rng, kind, &mut case);
            case
        }
    }
}

/// What is not said by rows: bytes, the root, outputs, `num_info`, steps.
fn change(rng: &mut Rng, kind: &str, case: &mut Case) {
    match kind {
        "damaged" => damage(rng, case),
        "num_info" => {
            let more = |rng: &mut Rng| rng.pick(&[0, 1, -1, 5]);
            case.root_nums = (more(rng), more(rng));
        }
        "short outputs" => shorten(rng, case),
        "no root" => case.root = rng.pick(&[case.bytes[2].len() as u32 / 32, 64, u32::MAX]),
        "calls without maps" => case.steps = Steps::CallsAlone,
        "linked twice" => case.steps = Steps::LinkedTwice,
        "two programs" => case.steps = Steps::TwoPrograms,
        _ => unreachable!("no such kind"),
    }
}

fn limits(rng: &mut Rng) -> Case {
    let way = rng.below(4);
    if way < 2 {
        return bare(at_limits(rng));
    }
    let o = clean(rng, &Layout::default());
    if way == 2 { filled(rng, o) } else { overfull(rng, o) }
}
