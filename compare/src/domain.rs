//! Document 01's "Domain of equality with the Rust" as a predicate, clause by clause, with the readings of docs/DECISIONS.md.
//! It is that of the theorem `demand-2`: of "no relocation finds its map by section where only maps with symbols stand" nothing is
//! needed (docs/DIFFERENCES.md, finding 1), so objects that break that clause alone are inside here, and are compared.
use crate::{
    literal,
    ours::{Linked, Mapped},
    tables::{Case, NONE, Relocation, Rows, Steps, TEXT, immediate, is_call, is_code, symbol_of},
};

/// The causes that put an object outside.
pub const CAUSES: [&str; 21] = [
    "1: too many rows",
    "2: a broken row",
    "13: no root",
    "6 in the map step",
    "7: value outside i32",
    "6 in the link",
    "8: form unknown",
    "9: call names no code",
    "11: no room",
    "12: line record outside",
    "two refusable relocations",
    "5, kind Text",
    "5, a map has the section",
    "a map without symbol not alone",
    "top immediate in a call",
    "top immediate, size-32 reference",
    "reached callees of one address",
    "num_info of the root",
    "calls without maps first",
    "linked twice",
    "another program beside the root",
];

fn cause(name: &str) -> usize {
    CAUSES.iter().position(|c| c.starts_with(name)).expect("a cause")
}

fn of_number(number: u32, link: bool) -> Option<usize> {
    match number {
        6 if link => Some(cause("6 in the link")),
        6 => Some(cause("6 in the map")),
        1 | 2 | 7 | 8 | 9 | 11 | 12 | 13 => Some(cause(&format!("{number}:"))),
        _ => None,
    }
}

/// What document 01 says of an object, by the literal model, and why it is outside the domain, if it is.
pub struct Said {
    pub maps: Mapped,
    /// Where the map step is accepted.
    pub link: Option<Linked>,
    pub reached: Vec<usize>,
    pub outside: Vec<usize>,
    /// "no relocation finds its map by section where only maps with symbols stand" is broken.
    pub spare_clause: bool,
}

impl Said {
    pub fn inside(&self) -> bool {
        self.outside.is_empty()
    }
}

pub fn say(case: &Case, rows: &Rows) -> Said {
    let alone = case.steps == Steps::CallsAlone;
    let maps = if alone { without_maps(case) } else { literal::relocate_maps(&case.bytes) };
    let (link, reached) = (maps.number == 0).then(|| literal::link(case, &maps.slots)).unzip();
    let mut said = Said { maps, link, reached: reached.unwrap_or_default(), outside: Vec::new(), spare_clause: false };
    // "Maps first, then calls; the root is the only program": linked once
    match case.steps {
        Steps::MapsThenCalls => {}
        Steps::CallsAlone => said.outside.push(cause("calls without")),
        Steps::LinkedTwice => said.outside.push(cause("linked twice")),
        Steps::TwoPrograms => said.outside.push(cause("another")),
    }
    // "Valid tables in our limits": neither 1 nor 2 nor 13, of both steps
    let invalid = [said.maps.number, literal::check_link(&case.bytes, case.root)].into_iter().find(|n| matches!(n, 1 | 2 | 13));
    if let Some(number) = invalid {
        said.outside.push(of_number(number, false).unwrap());
        return said;
    }
    if !alone {
        map_clauses(case, rows, &mut said);
    }
    if let Some(link) = &said.link {
        // "no refusal but 3, 4, 5, 10"
        said.outside.extend(of_number(link.number, true));
        let slots = said.maps.slots.chunks_exact(8).map(|s| s.try_into().unwrap()).collect();
        call_clauses(case, &Rows { slots, ..rows.clone() }, &mut said);
    }
    said
}

/// "Calls alone": no map step, table 6 as it is.
pub fn without_maps(case: &Case) -> Mapped {
    Mapped { number: 0, places: [0; 3], slots: case.bytes[5].clone() }
}

fn map_clauses(case: &Case, rows: &Rows, said: &mut Said) {
    // "a section with a map without a symbol has no other map"
    let shares = |i: usize| rows.maps.iter().enumerate().any(|(j, m)| i != j && m.section == rows.maps[i].section);
    if (0..rows.maps.len()).any(|i| rows.maps[i].symbol == NONE && shares(i)) {
        said.outside.push(cause("a map without"));
    }
    let each = |row: usize| (0..rows.relocations.len()).filter_map(move |k| literal::refuses(&case.bytes, row, k).map(|n| (k, n)));
    let by_symbol_maps = |k: usize| finds_by_symbol_maps(rows, &rows.relocations[k]);
    said.spare_clause = (0..rows.functions.len()).any(|row| each(row).any(|(k, number)| number == 5 && by_symbol_maps(k)));
    if said.maps.number == 0 {
        return;
    }
    // "no refusal but 3, 4, 5, 10"
    said.outside.extend(of_number(said.maps.number, false));
    // "the function refused by the map step has one refusable relocation"
    let refused: Vec<_> = each(said.maps.places[0] as usize).collect();
    if refused.len() > 1 {
        said.outside.push(cause("two refusable"));
    }
    // "5 only where the kind is not Text and no map has the section"
    for symbol in refused.iter().filter(|(_, number)| *number == 5).filter_map(|&(k, _)| symbol_of(rows, &rows.relocations[k])) {
        if symbol.kind == TEXT {
            said.outside.push(cause("5, kind"));
        }
        if rows.maps.iter().any(|m| m.section == symbol.section) {
            said.outside.push(cause("5, a map"));
        }
    }
    said.outside.sort_unstable();
    said.outside.dedup();
}

fn finds_by_symbol_maps(rows: &Rows, r: &Relocation) -> bool {
    symbol_of(rows, r).is_some_and(|s| {
        let here = || rows.maps.iter().filter(|m| m.section == s.section);
        s.kind != TEXT && here().next().is_some() && here().all(|m| m.symbol != NONE)
    })
}

fn call_clauses(case: &Case, after: &Rows, said: &mut Said) {
    // "no call or size-32 code reference with immediate 2,147,483,647", over all of the tables that the map step leaves
    let (mut call, mut reference) = (false, false);
    for (f, (slots, _, _)) in after.functions.iter().zip(after.parts()) {
        for (k, slot) in slots.iter().enumerate().filter(|(_, s)| immediate(s) == i32::MAX) {
            call |= is_call(slot);
            let here = f.offset + 8 * k as u64;
            let relocation = after.relocations.iter().find(|r| r.section == f.section && r.offset == here && r.size == 32);
            reference |= relocation.and_then(|r| symbol_of(after, r)).is_some_and(|s| is_code(after, s.section));
        }
    }
    if call {
        said.outside.push(cause("top immediate in"));
    }
    if reference {
        said.outside.push(cause("top immediate, size"));
    }
    // "reached callees differ in address"
    let address = |row: usize| after.functions[row].address;
    if said.reached.iter().any(|&a| said.reached.iter().any(|&b| a != b && address(a) == address(b))) {
        said.outside.push(cause("reached"));
    }
    // "`num_info` is the record count": the root's; no other is read
    if case.root_nums != (0, 0) {
        said.outside.push(cause("num_info"));
    }
}
