//! The smallest object that still does something, and its rows in words.
use crate::tables::{Case, EXIT, NONE, Rows, Steps};

/// The case with other rows.
fn with(case: &Case, rows: &Rows, root: u32) -> Case {
    Case { bytes: rows.bytes(), root, ..case.clone() }
}

fn without_function(rows: &Rows, row: usize) -> Rows {
    let mut out = Rows { functions: Vec::new(), slots: Vec::new(), funcs: Vec::new(), lines: Vec::new(), ..rows.clone() };
    for (i, (f, (slots, funcs, lines))) in rows.functions.iter().zip(rows.parts()).enumerate() {
        if i != row {
            out.functions.push(f.clone());
            out.slots.extend_from_slice(slots);
            out.funcs.extend_from_slice(funcs);
            out.lines.extend_from_slice(lines);
        }
    }
    out
}

/// The rows with one function's parts changed.
fn with_parts(rows: &Rows, row: usize, slots: usize, funcs: usize, lines: usize) -> Rows {
    let mut out = Rows { slots: Vec::new(), funcs: Vec::new(), lines: Vec::new(), ..rows.clone() };
    for (i, (s, f, l)) in rows.parts().into_iter().enumerate() {
        let keep = |all: usize, n: usize| if i == row { n } else { all };
        out.slots.extend_from_slice(&s[..keep(s.len(), slots)]);
        out.funcs.extend_from_slice(&f[..keep(f.len(), funcs)]);
        out.lines.extend_from_slice(&l[..keep(l.len(), lines)]);
    }
    out.functions[row].slots = slots as u32;
    out.functions[row].funcs = funcs as u32;
    out.functions[row].lines = lines as u32;
    out
}

/// Cases that are a little smaller than this one.
fn smaller(case: &Case) -> Vec<Case> {
    let rows = Rows::of(&case.bytes);
    let root = case.root;
    let mut out = Vec::new();
    for row in (0..rows.functions.len()).filter(|&r| r != root as usize) {
        out.push(with(case, &without_function(&rows, row), root - u32::from(row < root as usize)));
    }
    for (row, (s, f, l)) in rows.parts().into_iter().enumerate() {
        let (s, f, l) = (s.len(), f.len(), l.len());
        let mut cut = |s, f, l| out.push(with(case, &with_parts(&rows, row, s, f, l), root));
        if s > 1 {
            cut(s - 1, f, l);
            cut(s.div_ceil(2), f, l);
        }
        if f > 0 {
            cut(s, 0, l);
        }
        if l > 0 {
            cut(s, f, 0);
            cut(s, f, l - 1);
        }
    }
    let mut drop_row = |change: &dyn Fn(&mut Rows)| {
        let mut fewer = rows.clone();
        change(&mut fewer);
        out.push(with(case, &fewer, root));
    };
    (0..rows.relocations.len()).for_each(|i| drop_row(&|r| drop(r.relocations.remove(i))));
    (0..rows.symbols.len()).for_each(|i| drop_row(&|r| drop(r.symbols.remove(i))));
    (0..rows.maps.len()).for_each(|i| drop_row(&|r| drop(r.maps.remove(i))));
    (0..rows.code.len()).for_each(|i| drop_row(&|r| _ = r.code.remove(i)));
    for i in (0..rows.slots.len()).filter(|&i| rows.slots[i] != EXIT) {
        drop_row(&|r| r.slots[i] = EXIT);
    }
    out
}

/// Of the cases that pass, one from which nothing can be taken.
pub fn smallest(case: &Case, passes: impl Fn(&Case) -> bool) -> Case {
    let mut best = case.clone();
    while let Some(next) = smaller(&best).into_iter().find(|c| passes(c)) {
        best = next;
    }
    best
}

fn number(n: u32) -> String {
    if n == NONE { "none".to_string() } else { n.to_string() }
}

/// The rows of a case, in words.
pub fn words(case: &Case) -> String {
    let rows = Rows::of(&case.bytes);
    let mut out =
        format!("  root {}; outputs of {:?} bytes; steps {:?}; num_info off by {:?}\n", case.root, case.room, case.steps, case.root_nums);
    out += &format!("  code sections {:?}\n", rows.code);
    for s in &rows.symbols {
        out += &format!("  symbol {}: section {}, address {:#x}, kind {}\n", s.index, number(s.section), s.address, s.kind);
    }
    for r in &rows.relocations {
        out += &format!("  relocation: section {}, offset {:#x}, symbol {}, size {}\n", r.section, r.offset, r.symbol, r.size);
    }
    for m in &rows.maps {
        out += &format!("  map: section {}, symbol {}, fd {}, data {}\n", m.section, number(m.symbol), m.fd, m.data);
    }
    for (f, (slots, funcs, lines)) in rows.functions.iter().zip(rows.parts()) {
        out += &format!("  function: section {}, address {:#x}, section offset {:#x}, {} slots\n", f.section, f.address, f.offset, f.slots);
        for s in slots.iter().take(20) {
            out += &format!("    {}\n", s.map(|b| format!("{b:02x}")).join(" "));
        }
        if !funcs.is_empty() || !lines.is_empty() {
            out += &format!("    function records {funcs:?}, line records {:?}\n", &lines[..lines.len().min(8)]);
        }
    }
    if case.steps == Steps::CallsAlone {
        out += "  (no map step)\n";
    }
    out
}
