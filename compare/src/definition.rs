//! A sample of the crate's own answers as worked cases of the definition of its behaviour, crates/equality/specs/Crate.antt.
use std::{collections::BTreeSet, fs, path::Path};

use crate::{
    both::{self, Both},
    sample, shrink,
    tables::{Case, Map, NONE, Rows, SECTION, Slot, Steps, Symbol, TEXT, immediate, symbol_of},
    theirs::{self, Cause, Ended, Image},
};

const GROUP: usize = 10;

fn list(items: impl IntoIterator<Item = String>) -> String {
    let items: Vec<String> = items.into_iter().collect();
    if items.is_empty() { "[]".to_string() } else { format!("({} ∷ [])", items.join(" ∷ ")) }
}

fn integer(z: i64) -> String {
    if z < 0 { format!("(negsuc {})", -(z + 1)) } else { format!("(pos {z})") }
}

fn option(n: u32) -> String {
    if n == NONE { "none".to_string() } else { format!("(some {n})") }
}

fn insn(s: &Slot) -> String {
    let offset = i16::from_le_bytes([s[2], s[3]]).into();
    format!("insn {} {} {} {} {}", s[0], s[1] & 15, s[1] >> 4, integer(offset), integer(immediate(s).into()))
}

fn slots(list_of: &[Slot]) -> String {
    list(list_of.iter().map(insn))
}

fn funcs(records: &[[u32; 2]]) -> String {
    list(records.iter().map(|r| format!("func {} {}", r[0], r[1])))
}

fn lines(records: &[[u32; 4]]) -> String {
    list(records.iter().map(|r| format!("line {} {} {} {}", r[0], r[1], r[2], r[3])))
}

fn kind(k: u8) -> &'static str {
    match k {
        TEXT => "text",
        SECTION => "section",
        _ => "other",
    }
}

fn map_row(m: &Map) -> String {
    format!("map_row {} {} {} {}", m.section, option(m.symbol), integer(m.fd.into()), m.data == 1)
}

fn tables(rows: &Rows) -> String {
    let symbols = rows.symbols.iter().map(|s| format!("sym {} {} {} {}", s.index, option(s.section), s.address, kind(s.kind)));
    let functions =
        rows.functions.iter().map(|f| format!("fun {} {} {} {} {} {}", f.section, f.slots, f.address, f.offset, f.funcs, f.lines));
    let relocations = rows.relocations.iter().map(|r| format!("rel {} {} {} {}", r.section, r.symbol, r.offset, r.size));
    [
        list(rows.code.iter().map(u32::to_string)),
        list(symbols),
        list(functions),
        list(relocations),
        slots(&rows.slots),
        funcs(&rows.funcs),
        lines(&rows.lines),
    ]
    .join("\n    ")
}

/// Each function's `num_info`, by row.
fn nums(case: &Case, rows: &Rows) -> [String; 2] {
    let of = |row: usize, records: u32, pick: fn((i32, i32)) -> i32| {
        let nums = if row == case.root as usize { case.root_nums } else { case.other_nums };
        records.wrapping_add_signed(pick(nums)).to_string()
    };
    [
        list(rows.functions.iter().enumerate().map(|(row, f)| of(row, f.funcs, |n| n.0))),
        list(rows.functions.iter().enumerate().map(|(row, f)| of(row, f.lines, |n| n.1))),
    ]
}

/// The maps in the order in which the crate was given them.
fn maps(case: &Case, rows: &Rows) -> String {
    list(theirs::maps(case, rows).iter().map(|(fd, m)| {
        let symbol = m.symbol_index.map_or(NONE, |s| s as u32);
        map_row(&Map { section: m.section_index as u32, symbol, fd: *fd, data: u8::from(!m.data.is_empty()) })
    }))
}

fn error(cause: Cause) -> &'static str {
    match cause {
        Cause::UnknownSymbol => "errs unknown_symbol",
        Cause::SectionNotFound => "errs section_not_found",
        Cause::UnknownFunction => "errs unknown_function",
        Cause::UnknownProgram => "errs unknown_program",
        Cause::InvalidRelocationOffset => "errs invalid_relocation_offset",
    }
}

fn image(ended: &Ended<Image>) -> String {
    match ended {
        Ended::Ok(i) => format!("gives {} {} {} {} {}", slots(&i.slots), funcs(&i.funcs), i.func_num, lines(&i.lines), i.line_num),
        Ended::Err(cause) => error(*cause).to_string(),
        Ended::Panic => "panicked".to_string(),
    }
}

fn mapped(ended: &Ended<Vec<Slot>>) -> String {
    match ended {
        Ended::Ok(all) => format!("leaves {}", slots(all)),
        Ended::Err(cause) => error(*cause).to_string(),
        Ended::Panic => "panicked".to_string(),
    }
}

/// What the definition is asked, and the crate's answers: of the map step, and of both steps or of the link alone.
fn vector(case: &Case, both: &Both) -> (String, String) {
    let rows = &both.rows;
    let (section, address) = rows.functions.get(case.root as usize).map_or((65_536, 0), |f| (f.section, f.address));
    let [func_nums, line_nums] = nums(case, rows);
    let (step, first, last) = match (&both.ran.maps, &both.ran.calls) {
        (_, Some(calls)) if case.steps == Steps::CallsAlone => ("calls_alone", None, image(calls)),
        (Ended::Ok(_), Some(calls)) => ("steps", Some(mapped(&both.ran.maps)), image(calls)),
        (maps, _) => ("steps", Some(mapped(maps)), mapped(maps)),
    };
    let asked = format!("{step} (tables\n    {})\n    {func_nums} {line_nums}\n    {} {section} {address}", tables(rows), maps(case, rows));
    let answer = match first {
        Some(first) => format!("({first} ∷ {last} ∷ [])"),
        None => format!("({last} ∷ [])"),
    };
    (asked, answer)
}

/// Objects by how they are outside the domain and what then differs, or by what they show inside it.
fn sort(case: &Case, both: &Both) -> Option<String> {
    let rows = &both.rows;
    let small = rows.slots.len() <= 9 && rows.functions.len() <= 4 && rows.relocations.len() <= 4 && rows.symbols.len() <= 6;
    let steps = matches!(case.steps, Steps::MapsThenCalls | Steps::CallsAlone);
    let broken = both.said.outside.iter().any(|&c| c < 2);
    let two = sample::causes(both).contains("two refusable");
    if !small || !steps || broken || two || both.said.outside.len() > 1 {
        return None;
    }
    if !both.said.inside() {
        let difference = both.difference().unwrap_or("equal all the same".to_string());
        return Some(format!("{}{}: {difference}", sample::causes(both), form(both)));
    }
    Some(format!("inside, {}", inside(both)))
}

/// Which form it is that 8 does not know.
fn form(both: &Both) -> &'static str {
    let named = |test: fn(&Symbol) -> bool| both.rows.relocations.iter().filter_map(|r| symbol_of(&both.rows, r)).any(test);
    match both.number() {
        8 if named(|s| s.kind == TEXT && s.section == NONE) => " (Text without a section)",
        8 if named(|s| s.kind == SECTION) => " (a size)",
        8 => " (another kind)",
        _ => "",
    }
}

/// What an object inside the domain shows.
fn inside(both: &Both) -> String {
    let image = both.said.link.as_ref().map_or(&[][..], |l| &l.out[0]);
    let reference = image.chunks_exact(8).any(|s| s[0] == 0x18 && s[1] >> 4 == 4);
    let applied = both.said.maps.number == 0 && both.said.maps.places[0] > 0;
    let answer = if both.number() == 0 { "accepted".to_string() } else { format!("refused by {}", both.number()) };
    let reached = ["nothing reached", "one callee reached", "callees reached"][both.said.reached.len().min(2)];
    let shown = [
        (reference, "a reference"),
        (applied, "a map set"),
        (!both.rows.funcs.is_empty(), "function records"),
        (both.rows.lines.len() > 1, "line records"),
    ];
    let shown: String = shown.iter().filter(|(shows, _)| *shows).map(|(_, what)| format!(", {what}")).collect();
    format!("{answer}: {reached}{shown}")
}

const HEAD: &str = include_str!("definition.head");

/// The object of a sort; outside the domain, with nothing in it that the sort does without.
fn shown(name: &str, case: &Case) -> (Case, Both) {
    let inside = both::run(case, None).said.inside();
    let same = |c: &Case| {
        let both = both::run(c, None);
        sort(c, &both).as_deref() == Some(name) && sample::is_steady(c, &both)
    };
    let case = if inside { case.clone() } else { shrink::smallest(case, same) };
    let both = both::run(&case, None);
    (case, both)
}

pub fn write(file: &Path, seed: u64, per_sort: usize) {
    let picked = sample::smallest_of(500_000, seed, per_sort, true, sort);
    let sorts: BTreeSet<&String> = picked.iter().map(|(name, _)| name).collect();
    let unfolding = HEAD.lines().find_map(|l| l.strip_prefix("-- unfolding: ")).expect("the head names what is unfolded");
    let mut out: String = HEAD.lines().filter(|l| !l.starts_with("-- unfolding: ")).map(|l| format!("{l}\n")).collect();
    let (mut inside, mut panics) = (0, 0);
    for (n, group) in picked.chunks(GROUP).enumerate() {
        let (mut asked, mut answers) = (String::new(), String::new());
        for (name, case) in group {
            let (case, both) = shown(name, case);
            inside += u32::from(both.said.inside());
            panics += u32::from(both.crate_ended() == "panic");
            let (question, answer) = vector(&case, &both);
            let cons = if asked.is_empty() { "" } else { "∷ " };
            asked += &format!("    -- {name}\n    {cons}{question}\n");
            answers += &format!("    {cons}{answer}\n");
        }
        out += &format!(
            "\nvectors_{0} : (\n{asked}    ∷ [])\n    ≡ (\n{answers}    ∷ [])\nunfolding {unfolding}\nvectors_{0} = refl\n",
            n + 1
        );
    }
    fs::write(file, out).unwrap();
    println!("compare: {} vectors of {} sorts, {inside} inside the domain, {panics} panics", picked.len(), sorts.len());
}
