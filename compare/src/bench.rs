//! How long the two link steps take, in one run: `relocate_calls` and `barkruffle_link` on the same objects.
use std::{hint::black_box, time::Instant};

use crate::{
    ours,
    tables::{Case, EXIT, Function, MOVE, Relocation, Rows, SECTION, Steps, Symbol, call, insn},
    theirs,
};

const RUNS: usize = 401;
const LIMITS: [usize; 3] = [8 * 4096, 8 * 256, 16 * 4096];

/// A root that calls each other function once, by a relocation. With `full`, each function has a function record and a line record
/// for every second slot, and every tenth slot loads a map's value (already set) under a relocation that the link copies.
fn made(functions: u32, slots: u32, full: bool) -> Case {
    let each = (slots - functions) / functions;
    let first = slots - each * (functions - 1);
    let mut rows = Rows { code: vec![1], ..Rows::default() };
    rows.symbols.push(Symbol { index: 0, section: 1, address: 0, kind: SECTION });
    rows.symbols.push(Symbol { index: 1, section: 9, address: 0, kind: SECTION });
    let mut at = 0;
    for f in 0..functions {
        let n = if f == 0 { first } else { each };
        let lines = if full { n / 2 } else { 0 };
        let offset = 8 * u64::from(at);
        rows.functions.push(Function { section: 1, slots: n, address: offset, offset, funcs: u32::from(full), lines });
        for k in 0..n {
            let relocation = |symbol, size| Relocation { section: 1, symbol, offset: offset + 8 * u64::from(k), size };
            if f == 0 && k + 1 < functions {
                rows.slots.push(call((first + each * k) as i32 - 1));
                rows.relocations.push(relocation(0, 32));
            } else if full && k % 10 == 0 && k + 2 < n {
                rows.slots.push(insn(0x18, 0x11, 0, 7));
                rows.relocations.push(relocation(1, 64));
            } else if rows.slots.last().is_some_and(|s| s[0] == 0x18) {
                rows.slots.push(insn(0, 0, 0, 0));
            } else {
                rows.slots.push(if k + 1 == n { EXIT } else { MOVE });
            }
        }
        rows.funcs.extend((0..u32::from(full)).map(|_| [at, f]));
        rows.lines.extend((0..lines).map(|l| [at + 2 * l, 1, l, 0]));
        at += n;
    }
    let room = [8 * rows.slots.len(), 8 * rows.funcs.len(), 16 * rows.lines.len()];
    Case { kind: 0, bytes: rows.bytes(), root: 0, room, root_nums: (0, 0), other_nums: (0, 0), order: 0, steps: Steps::CallsAlone }
}

fn median(times: &mut [f64]) -> f64 {
    times.sort_by(f64::total_cmp);
    times[times.len() / 2]
}

fn ours_time(case: &Case, out: &mut [Vec<u8>; 3]) -> f64 {
    let mut places = [0; 12];
    let start = Instant::now();
    let number = ours::link_into(black_box(&case.bytes), &case.bytes[5], case.root, out, &mut places);
    let time = start.elapsed().as_secs_f64() * 1e6;
    assert_eq!(number, 0);
    time
}

fn row(functions: u32, slots: u32, full: bool) {
    let case = made(functions, slots, full);
    let rows = Rows::of(&case.bytes);
    let (mut object, text) = theirs::object(&case, &rows);
    let key = (1, 0);
    let root = object.functions[&key].clone();
    let (mut sized, mut limits) = (case.room.map(|n| vec![0; n]), LIMITS.map(|n| vec![0; n]));
    let mut times = [const { Vec::new() }; 3];
    for _ in 0..RUNS {
        // the step leaves the linked program in the root's place: the root is put back outside the timed part
        object.functions.insert(key, root.clone());
        let start = Instant::now();
        let done = black_box(&mut object).relocate_calls(black_box(&text));
        times[0].push(start.elapsed().as_secs_f64() * 1e6);
        assert!(done.is_ok());
        times[1].push(ours_time(&case, &mut sized));
        times[2].push(ours_time(&case, &mut limits));
    }
    let linked: Vec<u8> = object.functions[&key].instructions.iter().flat_map(theirs::slot_of).collect();
    assert!(linked == sized[0] && object.functions[&key].line_info.line_info_bytes() == sized[2], "the two images are equal");
    let [theirs, sized, limits] = [0, 1, 2].map(|i| median(&mut times[i]));
    println!(
        "{slots:6} {functions:9} {:11} {:8} {:6} {theirs:10.1} {sized:10.1} {:7.2} {limits:10.1} {:7.2}",
        rows.relocations.len(),
        rows.funcs.len(),
        rows.lines.len(),
        sized / theirs,
        limits / theirs
    );
}

pub fn run() {
    println!(
        "The link step, medians of {RUNS} runs in µs. The crate: all of relocate_calls (the root cloned, vectors grown, the result put"
    );
    println!("back); its object is built, and its root put back, outside the timed part. Ours: all of barkruffle_link (tables checked,");
    println!("outputs wiped); the tables are written outside the timed part. Outputs once as long as the image, once at the limits.");
    println!(
        "{:>6} {:>9} {:>11} {:>8} {:>6} {:>10} {:>10} {:>7} {:>10} {:>7}",
        "slots", "functions", "relocations", "funcs", "lines", "crate", "ours", "ratio", "at limits", "ratio"
    );
    for full in [false, true] {
        for slots in [1000, 4000] {
            for functions in [10, 60] {
                row(functions, slots, full);
            }
        }
    }
}
