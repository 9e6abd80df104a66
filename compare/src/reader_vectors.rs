//! A sample of the crate's own answers to record data as worked cases of the definition of its readers, crates/equality/specs/Info.antt.
use std::{collections::BTreeMap, fs, path::Path};

use aya_obj::way_in::Endianness;

use crate::{
    readers::{self, Input},
    rng::Rng,
};

const INPUTS: u64 = 400_000;
const GROUP: usize = 10;
const WIDTH: usize = 140;
const UNFOLDING: &str = "u32_at chunks read_at read_func_info read_line_info parse_func parse_line crate_func_info_bytes crate_line_info_bytes";

fn list(items: impl IntoIterator<Item = String>) -> String {
    let items: Vec<String> = items.into_iter().collect();
    if items.is_empty() { "[]".to_string() } else { format!("({} ∷ [])", items.join(" ∷ ")) }
}

/// A line of the file, cut into several between the items of its lists where it is long.
fn wrapped(line: &str) -> String {
    let mut out = String::new();
    let mut width = 0;
    for item in line.split_inclusive(" ∷ ") {
        let item_width = item.chars().count();
        if width + item_width > WIDTH {
            out.truncate(out.trim_end_matches("∷ ").trim_end().len());
            out += "\n        ∷ ";
            width = 10;
        }
        out += item;
        width += item_width;
    }
    out
}

/// An input of the readers, its byte offsets in either order.
fn input(rng: &mut Rng) -> (Input, Endianness) {
    let mut input = readers::input(rng);
    if input.size == 0 && rng.chance(50) {
        input.data = (0..input.row()).map(|_| rng.next() as u8).collect();
    }
    if rng.chance(50) {
        return (input, Endianness::Little);
    }
    let size = input.size.max(1) as usize;
    for offset in input.data.chunks_mut(size).filter_map(|record| record.get_mut(..4)) {
        offset.reverse();
    }
    (input, Endianness::Big)
}

/// Where an input stands in the readers' domain: inside, or outside it in one way. None where it is large, and of the data in
/// the other order only what that order is seen in.
fn sort(i: &Input, order: Endianness) -> Option<String> {
    let (row, size) = (i.row() as usize, i.size as usize);
    let chunks: Vec<&[u8]> = if size == 0 { Vec::new() } else { i.data.chunks(size).collect() };
    if i.data.len() > 3 * row + 12 {
        return None;
    }
    let low = |chunk: &[u8]| if order == Endianness::Little { chunk[0] } else { chunk[3] };
    let off_grid = chunks.iter().position(|c| c.len() >= row && low(c) & 7 != 0);
    let last = chunks.last().map_or(size, |c| c.len());
    let counted = i.count as usize == chunks.len();
    let data = if i.data.is_empty() { "no data" } else { "data" };
    let alone = if chunks.len() < 2 { "the only record" } else { "the last record" };
    let stands = match (size, off_grid) {
        (0, _) => format!("size 0, {data}"),
        _ if size < row => format!("a size below {}, {data}", if size < 4 { 4 } else { row }),
        (_, None) if last < row && counted => format!("{alone} cut to {}", if last < 4 { "less than 4 bytes" } else { "4 bytes or more" }),
        (_, None) if last < size && counted => format!("{alone} without all its tail"),
        (_, None) if last == size && !counted => {
            format!("a count that is too {}, {data}", if (i.count as usize) < chunks.len() { "small" } else { "large" })
        }
        (_, Some(k)) if last == size && counted => format!("off the grid, {}", if k == 0 { "the first record" } else { "a later record" }),
        (_, None) if last == size && counted => {
            let tail = if size > row && !chunks.is_empty() { ", with a tail" } else { "" };
            format!("inside, {}{tail}", ["no data", "one record", "records"][chunks.len().min(2)])
        }
        _ => return None,
    };
    let table = if i.line { "line" } else { "function" };
    match order {
        Endianness::Little => Some(format!("{table} records: {stands}")),
        Endianness::Big if stands.contains("record") && !stands.contains("cut") => Some(format!("{table} records, big: {stands}")),
        Endianness::Big => None,
    }
}

fn vector(i: &Input, order: Endianness) -> (String, String) {
    let bytes = |bytes: &[u8]| list(bytes.iter().map(u8::to_string));
    let step = if i.line { "lines" } else { "funcs" };
    let order_name = if order == Endianness::Little { "little" } else { "big" };
    let asked = format!("{step} {} {} {} {order_name}", i.count, i.size, bytes(&i.data));
    let answer = match readers::crate_reads(i, order) {
        Some((records, encoded, num)) => {
            let name = if i.line { "line" } else { "func" };
            let record = |r: &Vec<u32>| format!("{name} {}", r.iter().map(u32::to_string).collect::<Vec<_>>().join(" "));
            format!("{name}_info {num} {} {}", list(records.iter().map(record)), bytes(&encoded))
        }
        None => "panicked".to_string(),
    };
    (asked, answer)
}

const HEAD: &str = include_str!("reader_vectors.head");

pub fn write(file: &Path, seed: u64) {
    assert!(cfg!(target_endian = "little"), "the vectors say what a little-endian host encodes");
    let mut rng = Rng::new(seed);
    let mut sorts: BTreeMap<String, (Input, Endianness)> = BTreeMap::new();
    for _ in 0..INPUTS {
        let (input, order) = input(&mut rng);
        let Some(name) = sort(&input, order) else { continue };
        let smaller = sorts.get(&name).is_none_or(|(kept, _)| (input.data.len(), input.count) < (kept.data.len(), kept.count));
        if smaller {
            sorts.insert(name, (input, order));
        }
    }
    let picked: Vec<(String, (Input, Endianness))> = sorts.into_iter().collect();
    let mut out = HEAD.to_string();
    let mut panics = 0;
    for (n, group) in picked.chunks(GROUP).enumerate() {
        let (mut asked, mut answers) = (String::new(), String::new());
        for (name, (input, order)) in group {
            let (question, answer) = vector(input, *order);
            panics += u32::from(answer == "panicked");
            let cons = if asked.is_empty() { "" } else { "∷ " };
            asked += &format!("    -- {name}\n    {cons}{}\n", wrapped(&question));
            answers += &format!("    {cons}{}\n", wrapped(&answer));
        }
        out += &format!(
            "\nvectors_{0} : (\n{asked}    ∷ [])\n    ≡ (\n{answers}    ∷ [])\nunfolding {UNFOLDING}\nvectors_{0} = refl\n",
            n + 1
        );
    }
    fs::write(file, out).unwrap();
    let inside = picked.iter().filter(|(name, _)| name.contains("inside")).count();
    println!("compare: {} vectors of the readers, {inside} inside the domain, {panics} panics", picked.len());
}
