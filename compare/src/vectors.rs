//! A sample of the crate's own answers as cases of crates/replay: tools/cases.py says how a case and its line are laid out.
//! Every number, count and checksum of a line comes from the crate, or is fixed by document 01 where the crate has refused.
use std::{fs, path::Path};

use aya_obj::way_in::Endianness;

use crate::{
    both::Both,
    readers::{self, Input},
    rng::Rng,
    sample,
    tables::{Bytes, Case, Steps},
    theirs::{Ended, Image},
};

const MAGIC: u32 = 0x4b52_4142;

#[derive(Default)]
struct Cases {
    stream: Vec<u8>,
    lines: Vec<String>,
}

fn checksum(bytes: &[u8]) -> u32 {
    bytes.iter().fold(1, |s: u32, &b| s.wrapping_mul(31).wrapping_add(b.into()))
}

/// Bytes and zero after them.
fn padded(bytes: &[u8], length: usize) -> Vec<u8> {
    let mut out = bytes.to_vec();
    out.resize(length, 0);
    out
}

impl Cases {
    /// `words` are those after the magic number and the kind, up to the length of the place buffer.
    fn add(&mut self, kind: u32, mut words: Vec<u32>, body: &[u8], number: u32, places: &[u32], sums: &[u32]) {
        words.splice(0..0, [MAGIC, kind]);
        words.push(4 * places.len() as u32);
        words.resize(24, 0);
        self.stream.extend(words.iter().flat_map(|w| w.to_le_bytes()));
        self.stream.extend_from_slice(body);
        let hex: String = places.iter().flat_map(|p| p.to_le_bytes()).map(|b| format!("{b:02x}")).collect();
        let sums: Vec<String> = sums.iter().map(u32::to_string).collect();
        self.lines.push(format!("{} {kind} {number} | {hex} | {}", self.lines.len(), sums.join(" ")));
    }

    /// The crate says no places: of a refusal and of the map step none are asked for.
    fn map_step(&mut self, t: &Bytes, ended: &Ended<Vec<[u8; 8]>>) {
        let (number, slots) = match ended {
            Ended::Ok(slots) => (0, slots.concat()),
            // "no refusal touches it"
            Ended::Err(cause) => (cause.number(), t[5].clone()),
            Ended::Panic => unreachable!("a panic is no vector"),
        };
        let words = t.iter().map(|b| b.len() as u32).chain([0; 7]).collect();
        self.add(2, words, &t.concat(), number, &[], &[checksum(&slots)]);
    }

    fn link(&mut self, t: &Bytes, root: u32, room: [usize; 3], ended: &Ended<Image>) {
        let words = t.iter().map(|b| b.len() as u32).chain([root, 0, 0, 0]).chain(room.map(|n| n as u32)).collect();
        let (number, places, out) = match ended {
            Ended::Ok(i) => {
                (0, vec![i.slots.len() as u32, i.func_num, i.line_num], [i.slots.concat(), i.func_bytes.clone(), i.line_bytes.clone()])
            }
            // "A refused link has written zero everywhere in its outputs"
            Ended::Err(cause) => (cause.number(), vec![], Default::default()),
            Ended::Panic => unreachable!("a panic is no vector"),
        };
        let sums = [0, 1, 2].map(|i| checksum(&padded(&out[i], room[i])));
        self.add(1, words, &t.concat(), number, &places, &sums);
    }

    fn read(&mut self, i: &Input) {
        let (_, bytes, num) = readers::crate_reads(i, Endianness::Little).expect("the crate reads it");
        let words = [0; 9].into_iter().chain([i.size, i.count, i.data.len() as u32, i.room as u32, 0, 0]).collect();
        self.add(if i.line { 4 } else { 3 }, words, &i.data, 0, &[num, 0, 0], &[checksum(&padded(&bytes, i.room))]);
    }
}

/// Inside the domain: by what the object shows. Outside it: where the crate's answer is document 01's all the same.
fn sort(case: &Case, both: &Both) -> Option<String> {
    let small = case.bytes.iter().map(Vec::len).sum::<usize>() < 800 && case.room.iter().all(|&n| n < 2000);
    let steps =
        case.steps == Steps::MapsThenCalls && both.difference().is_none() && both.crate_ended() != "panic" && case.bytes[2].len() >= 32;
    let valid = !both.said.outside.iter().any(|&c| c < 3);
    // which of two refusals the crate meets first hangs on the order of a hash map
    let two = sample::causes(both).contains("two refusable");
    if !small || !steps || !valid || two {
        return None;
    }
    let r = &both.rows;
    let shown = (both.said.reached.len().min(3), r.relocations.len().min(3), r.maps.len().min(2), r.lines.len().min(1));
    let shown = if both.said.inside() { format!("{shown:?}") } else { sample::causes(both) };
    Some(format!("{} {shown}", both.number()))
}

pub fn write(folder: &Path, seed: u64) {
    let mut cases = Cases::default();
    let picked = sample::smallest_of(60_000, seed, 2, true, sort);
    let mut outside = 0;
    for (_, case) in &picked {
        let both = crate::both::run(case, None);
        outside += u32::from(!both.said.inside());
        cases.map_step(&case.bytes, &both.ran.maps);
        if let (Ended::Ok(slots), Some(calls)) = (&both.ran.maps, &both.ran.calls) {
            let mut t = case.bytes.clone();
            t[5] = slots.concat();
            cases.link(&t, case.root, case.room, calls);
        }
    }
    let mut rng = Rng::new(seed);
    let mut read = 0;
    while read < 40 {
        let input = readers::input(&mut rng);
        if readers::cause(&input).0 == readers::INSIDE && input.data.len() < 400 {
            cases.read(&input);
            read += 1;
        }
    }
    fs::create_dir_all(folder).unwrap();
    fs::write(folder.join("stdin"), &cases.stream).unwrap();
    fs::write(folder.join("stdout"), cases.lines.iter().map(|l| format!("{l}\n")).collect::<String>()).unwrap();
    println!(
        "compare: vectors of {} objects ({outside} outside the domain) and {read} record inputs: {} cases, {} bytes",
        picked.len(),
        cases.lines.len(),
        cases.stream.len()
    );
}
