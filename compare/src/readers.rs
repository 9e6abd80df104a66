//! The record readers beside the crate's `parse`, and the encoded bytes beside its `func_info_bytes` and `line_info_bytes`.
use aya_obj::way_in::{self, Endianness};

use crate::{both::Bite, literal, ours::Info, rng::Rng, theirs::caught};

/// Why the crate and we may differ; the last is the domain.
pub const CAUSES: [&str; 6] =
    ["14: size too small", "14: size 0", "14: count and length", "14: offset off the grid", "11: output too short", "inside"];
pub const INSIDE: usize = 5;

pub struct Input {
    pub line: bool,
    pub size: u32,
    pub count: u32,
    pub data: Vec<u8>,
    pub room: usize,
}

pub fn input(rng: &mut Rng) -> Input {
    let line = rng.chance(50);
    let row = if line { 16 } else { 8 };
    let size = match rng.below(20) {
        0 => rng.below(row) as u32,
        1..4 => row as u32 + rng.below(20) as u32,
        _ => row as u32,
    };
    let count = rng.pick(&[0, 1, 1, 2, 3, 5, 9, 300]);
    let mut data: Vec<u8> = (0..size * count).map(|_| rng.next() as u8).collect();
    if size >= 4 {
        for record in data.chunks_mut(size as usize) {
            record[0] &= if rng.chance(2) { 0xff } else { 0xf8 };
        }
    }
    let count = match rng.below(20) {
        0 => count + 1,
        1 => rng.pick(&[0, u32::MAX, 0x2000_0000, 0x1000_0001]),
        _ => count,
    };
    if rng.chance(5) && !data.is_empty() {
        let cut = rng.between(1, (data.len() as u64).min(20)) as usize;
        data.truncate(data.len() - cut);
    }
    let need = count.min(400) as usize * row as usize;
    let room = if rng.chance(90) { need + rng.below(20) as usize } else { need.saturating_sub(rng.between(1, 9) as usize) };
    Input { line, size, count, data, room }
}

impl Input {
    pub fn row(&self) -> u32 {
        if self.line { 16 } else { 8 }
    }
}

/// The cause that puts an input outside, with the number that goes with it.
pub fn cause(i: &Input) -> (usize, u32) {
    let row = i.row();
    let off_grid = || i.data.chunks(i.size as usize).any(|r| r[0] & 7 != 0);
    if i.size == 0 {
        (1, 14)
    } else if i.size < row {
        (0, 14)
    } else if u64::from(i.size) * u64::from(i.count) != i.data.len() as u64 {
        (2, 14)
    } else if off_grid() {
        (3, 14)
    } else if (i.count * row) as usize > i.room {
        (4, 11)
    } else {
        (INSIDE, 0)
    }
}

/// What the crate reads: records, encoded bytes, `num_info`; none where it panics.
pub fn crate_reads(i: &Input, order: Endianness) -> Option<(Vec<Vec<u32>>, Vec<u8>, u32)> {
    caught(|| {
        if i.line {
            let read = way_in::parse_line_info(i.count, i.size as usize, &i.data, order);
            assert_eq!(read.len(), read.line_info.len());
            let rows = read.line_info.iter().map(|r| vec![r.insn_off, r.file_name_off, r.line_off, r.line_col]).collect();
            (rows, read.line_info_bytes(), read.num_info)
        } else {
            let read = way_in::parse_func_info(i.count, i.size as usize, &i.data, order);
            let rows = read.func_info.iter().map(|r| vec![r.insn_off, r.type_id]).collect();
            (rows, read.func_info_bytes(), read.num_info)
        }
    })
}

pub struct Read {
    pub cause: usize,
    pub number: u32,
    /// Ours is not what document 01 says.
    pub wrong: Option<String>,
    /// Ours is not what the crate's is.
    pub differs: Option<String>,
    pub panicked: bool,
}

pub fn run(i: &Input, k: u32, bite: Option<Bite>) -> Read {
    let (cause, by_cause) = cause(i);
    let said = literal::read(i.row() as usize, i.size, i.count, &i.data, i.room);
    let info = Info { line: i.line, size: i.size, count: i.count, data: &i.data };
    let (number, places, mut out) = info.read(i.room);
    if bite == Some(Bite::Reader) && number == 0 && i.count > 0 {
        out[0] ^= 1;
    }
    let theirs = crate_reads(i, Endianness::Little);
    let mut read = Read { cause, number, wrong: None, differs: None, panicked: theirs.is_none() };
    if (number, places, &out) != (said.0, said.1, &said.2) {
        read.wrong = Some(format!("gave {number} {places:?}, not {} {:?}, or other bytes", said.0, said.1));
    } else if said.0 != by_cause {
        read.wrong = Some(format!("counted as {:?}, and the answer is {}", CAUSES[cause], said.0));
    }
    read.differs = match (&theirs, number) {
        (Some((rows, bytes, num)), 0) => {
            let used = bytes.len().min(out.len());
            let words: Vec<u32> = out[..used].chunks_exact(4).map(|w| u32::from_le_bytes(w.try_into().unwrap())).collect();
            let same = out[..used] == bytes[..] && rows.concat() == words && *num == i.count && out[used..].iter().all(|&b| b == 0);
            (!same).then(|| "other records".to_string())
        }
        (Some(_), n) => Some(format!("ours {n}, the crate reads")),
        (None, n) => Some(format!("ours {n}, the crate panics")),
    };
    if let Some(wrong) = record(i, &info, k) {
        read.wrong = Some(wrong);
    }
    read
}

/// Record k: number and places beside the model's, and the part of the data beside the crate's chunk.
fn record(i: &Input, info: &Info, k: u32) -> Option<String> {
    let (number, places, part) = info.record(k);
    let said = literal::record(i.row() as usize, i.size, i.count, &i.data, k);
    let chunk = if said.0 == 0 { i.data.chunks(i.size as usize).nth(k as usize) } else { None };
    let got = i.data.get(part.at as usize..(part.at + part.len) as usize).unwrap_or(&[]);
    let right = match chunk {
        Some(chunk) => got == chunk && part.at == u64::from(i.size) * u64::from(k),
        None => said.0 == 14 && part.len == 0,
    };
    (!right || (number, places) != said).then(|| format!("record {k}: gave {number} {places:?}, {} bytes at {}", part.len, part.at))
}
