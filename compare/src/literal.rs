//! Document 01 as a literal program: the C model that the fuzz harness uses too (fuzz/model.c, fuzz/model.h). The domain is stated
//! over it, and Barkruffle's number, places and outputs are held to it on every object and every record input.
use crate::{
    ours::{Linked, Mapped, Places},
    tables::{self, Case},
};

#[repr(C)]
#[derive(Clone, Copy)]
struct Run {
    at: *const u8,
    len: usize,
}

#[repr(C)]
struct Answer {
    number: u32,
    places: Places,
}

#[repr(C)]
struct Reached {
    count: usize,
    row: [u32; 4096],
}

const APPLIED: u32 = 101;
const SKIPPED: u32 = 100;

unsafe extern "C" {
    fn model_maps(table: *const Run, instructions: *mut u8) -> Answer;
    fn model_check_link(table: *const Run, root: u32) -> Answer;
    fn model_judge(table: *const Run, row: usize, relocation: usize) -> u32;
    fn model_link_reaching(table: *const Run, root: u32, out_len: *const usize, out: *const *mut u8, reached: *mut Reached) -> Answer;
    fn model_read(row: usize, size: u32, count: u32, data: Run, out: *mut u8, out_len: usize) -> Answer;
    fn model_record(row: usize, size: u32, count: u32, data: Run, k: u32) -> Answer;
}

fn run(bytes: &[u8]) -> Run {
    Run { at: bytes.as_ptr(), len: bytes.len() }
}

/// Tables 1 to 8 with the table 6 given, as the model takes them.
fn runs(t: &tables::Bytes, slots: &[u8]) -> [Run; 9] {
    std::array::from_fn(|n| match n {
        0 => run(&[]),
        6 => run(slots),
        n => run(&t[n - 1]),
    })
}

pub fn relocate_maps(t: &tables::Bytes) -> Mapped {
    let mut slots = vec![0xa5; t[5].len()];
    let Answer { number, places } = unsafe { model_maps(runs(t, &t[5]).as_ptr(), slots.as_mut_ptr()) };
    Mapped { number, places, slots }
}

/// The number of the link's checks alone: 1, 2, 13, or 0.
pub fn check_link(t: &tables::Bytes, root: u32) -> u32 {
    unsafe { model_check_link(runs(t, &t[5]).as_ptr(), root) }.number
}

/// The number with which the map step refuses one relocation in one function, of tables that its checks pass.
pub fn refuses(t: &tables::Bytes, row: usize, relocation: usize) -> Option<u32> {
    let judged = unsafe { model_judge(runs(t, &t[5]).as_ptr(), row, relocation) };
    assert!(judged <= APPLIED);
    (judged < SKIPPED).then_some(judged)
}

/// The link, and every callee that a slot came to, in the order of coming.
pub fn link(case: &Case, slots: &[u8]) -> (Linked, Vec<usize>) {
    let mut out = case.room.map(|len| vec![0xa5; len]);
    let outs = out.each_mut().map(|o| o.as_mut_ptr());
    let mut reached = Reached { count: 0, row: [0; 4096] };
    let Answer { number, places } =
        unsafe { model_link_reaching(runs(&case.bytes, slots).as_ptr(), case.root, case.room.as_ptr(), outs.as_ptr(), &mut reached) };
    let rows = reached.row[..reached.count].iter().map(|&row| row as usize).collect();
    (Linked { number, places, out }, rows)
}

/// A record reader's number, places and whole output; `row` is 8 or 16.
pub fn read(row: usize, size: u32, count: u32, data: &[u8], room: usize) -> (u32, Places, Vec<u8>) {
    let mut out = vec![0xa5; room];
    let a = unsafe { model_read(row, size, count, run(data), out.as_mut_ptr(), room) };
    (a.number, a.places, out)
}

/// The number and places of record k.
pub fn record(row: usize, size: u32, count: u32, data: &[u8], k: u32) -> (u32, Places) {
    let a = unsafe { model_record(row, size, count, run(data), k) };
    (a.number, a.places)
}
