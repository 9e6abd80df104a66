//! Barkruffle's entries, as include/barkruffle.h declares them.
use crate::tables::{Bytes, Case};

#[repr(C)]
pub struct Part {
    pub at: u64,
    pub len: u64,
}

unsafe extern "C" {
    #[rustfmt::skip]
    fn barkruffle_relocate_maps(
        code: *const u8,
        code_len: usize,
        symbols: *const u8,
        symbols_len: usize,
        functions: *const u8,
        functions_len: usize,
        relocations: *const u8,
        relocations_len: usize,
        maps: *const u8,
        maps_len: usize,
        instructions: *mut u8,
        instructions_len: usize,
        places: *mut u8,
        places_len: usize,
    ) -> u32;
    #[rustfmt::skip]
    fn barkruffle_link(
        code: *const u8,
        code_len: usize,
        symbols: *const u8,
        symbols_len: usize,
        functions: *const u8,
        functions_len: usize,
        relocations: *const u8,
        relocations_len: usize,
        instructions: *const u8,
        instructions_len: usize,
        func_info: *const u8,
        func_info_len: usize,
        line_info: *const u8,
        line_info_len: usize,
        root: u32,
        image: *mut u8,
        image_len: usize,
        image_func_info: *mut u8,
        image_func_info_len: usize,
        image_line_info: *mut u8,
        image_line_info_len: usize,
        places: *mut u8,
        places_len: usize,
    ) -> u32;
    fn barkruffle_func_info(
        size: u32,
        count: u32,
        bytes: *const u8,
        len: usize,
        out: *mut u8,
        out_len: usize,
        places: *mut u8,
        places_len: usize,
    ) -> u32;
    fn barkruffle_line_info(
        size: u32,
        count: u32,
        bytes: *const u8,
        len: usize,
        out: *mut u8,
        out_len: usize,
        places: *mut u8,
        places_len: usize,
    ) -> u32;
    fn barkruffle_func_info_record(size: u32, count: u32, bytes: *const u8, len: usize, k: u32) -> Part;
    fn barkruffle_line_info_record(size: u32, count: u32, bytes: *const u8, len: usize, k: u32) -> Part;
    fn barkruffle_func_info_record_number(
        size: u32,
        count: u32,
        bytes: *const u8,
        len: usize,
        k: u32,
        places: *mut u8,
        places_len: usize,
    ) -> u32;
    fn barkruffle_line_info_record_number(
        size: u32,
        count: u32,
        bytes: *const u8,
        len: usize,
        k: u32,
        places: *mut u8,
        places_len: usize,
    ) -> u32;
}

pub type Places = [u32; 3];

fn places_of(bytes: [u8; 12]) -> Places {
    [0, 4, 8].map(|at| u32::from_le_bytes(bytes[at..at + 4].try_into().unwrap()))
}

#[derive(Debug, Clone, PartialEq)]
pub struct Mapped {
    pub number: u32,
    pub places: Places,
    /// Table 6 after it.
    pub slots: Vec<u8>,
}

#[derive(Debug, Clone, PartialEq)]
pub struct Linked {
    pub number: u32,
    pub places: Places,
    /// The three outputs, whole.
    pub out: [Vec<u8>; 3],
}

pub fn relocate_maps(t: &Bytes) -> Mapped {
    let mut slots = t[5].clone();
    let mut places = [0xa5; 12];
    let number = unsafe {
        barkruffle_relocate_maps(
            t[0].as_ptr(),
            t[0].len(),
            t[1].as_ptr(),
            t[1].len(),
            t[2].as_ptr(),
            t[2].len(),
            t[3].as_ptr(),
            t[3].len(),
            t[4].as_ptr(),
            t[4].len(),
            slots.as_mut_ptr(),
            slots.len(),
            places.as_mut_ptr(),
            places.len(),
        )
    };
    Mapped { number, places: places_of(places), slots }
}

/// The call itself, on lent buffers.
pub fn link_into(t: &Bytes, slots: &[u8], root: u32, out: &mut [Vec<u8>; 3], places: &mut [u8; 12]) -> u32 {
    let [image, funcs, lines] = out;
    unsafe {
        barkruffle_link(
            t[0].as_ptr(),
            t[0].len(),
            t[1].as_ptr(),
            t[1].len(),
            t[2].as_ptr(),
            t[2].len(),
            t[3].as_ptr(),
            t[3].len(),
            slots.as_ptr(),
            slots.len(),
            t[6].as_ptr(),
            t[6].len(),
            t[7].as_ptr(),
            t[7].len(),
            root,
            image.as_mut_ptr(),
            image.len(),
            funcs.as_mut_ptr(),
            funcs.len(),
            lines.as_mut_ptr(),
            lines.len(),
            places.as_mut_ptr(),
            places.len(),
        )
    }
}

/// Links the tables with `slots` as table 6, into stained outputs.
pub fn link(case: &Case, slots: &[u8]) -> Linked {
    let mut out = case.room.map(|n| vec![0xa5; n]);
    let mut places = [0xa5; 12];
    let number = link_into(&case.bytes, slots, case.root, &mut out, &mut places);
    Linked { number, places: places_of(places), out }
}

/// What a reader is given: function records, or line records.
pub struct Info<'a> {
    pub line: bool,
    pub size: u32,
    pub count: u32,
    pub data: &'a [u8],
}

impl Info<'_> {
    pub fn read(&self, out_len: usize) -> (u32, Places, Vec<u8>) {
        let (mut out, mut places) = (vec![0xa5; out_len], [0xa5; 12]);
        let entry = if self.line { barkruffle_line_info } else { barkruffle_func_info };
        let number = unsafe {
            entry(self.size, self.count, self.data.as_ptr(), self.data.len(), out.as_mut_ptr(), out.len(), places.as_mut_ptr(), 12)
        };
        (number, places_of(places), out)
    }

    /// Record k: its number, and the part where it stands.
    pub fn record(&self, k: u32) -> (u32, Places, Part) {
        let mut places = [0xa5; 12];
        let part = if self.line { barkruffle_line_info_record } else { barkruffle_func_info_record };
        let entry = if self.line { barkruffle_line_info_record_number } else { barkruffle_func_info_record_number };
        unsafe {
            let part = part(self.size, self.count, self.data.as_ptr(), self.data.len(), k);
            let number = entry(self.size, self.count, self.data.as_ptr(), self.data.len(), k, places.as_mut_ptr(), 12);
            (number, places_of(places), part)
        }
    }
}
