//! The structs and numbers that bindgen gives from the kernel's headers (`struct bpf_insn`, `bpf_func_info`, `bpf_line_info`), little-endian.
#![allow(non_camel_case_types)]

pub const BPF_JMP: u32 = 0x05;
pub const BPF_CALL: u32 = 0x80;
pub const BPF_K: u32 = 0x00;
pub const BPF_PSEUDO_CALL: u32 = 1;
pub const BPF_PSEUDO_FUNC: u32 = 4;
pub const BPF_PSEUDO_MAP_FD: u32 = 1;
pub const BPF_PSEUDO_MAP_VALUE: u32 = 2;

/// `dst_reg` and `src_reg` are bit fields of one byte, the destination in the low four bits.
#[repr(C)]
#[derive(Debug, Copy, Clone)]
pub struct bpf_insn {
    pub code: u8,
    pub registers: u8,
    pub off: i16,
    pub imm: i32,
}

impl bpf_insn {
    pub fn dst_reg(&self) -> u8 {
        self.registers & 0x0f
    }

    pub fn src_reg(&self) -> u8 {
        self.registers >> 4
    }

    pub fn set_src_reg(&mut self, val: u8) {
        self.registers = (self.registers & 0x0f) | (val & 0x0f) << 4;
    }
}

#[repr(C)]
#[derive(Debug, Copy, Clone, PartialEq, Eq)]
pub struct bpf_func_info {
    pub insn_off: u32,
    pub type_id: u32,
}

#[repr(C)]
#[derive(Debug, Copy, Clone, PartialEq, Eq)]
pub struct bpf_line_info {
    pub insn_off: u32,
    pub file_name_off: u32,
    pub line_off: u32,
    pub line_col: u32,
}
