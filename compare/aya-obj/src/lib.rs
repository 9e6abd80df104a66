//! What the two files of aya-obj 0.3.0 lean on, in their own words, and a way in for `compare`.
//! The fields and types are those that the files name; everything else of the crate is left out.
#![allow(dead_code)]

include!(concat!(env!("OUT_DIR"), "/modules.rs"));

pub mod generated;
pub mod maps;
pub mod obj;
mod util;

pub mod way_in;

pub use maps::EbpfSectionKind;
