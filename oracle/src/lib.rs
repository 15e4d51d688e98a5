//! The Rust that the operators come from, unchanged, behind a harness that speaks item numbers.
#![allow(dead_code)]

include!(concat!(env!("OUT_DIR"), "/ink_modules.rs"));

mod shims;
pub(crate) use shims::{compat, container, math, path, prelude, search_result};

#[cfg(test)]
mod differences;
pub mod generate;
pub mod original;
pub mod pack;
mod remainder;
#[path = "../../hosts/rust/src/sys.rs"]
pub mod sys;
pub mod values;
