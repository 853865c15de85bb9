//! The port as its archive `librecords_box.a` offers it to C and Rust, without a rule of its own: the declaration is that
//! of the bindings.

#[path = "../../../bindings/rust/src/raw.rs"]
mod raw;

pub use raw::*;
