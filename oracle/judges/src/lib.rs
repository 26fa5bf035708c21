//! Two judges of a call: the library through its C interface, and hybit's Rust. The third, the model, is a crate of its own.

pub mod hybit;
pub mod ours;

#[path = "../../../rust/src/sys.rs"]
mod sys;
