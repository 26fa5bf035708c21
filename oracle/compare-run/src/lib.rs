//! The comparison of the library with hybit's Rust and with the model, and the recorded answers.

pub mod blocks;
pub mod cases;
pub mod damage;
pub mod demand;
pub mod edge;
pub mod exhaustive;
pub mod fault;
pub mod good;
pub mod make;
pub mod parts;
pub mod random;
pub mod restricted;
pub mod rng;
pub mod run;
pub mod shrink;
pub mod text;
pub mod tiles;
pub mod worked;

/// What a generator hands its calls to.
pub trait Sink {
    fn call(&mut self, call: &calls::Call);

    /// Whether no more calls are wanted.
    fn done(&self) -> bool;
}
