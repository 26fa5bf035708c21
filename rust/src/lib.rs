//! The sparse-matrix layer of hybit over denimrasp's proved library.
//!
//! The types, methods, results and error texts are those of hybit-matrix. A program that uses only these types changes one
//! line of its manifest:
//!
//! ```toml
//! hybit-matrix = { package = "denimrasp", path = ".." }
//! ```
//!
//! [`HybitError`] is here too: in place of `use hybit_core::HybitError;` write `use hybit_matrix::HybitError;`.
//!
//! Every computed result comes from the C interface ([`sys`]); the crate keeps the lists, lends them, and hands out parts of
//! them. A value of a type here has been checked or built by the library, and its fields are private, so the library does not
//! refuse it later; if it did, the method would panic rather than return the zeros of a refusal.
//!
//! Building words takes up to 136 KiB of stack, building tiles up to 268 KiB, packing up to 456 KiB, building a region's
//! matrix up to 72 KiB, building blocks up to 168 KiB: a thread that does it needs a stack of that size.
//!
//! What differs from hybit-matrix:
//! - Sizes above document 01's domain are [`HybitError::SizeOverflow`]: rows, columns and mask lengths above 1,048,576, stored
//!   entries and words above 16,777,216. [`DofMask::new`] can't return an error and panics there; [`DofMask::try_new`] returns
//!   it.
//! - Three and more copies of a column in a row are merged in stored order; hybit's order is that of an unstable sort.
//! - [`AbtmProductPruningStats::accumulate`] leaves the counts unchanged where it fails.
//! - [`AbtmProductPruningStats::empty_word_ratio`] is 0.0 where more words are active than there are; hybit subtracts below zero.
//! - [`AbtmStats::total_estimated_bytes`] is at most `usize::MAX`; hybit's sum wraps round or stops.
//! - `stats`, `fast_block_fraction` and the bytes of a [`Csr32Matrix`] check their matrix on each call, so they take time in
//!   proportion to it.
//! - [`AbtmMetadataFirstMatrix::sparse_dot_rows`], [`DofMask::try_new`], [`HybitError::number`] are not in hybit;
//!   [`DofMask::and_not_assign`] and [`DofMask::or_word`] are private there.
//!
//! Left out: `diagonal`, solvers and the error variants that only these give, as in document 01; the parallel forms of `apply`;
//! the trait `LinearOperator` (`apply` is a method of the types that have it, `rows` and `cols` too, but for [`Csr32Matrix`]).
#![warn(missing_docs)]

mod abtm;
mod calls;
mod csr32;
mod dense_block;
mod error;
mod mask;
mod metadata_first;
mod restricted;
pub mod sys;
mod topology;

pub use abtm::{AbtmConfig, AbtmMatrix, AbtmStats, TILE_WIDTH, TileDesc, TileKind};
pub use csr32::Csr32Matrix;
pub use dense_block::{DenseBlockCsrOperator, DenseBlockSize};
pub use error::HybitError;
pub use mask::DofMask;
pub use metadata_first::{
    AbtmMetadataFirstMatrix, AbtmMetadataFirstStats, AbtmProductPruningStats,
};
pub use restricted::{PreparedColumnRestrictedCsrOperator, PreparedLocalCsrOperator};
pub use topology::{
    ABTM_TOPOLOGY_WORD_BITS, AbtmTopology, AbtmTopologyRow, AbtmTopologyStats, AbtmTopologyWord,
};
