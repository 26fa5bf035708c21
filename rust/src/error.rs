//! The errors of hybit-core that the matrix layer gives, and document 01's number for each.

use std::error::Error;
use std::fmt::{Display, Formatter};

/// Why a call was refused. The variants and texts are hybit-core's, less those of diagonals and solvers.
#[derive(Clone, Debug, PartialEq)]
pub enum HybitError {
    /// A matrix breaks its rules; the text says which.
    InvalidMatrix(&'static str),
    /// An argument is out of range; the text says which.
    InvalidArgument(&'static str),
    /// Two lengths that must be equal are not.
    DimensionMismatch {
        /// The length that was needed.
        expected: usize,
        /// The length that was given.
        actual: usize,
    },
    /// A size or a total above the domain.
    SizeOverflow,
}

impl HybitError {
    /// Document 01's number of the refusal; `None` for a text that this crate does not give.
    pub fn number(&self) -> Option<u32> {
        match self {
            Self::SizeOverflow => Some(1),
            Self::DimensionMismatch { .. } => Some(6),
            Self::InvalidMatrix(text) | Self::InvalidArgument(text) => TEXTS
                .iter()
                .find(|(number, known)| known == text && *self == of_kind(*number, text))
                .map(|(number, _)| *number),
        }
    }
}

impl Display for HybitError {
    fn fmt(&self, f: &mut Formatter<'_>) -> std::fmt::Result {
        match self {
            Self::InvalidMatrix(text) => write!(f, "invalid matrix: {text}"),
            Self::InvalidArgument(text) => write!(f, "invalid argument: {text}"),
            Self::DimensionMismatch { expected, actual } => {
                write!(f, "dimension mismatch: expected {expected}, got {actual}")
            }
            Self::SizeOverflow => {
                f.write_str("matrix or index size exceeds the selected representation")
            }
        }
    }
}

impl Error for HybitError {}

pub(crate) const POINTER_COUNT: &str = "row_ptr length must equal nrows + 1";
pub(crate) const LISTS_UNEQUAL: &str = "col_idx and values lengths differ";
pub(crate) const POINTER_START: &str = "row_ptr[0] must be zero";
pub(crate) const POINTER_END: &str = "row_ptr[nrows] must equal nnz";
pub(crate) const POINTER_FALL: &str = "row_ptr must be monotonically nondecreasing";
pub(crate) const COLUMN: &str = "column index out of range";
pub(crate) const NOT_FINITE: &str = "matrix contains NaN or infinity";
pub(crate) const MERGED_NOT_FINITE: &str = "ABTM G2 packed values contain NaN or infinity";
pub(crate) const MASK_INDEX: &str = "DOF mask index out of range";
pub(crate) const RANK_OFFSET: &str = "ABTM topology rank offset out of range";
pub(crate) const RANK_COLUMN: &str = "ABTM topology row rank column out of range";
pub(crate) const TOPOLOGY_ROW: &str = "ABTM topology row index out of range";
pub(crate) const STORE_ROW: &str = "ABTM G2 row index out of range";
pub(crate) const FRAMES: &str = "ABTM topology dimensions differ";
pub(crate) const THRESHOLDS: &str = "invalid ABTM density thresholds";
pub(crate) const TILE_ROW: &str = "ABTM row index out of range";
pub(crate) const NOT_SQUARE: &str = "mask expansion requires a square ABTM matrix";
pub(crate) const LOCAL_NOT_SQUARE: &str = "local R A R preparation requires a square matrix";

/// Each text with its number. The second part has document 01's words, for refusals that the types of this crate exclude.
const TEXTS: [(u32, &str); 26] = [
    (2, POINTER_COUNT),
    (2, LISTS_UNEQUAL),
    (2, POINTER_START),
    (2, POINTER_END),
    (2, POINTER_FALL),
    (3, COLUMN),
    (4, NOT_FINITE),
    (4, MERGED_NOT_FINITE),
    (7, MASK_INDEX),
    (7, RANK_OFFSET),
    (7, RANK_COLUMN),
    (7, TOPOLOGY_ROW),
    (7, STORE_ROW),
    (7, TILE_ROW),
    (8, FRAMES),
    (9, THRESHOLDS),
    (10, NOT_SQUARE),
    (10, LOCAL_NOT_SQUARE),
    (2, "bad frame"),
    (3, "outside column"),
    (4, "not finite"),
    (5, "bad mask"),
    (7, "no such place"),
    (11, "bad words"),
    (12, "bad store"),
    (13, "short list"),
];

/// The variant that a number other than 1 and 6 belongs to.
fn of_kind(number: u32, text: &'static str) -> HybitError {
    match number {
        2 | 3 | 4 | 10 | 11 | 12 => HybitError::InvalidMatrix(text),
        _ => HybitError::InvalidArgument(text),
    }
}

/// The number of a list that is too short for its result.
pub(crate) const SHORT_LIST: u32 = 13;

/// A refused answer of the C interface.
#[derive(Clone, Copy, Debug)]
pub(crate) struct Refusal {
    pub number: u32,
    pub expected: usize,
    pub actual: usize,
}

impl Refusal {
    /// The error, with the Rust's text where the refusal is the one that it stands for, else with document 01's word.
    pub fn named(self, text: &'static str) -> HybitError {
        match self.number {
            1 => HybitError::SizeOverflow,
            6 => HybitError::DimensionMismatch {
                expected: self.expected,
                actual: self.actual,
            },
            number if TEXTS.contains(&(number, text)) => of_kind(number, text),
            number => of_kind(number, word(number)),
        }
    }

    /// The error of a call that 1 and 6 alone can refuse.
    pub fn plain(self) -> HybitError {
        self.named("")
    }
}

/// Document 01's word for a number.
fn word(number: u32) -> &'static str {
    TEXTS
        .iter()
        .rev()
        .find(|(known, _)| *known == number)
        .map_or("unknown refusal", |(_, text)| text)
}

/// The result of a call that is never refused for a value of this crate. Stops rather than hand back the zeros of a refusal.
pub(crate) fn accepted<T>(result: Result<T, Refusal>) -> T {
    match result {
        Ok(value) => value,
        Err(refusal) => panic!("denimrasp refused a checked value by {}", refusal.number),
    }
}
