//! `Csr32Matrix`: compressed sparse rows with u32 indices.

use crate::HybitError;
use crate::calls;
use crate::error::{
    COLUMN, LISTS_UNEQUAL, NOT_FINITE, POINTER_COUNT, POINTER_END, POINTER_FALL, POINTER_START,
    Refusal, accepted,
};

/// Compressed sparse rows; the columns of a row may be unsorted and may repeat.
#[derive(Clone, Debug)]
pub struct Csr32Matrix {
    nrows: usize,
    ncols: usize,
    row_ptr: Vec<u32>,
    col_idx: Vec<u32>,
    values: Vec<f64>,
}

impl Csr32Matrix {
    /// The matrix of these lists, once checked. More than 1,048,576 rows or columns, or 16,777,216 entries, are `SizeOverflow`.
    pub fn new(
        nrows: usize,
        ncols: usize,
        row_ptr: Vec<u32>,
        col_idx: Vec<u32>,
        values: Vec<f64>,
    ) -> Result<Self, HybitError> {
        let matrix = Self {
            nrows,
            ncols,
            row_ptr,
            col_idx,
            values,
        };
        matrix.validate()?;
        Ok(matrix)
    }

    /// Checks the lists again.
    pub fn validate(&self) -> Result<(), HybitError> {
        calls::csr32_check(self.view()).map_err(|refusal| refusal.named(self.reason(refusal)))
    }

    /// The number of rows.
    pub fn nrows(&self) -> usize {
        self.nrows
    }

    /// The number of columns.
    pub fn ncols(&self) -> usize {
        self.ncols
    }

    /// The number of stored entries.
    pub fn nnz(&self) -> usize {
        self.values.len()
    }

    /// Where each row starts in the two other lists, and where the last ends.
    pub fn row_ptr(&self) -> &[u32] {
        &self.row_ptr
    }

    /// The column of each entry.
    pub fn col_idx(&self) -> &[u32] {
        &self.col_idx
    }

    /// The value of each entry.
    pub fn values(&self) -> &[f64] {
        &self.values
    }

    /// The bytes of the three lists.
    pub fn storage_bytes(&self) -> usize {
        accepted(calls::csr32_storage_bytes(self.view()))
    }

    /// The bytes of the pointers and columns.
    pub fn metadata_bytes(&self) -> usize {
        accepted(calls::csr32_metadata_bytes(self.view()))
    }

    /// The row products, into `y`; a refused call leaves `y` as it was. In hybit a method of the trait `LinearOperator`.
    pub fn apply(&self, x: &[f64], y: &mut [f64]) -> Result<(), HybitError> {
        calls::csr32_apply(self.view(), x, y).map_err(|refusal| refusal.plain())
    }

    /// The row products.
    pub fn spmv(&self, x: &[f64]) -> Result<Vec<f64>, HybitError> {
        let mut y = vec![0.0; self.nrows];
        self.apply(x, &mut y)?;
        Ok(y)
    }

    /// Lends lists for so many entries to a build, which answers how many it used and a result of its own.
    pub(crate) fn built<T>(
        (nrows, ncols): (usize, usize),
        entries: usize,
        build: impl FnOnce(calls::CsrRoom<'_>) -> Result<(usize, T), Refusal>,
    ) -> Result<(Self, T), Refusal> {
        let mut matrix = Self {
            nrows,
            ncols,
            row_ptr: vec![0; nrows + 1],
            col_idx: vec![0; entries],
            values: vec![0.0; entries],
        };
        let room = calls::CsrRoom {
            row_ptr: &mut matrix.row_ptr,
            col_idx: &mut matrix.col_idx,
            values: &mut matrix.values,
        };
        let (used, result) = build(room)?;
        matrix.col_idx.truncate(used);
        matrix.values.truncate(used);
        Ok((matrix, result))
    }

    pub(crate) fn view(&self) -> calls::Csr<'_> {
        calls::Csr {
            nrows: self.nrows,
            ncols: self.ncols,
            row_ptr: &self.row_ptr,
            col_idx: &self.col_idx,
            values: &self.values,
        }
    }

    /// The Rust's text for a refusal of these lists; number 2 stands for several.
    fn reason(&self, refusal: Refusal) -> &'static str {
        match refusal.number {
            3 => COLUMN,
            4 => NOT_FINITE,
            _ if self.row_ptr.len() != self.nrows.saturating_add(1) => POINTER_COUNT,
            _ if self.col_idx.len() != self.values.len() => LISTS_UNEQUAL,
            _ if self.row_ptr.first() != Some(&0) => POINTER_START,
            _ if self.row_ptr.last().map(|&end| end as usize) != Some(self.values.len()) => {
                POINTER_END
            }
            _ => POINTER_FALL,
        }
    }
}
