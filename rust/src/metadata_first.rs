//! `AbtmMetadataFirstMatrix`: the words of a matrix with one value for each present column, and its pruned dot.

use crate::calls::{self, Store};
use crate::error::{MERGED_NOT_FINITE, STORE_ROW, accepted};
use crate::sys;
use crate::topology::most_words;
use crate::{AbtmTopology, Csr32Matrix, DofMask, HybitError};

/// The counts of one or more row dots.
#[derive(Clone, Copy, Debug, Default, PartialEq, Eq)]
pub struct AbtmProductPruningStats {
    /// Present columns.
    pub candidate_products: usize,
    /// Present and active columns.
    pub executed_products: usize,
    /// Present and inactive columns.
    pub skipped_products: usize,
    /// Words.
    pub topology_words: usize,
    /// Words with an executed product.
    pub active_words: usize,
}

impl AbtmProductPruningStats {
    /// Skipped products among the candidates; 0.0 without candidates.
    pub fn pruning_ratio(self) -> f64 {
        calls::metadata_first_pruning_ratio(self.skipped_products, self.candidate_products)
    }

    /// Words without an executed product among the words; 0.0 without words, and where more words are active than there are
    /// (hybit subtracts below zero).
    pub fn empty_word_ratio(self) -> f64 {
        calls::metadata_first_empty_word_ratio(self.topology_words, self.active_words)
    }

    /// Adds the other counts; where a total is too large nothing is changed (hybit has by then changed some).
    pub fn accumulate(&mut self, other: Self) -> Result<(), HybitError> {
        let totals = calls::metadata_first_accumulate(self.in_order(), other.in_order())
            .map_err(|refusal| refusal.plain())?;
        *self = Self {
            candidate_products: totals.candidate_products,
            executed_products: totals.executed_products,
            skipped_products: totals.skipped_products,
            topology_words: totals.topology_words,
            active_words: totals.active_words,
        };
        Ok(())
    }

    fn in_order(self) -> [usize; 5] {
        [
            self.candidate_products,
            self.executed_products,
            self.skipped_products,
            self.topology_words,
            self.active_words,
        ]
    }
}

/// The figures of a packed store.
#[derive(Clone, Copy, Debug, Default, PartialEq, Eq)]
pub struct AbtmMetadataFirstStats {
    /// Rows.
    pub nrows: usize,
    /// Columns.
    pub ncols: usize,
    /// Present columns of all rows.
    pub structural_nnz: usize,
    /// The bytes of the words.
    pub topology_metadata_bytes: usize,
    /// The bytes of the value pointers.
    pub value_row_ptr_bytes: usize,
    /// The bytes of the values.
    pub packed_value_bytes: usize,
}

impl AbtmMetadataFirstStats {
    /// The sum of the three, at most `usize::MAX`.
    pub fn total_estimated_bytes(self) -> usize {
        calls::metadata_first_total_estimated_bytes(
            self.topology_metadata_bytes,
            self.value_row_ptr_bytes,
            self.packed_value_bytes,
        )
    }
}

/// The words of a matrix with one value for each present column, ascending. Stored zeros are kept; copies of a column are
/// added in stored order.
#[derive(Clone, Debug)]
pub struct AbtmMetadataFirstMatrix {
    topology: AbtmTopology,
    row_value_ptr: Vec<u32>,
    values: Vec<f64>,
}

impl AbtmMetadataFirstMatrix {
    /// Packs a matrix; refused where the copies of a column add up to an infinite value.
    pub fn from_csr32(csr: &Csr32Matrix) -> Result<Self, HybitError> {
        let mut row_value_ptr = vec![0; csr.nrows() + 1];
        let mut values = vec![0.0; csr.nnz()];
        let topology = AbtmTopology::built(csr.nrows(), csr.ncols(), most_words(csr), |room| {
            calls::metadata_first_from_csr32(csr.view(), room, &mut row_value_ptr, &mut values)
        })
        .map_err(|refusal| refusal.named(MERGED_NOT_FINITE))?;
        values.truncate(topology.structural_nnz());
        values.shrink_to_fit();
        Ok(Self {
            topology,
            row_value_ptr,
            values,
        })
    }

    /// The words.
    pub fn topology(&self) -> &AbtmTopology {
        &self.topology
    }

    /// The values of all rows.
    pub fn packed_values(&self) -> &[f64] {
        &self.values
    }

    /// The values of a row.
    pub fn row_values(&self, row: usize) -> Result<&[f64], HybitError> {
        if row >= self.topology.nrows() {
            return Err(HybitError::InvalidArgument(STORE_ROW));
        }
        let start = self.row_value_ptr[row] as usize;
        Ok(&self.values[start..self.row_value_ptr[row + 1] as usize])
    }

    /// The figures.
    pub fn stats(&self) -> AbtmMetadataFirstStats {
        let stats = accepted(calls::metadata_first_stats(self.view()));
        AbtmMetadataFirstStats {
            nrows: stats.nrows,
            ncols: stats.ncols,
            structural_nnz: stats.structural_nnz,
            topology_metadata_bytes: stats.topology_metadata_bytes,
            value_row_ptr_bytes: stats.value_row_ptr_bytes,
            packed_value_bytes: stats.packed_value_bytes,
        }
    }

    /// Checks the store again.
    pub fn validate(&self) -> Result<(), HybitError> {
        calls::metadata_first_check(self.view()).map_err(|refusal| refusal.plain())
    }

    /// One row's dot over the active columns, ascending, with its counts. Values of `x` outside the mask are not read.
    pub fn sparse_dot_row(
        &self,
        row: usize,
        active: &DofMask,
        x: &[f64],
    ) -> Result<(f64, AbtmProductPruningStats), HybitError> {
        self.expect_length(active.len())?;
        self.expect_length(x.len())?;
        let dot = self.row_dot(row, active, x)?;
        let counts = AbtmProductPruningStats {
            candidate_products: dot.candidate_products,
            executed_products: dot.executed_products,
            skipped_products: dot.skipped_products,
            topology_words: dot.topology_words,
            active_words: dot.active_words,
        };
        Ok((dot.sum, counts))
    }

    /// Every row's dot over the active columns, and how many products each took. Checks the store once. Not in hybit.
    pub fn sparse_dot_rows(
        &self,
        active: &DofMask,
        x: &[f64],
    ) -> Result<(Vec<f64>, Vec<u32>), HybitError> {
        let mut sums = vec![0.0; self.topology.nrows()];
        let mut executed = vec![0; self.topology.nrows()];
        calls::metadata_first_sparse_dot_rows(
            self.view(),
            active.view(),
            x,
            &mut sums,
            &mut executed,
        )
        .map_err(|refusal| refusal.plain())?;
        Ok((sums, executed))
    }

    /// Lengths come before the row in the order of refusals, and the row's part can be lent only once the row is there.
    fn expect_length(&self, actual: usize) -> Result<(), HybitError> {
        let expected = self.topology.ncols();
        if actual != expected {
            return Err(HybitError::DimensionMismatch { expected, actual });
        }
        Ok(())
    }

    /// Lends the row as a store of one row, so that the call checks the row and not the whole store.
    fn row_dot(&self, row: usize, active: &DofMask, x: &[f64]) -> Result<sys::Dot, HybitError> {
        let words = self.topology.row(row)?;
        let values = self.row_values(row)?;
        let row_word_ptr = [0, words.word_count()];
        let store = Store {
            words: words.view(&row_word_ptr, values.len()),
            row_value_ptr: &[0, values.len() as u32],
            values,
        };
        calls::metadata_first_sparse_dot_row(store, 0, active.view(), x)
            .map_err(|refusal| refusal.plain())
    }

    fn view(&self) -> Store<'_> {
        Store {
            words: self.topology.view(),
            row_value_ptr: &self.row_value_ptr,
            values: &self.values,
        }
    }
}
