//! `DenseBlockCsrOperator`: a matrix in full blocks of 3 x 3 or 6 x 6 values.

use crate::calls::{self, Blocks, CsrRoom};
use crate::error::{Refusal, accepted};
use crate::{Csr32Matrix, HybitError};

/// The width of a block.
#[derive(Clone, Copy, Debug, PartialEq, Eq)]
pub enum DenseBlockSize {
    /// Blocks of 3 x 3 values.
    B3,
    /// Blocks of 6 x 6 values.
    B6,
}

impl DenseBlockSize {
    /// The rows and columns of a block: 3 or 6.
    pub const fn width(self) -> usize {
        match self {
            Self::B3 => 3,
            Self::B6 => 6,
        }
    }
}

/// For each block row the blocks with an entry, ascending. A block has a value for each of its places, 0.0 where there is no
/// entry; copies of a place are added in stored order.
#[derive(Clone, Debug)]
pub struct DenseBlockCsrOperator {
    nrows: usize,
    ncols: usize,
    block_size: DenseBlockSize,
    row_ptr: Vec<u32>,
    col_idx: Vec<u32>,
    values: Vec<f64>,
    structural_slots: usize,
    valid_dense_slots: usize,
}

impl DenseBlockCsrOperator {
    /// The blocks of a matrix.
    pub fn from_csr32(
        matrix: &Csr32Matrix,
        block_size: DenseBlockSize,
    ) -> Result<Self, HybitError> {
        let blocks = match block_size {
            DenseBlockSize::B3 => blocks::<3>(matrix),
            DenseBlockSize::B6 => blocks::<6>(matrix),
        };
        Self::built(matrix, block_size, blocks).map_err(|refusal| refusal.plain())
    }

    /// Lends lists for so many blocks to a build.
    fn built(matrix: &Csr32Matrix, size: DenseBlockSize, blocks: usize) -> Result<Self, Refusal> {
        let w = size.width();
        let mut operator = Self {
            nrows: matrix.nrows(),
            ncols: matrix.ncols(),
            block_size: size,
            row_ptr: vec![0; matrix.nrows().div_ceil(w) + 1],
            col_idx: vec![0; blocks],
            values: vec![0.0; blocks * w * w],
            structural_slots: 0,
            valid_dense_slots: 0,
        };
        let room = CsrRoom {
            row_ptr: &mut operator.row_ptr,
            col_idx: &mut operator.col_idx,
            values: &mut operator.values,
        };
        let used = calls::dense_block_from_csr32(matrix.view(), size.is_six(), room)?;
        operator.col_idx.truncate(used.unique_blocks);
        operator.values.truncate(used.dense_value_slots);
        operator.structural_slots = used.structural_slots;
        operator.valid_dense_slots = used.valid_dense_slots;
        Ok(operator)
    }

    /// The width of the blocks.
    pub fn block_size(&self) -> DenseBlockSize {
        self.block_size
    }

    /// The width of the blocks as a number.
    pub fn block_width(&self) -> usize {
        self.block_size.width()
    }

    /// The stored blocks.
    pub fn unique_blocks(&self) -> usize {
        self.col_idx.len()
    }

    /// The distinct places with an entry.
    pub fn structural_slots(&self) -> usize {
        self.structural_slots
    }

    /// The values of all blocks.
    pub fn dense_value_slots(&self) -> usize {
        self.values.len()
    }

    /// Places with an entry among the places of the blocks inside the matrix; 0.0 without blocks.
    pub fn block_fill(&self) -> f64 {
        calls::dense_block_block_fill(self.structural_slots, self.valid_dense_slots)
    }

    /// The values for each place with an entry; 0.0 where there is none.
    pub fn value_padding_ratio(&self) -> f64 {
        calls::dense_block_value_padding_ratio(self.dense_value_slots(), self.structural_slots)
    }

    /// The bytes of the pointers and block columns.
    pub fn metadata_bytes(&self) -> usize {
        calls::dense_block_metadata_bytes(self.block_rows(), self.unique_blocks())
    }

    /// The bytes of the three lists.
    pub fn storage_bytes(&self) -> usize {
        let (rows, blocks) = (self.block_rows(), self.unique_blocks());
        calls::dense_block_storage_bytes(rows, blocks, self.dense_value_slots())
    }

    /// The blocks that lie wholly inside the matrix among all blocks; 0.0 without blocks.
    pub fn fast_block_fraction(&self) -> f64 {
        accepted(calls::dense_block_fast_block_fraction(self.view()))
    }

    /// The number of rows. In hybit, as the next two, a method of the trait `LinearOperator`.
    pub fn rows(&self) -> usize {
        self.nrows
    }

    /// The number of columns.
    pub fn cols(&self) -> usize {
        self.ncols
    }

    /// The row products, into `y`; a refused call leaves `y` as it was.
    pub fn apply(&self, x: &[f64], y: &mut [f64]) -> Result<(), HybitError> {
        calls::dense_block_apply(self.view(), x, y).map_err(|refusal| refusal.plain())
    }

    fn block_rows(&self) -> usize {
        self.row_ptr.len() - 1
    }

    fn view(&self) -> Blocks<'_> {
        Blocks {
            nrows: self.nrows,
            ncols: self.ncols,
            six: self.block_size.is_six(),
            row_ptr: &self.row_ptr,
            col_idx: &self.col_idx,
            values: &self.values,
        }
    }
}

impl DenseBlockSize {
    /// The width as the C interface takes it.
    fn is_six(self) -> bool {
        self == Self::B6
    }
}

/// How many blocks of width `W` have an entry: the lists that a build needs. Lists for as many blocks as entries would have up to
/// 36 values for each entry, and a build clears all of them. For each block column the last block row that was met in it is kept,
/// counted from 1.
fn blocks<const W: usize>(matrix: &Csr32Matrix) -> usize {
    let mut last = vec![0; matrix.ncols().div_ceil(W)];
    let ends = matrix.row_ptr();
    let mut count = 0;
    for (block_row, first) in (1u32..).zip((0..matrix.nrows()).step_by(W)) {
        let end = matrix.nrows().min(first + W);
        for &col in &matrix.col_idx()[ends[first] as usize..ends[end] as usize] {
            let met = &mut last[col as usize / W];
            count += usize::from(*met != block_row);
            *met = block_row;
        }
    }
    count
}
