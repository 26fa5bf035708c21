//! `PreparedColumnRestrictedCsrOperator` and `PreparedLocalCsrOperator`: a matrix cut to the active columns, and one cut to the
//! rows and columns of a region.

use crate::calls;
use crate::error::{LOCAL_NOT_SQUARE, NOT_FINITE};
use crate::{AbtmMatrix, Csr32Matrix, DofMask, HybitError};

/// The entries of a matrix in active columns; rows and columns keep their numbers.
#[derive(Clone, Debug)]
pub struct PreparedColumnRestrictedCsrOperator {
    matrix: Csr32Matrix,
    active_columns: DofMask,
    source_nnz: usize,
}

impl PreparedColumnRestrictedCsrOperator {
    /// The entries of a matrix in active columns, in stored order.
    pub fn from_csr32(source: &Csr32Matrix, active_columns: &DofMask) -> Result<Self, HybitError> {
        let frame = (source.nrows(), source.ncols());
        let kept = members_among(source.col_idx(), active_columns);
        let built = Csr32Matrix::built(frame, kept, |room| {
            let used = calls::restricted_from_csr32(source.view(), active_columns.view(), room)?;
            Ok((used.retained_nnz, used.source_nnz))
        });
        let (matrix, source_nnz) = built.map_err(|refusal| refusal.plain())?;
        Ok(Self {
            matrix,
            active_columns: active_columns.clone(),
            source_nnz,
        })
    }

    /// The values of tiles in active columns, ascending; refused where one is infinite.
    pub fn from_abtm(source: &AbtmMatrix, active_columns: &DofMask) -> Result<Self, HybitError> {
        let frame = (source.rows(), source.cols());
        let kept = source.values_in(active_columns);
        let built = Csr32Matrix::built(frame, kept, |room| {
            let used = calls::restricted_from_abtm(source.view(), active_columns.view(), room)?;
            Ok((used.retained_nnz, used.source_nnz))
        });
        let (matrix, source_nnz) = built.map_err(|refusal| refusal.named(NOT_FINITE))?;
        Ok(Self {
            matrix,
            active_columns: active_columns.clone(),
            source_nnz,
        })
    }

    /// The matrix of the kept entries.
    pub fn matrix(&self) -> &Csr32Matrix {
        &self.matrix
    }

    /// The active columns.
    pub fn active_columns(&self) -> &DofMask {
        &self.active_columns
    }

    /// The stored entries of the matrix that was cut, or the values of its tiles.
    pub fn source_nnz(&self) -> usize {
        self.source_nnz
    }

    /// The kept entries.
    pub fn retained_nnz(&self) -> usize {
        self.matrix.nnz()
    }

    /// Kept entries among those of the source; 0.0 where it has none.
    pub fn retained_fraction(&self) -> f64 {
        calls::restricted_retained_fraction(self.retained_nnz(), self.source_nnz)
    }

    /// The bytes of the lists and of the mask's words.
    pub fn storage_bytes(&self) -> usize {
        let (rows, cols) = (self.rows(), self.cols());
        calls::restricted_storage_bytes(rows, cols, self.retained_nnz())
    }

    /// The number of rows. In hybit, as the next two, a method of the trait `LinearOperator`.
    pub fn rows(&self) -> usize {
        self.matrix.nrows()
    }

    /// The number of columns.
    pub fn cols(&self) -> usize {
        self.matrix.ncols()
    }

    /// The row products over the active columns, into `y`; a refused call leaves `y` as it was.
    pub fn apply(&self, x: &[f64], y: &mut [f64]) -> Result<(), HybitError> {
        self.matrix.apply(x, y)
    }
}

/// The rows and columns of a region, numbered anew: the i-th member is row and column i.
#[derive(Clone, Debug)]
pub struct PreparedLocalCsrOperator {
    global_size: usize,
    global_nodes: Vec<u32>,
    matrix: Csr32Matrix,
    source_row_nnz: usize,
}

impl PreparedLocalCsrOperator {
    /// The region's rows with their entries in the region's columns, in stored order; the matrix must be square.
    pub fn from_csr32(source: &Csr32Matrix, region: &DofMask) -> Result<Self, HybitError> {
        let members = region.count_ones();
        let mut global_nodes = vec![0; members];
        let kept = region_entries(source, region);
        let built = Csr32Matrix::built((members, members), kept, |room| {
            let (m, r) = (source.view(), region.view());
            let used = calls::local_from_csr32(m, r, &mut global_nodes, room)?;
            Ok((used.local_nnz, used.source_row_nnz))
        });
        let (matrix, source_row_nnz) = built.map_err(|refusal| refusal.named(LOCAL_NOT_SQUARE))?;
        Ok(Self {
            global_size: source.nrows(),
            global_nodes,
            matrix,
            source_row_nnz,
        })
    }

    /// The number of rows of the matrix that was cut.
    pub fn global_size(&self) -> usize {
        self.global_size
    }

    /// The region's members, ascending.
    pub fn global_nodes(&self) -> &[u32] {
        &self.global_nodes
    }

    /// The matrix of the region.
    pub fn matrix(&self) -> &Csr32Matrix {
        &self.matrix
    }

    /// How many members the region has.
    pub fn local_nodes(&self) -> usize {
        self.global_nodes.len()
    }

    /// The kept entries.
    pub fn local_nnz(&self) -> usize {
        self.matrix.nnz()
    }

    /// The stored entries of the region's rows, in any column.
    pub fn source_row_nnz(&self) -> usize {
        self.source_row_nnz
    }

    /// 1.0 less the kept entries among those of the region's rows; 0.0 where they have none.
    pub fn boundary_pruning_ratio(&self) -> f64 {
        calls::local_boundary_pruning_ratio(self.local_nnz(), self.source_row_nnz)
    }

    /// The bytes of the lists and of the members.
    pub fn storage_bytes(&self) -> usize {
        calls::local_storage_bytes(self.local_nodes(), self.local_nnz())
    }

    /// The region's numbers of a vector, into `local`; a refused call leaves `local` as it was.
    pub fn gather_input(&self, global: &[f64], local: &mut [f64]) -> Result<(), HybitError> {
        calls::local_gather_input(self.global_size, &self.global_nodes, global, local)
            .map_err(|refusal| refusal.plain())
    }

    /// The region's numbers of a vector.
    pub fn gather_input_vec(&self, global: &[f64]) -> Result<Vec<f64>, HybitError> {
        let mut local = vec![0.0; self.local_nodes()];
        self.gather_input(global, &mut local)?;
        Ok(local)
    }

    /// The number of rows: the region's members. In hybit, as the next two, a method of the trait `LinearOperator`.
    pub fn rows(&self) -> usize {
        self.matrix.nrows()
    }

    /// The number of columns, which is the same.
    pub fn cols(&self) -> usize {
        self.matrix.ncols()
    }

    /// The row products of the region's matrix, into `y`; a refused call leaves `y` as it was.
    pub fn apply(&self, x: &[f64], y: &mut [f64]) -> Result<(), HybitError> {
        self.matrix.apply(x, y)
    }
}

/// How many of the columns are members: the places that a build needs. Any number where one is past the mask's end, since the
/// build is then refused.
fn members_among(columns: &[u32], mask: &DofMask) -> usize {
    let words = mask.words();
    let bit = |&col: &u32| {
        let word = words.get(col as usize / 64);
        word.map_or(0, |word| (word >> (col % 64) & 1) as usize)
    };
    columns.iter().map(bit).sum()
}

/// The same of the region's rows alone.
fn region_entries(source: &Csr32Matrix, region: &DofMask) -> usize {
    let ends = source.row_ptr();
    let rows = region
        .indices()
        .into_iter()
        .filter(|&row| row < source.nrows());
    rows.map(|row| {
        let row = &source.col_idx()[ends[row] as usize..ends[row + 1] as usize];
        members_among(row, region)
    })
    .sum()
}
