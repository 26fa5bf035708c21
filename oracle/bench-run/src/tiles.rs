//! Tiles: their build, their product, and on a square matrix the expansion of a mask.

use crate::matrices::{Csr, Kind, Random};
use crate::timing::{Table, timed};
use crate::{Both, bits};
use denimrasp::sys;
use hybit_core::LinearOperator;
use hybit_matrix as rust;

const SPARSE: u8 = 8;
const DENSE: u8 = 40;

/// The lists that a build of tiles fills, and how much of them it used.
pub struct Lists {
    pub row_tile_ptr: Vec<u32>,
    pub masks: Vec<u64>,
    pub value_offsets: Vec<u32>,
    pub metas: Vec<u32>,
    pub values: Vec<f64>,
    pub used: sys::Tiles,
}

impl Lists {
    /// Long enough for any matrix with so many entries: a tile has one, a Dense tile at least 40 for its 64 values.
    fn new(nrows: usize, entries: usize) -> Self {
        Self {
            row_tile_ptr: vec![0; nrows + 1],
            masks: vec![0; entries],
            value_offsets: vec![0; entries],
            metas: vec![0; entries],
            values: vec![0.0; 64 * entries / usize::from(DENSE)],
            used: sys::Tiles {
                number: 0,
                expected: 0,
                actual: 0,
                tiles: 0,
                value_slots: 0,
                matrix_nnz: 0,
            },
        }
    }

    /// The tiles of a matrix.
    pub fn of(m: &Csr) -> Self {
        let mut lists = Self::new(m.nrows, m.values.len());
        lists.build(m);
        lists
    }

    fn build(&mut self, m: &Csr) {
        // SAFETY: every pointer and length is a list's, and `self` is borrowed alone.
        self.used = unsafe {
            sys::denimrasp_abtm_from_csr32(
                m.nrows,
                m.ncols,
                m.row_ptr.as_ptr(),
                m.row_ptr.len(),
                m.col_idx.as_ptr(),
                m.col_idx.len(),
                m.values.as_ptr(),
                m.values.len(),
                SPARSE,
                DENSE,
                self.row_tile_ptr.as_mut_ptr(),
                self.row_tile_ptr.len(),
                self.masks.as_mut_ptr(),
                self.masks.len(),
                self.value_offsets.as_mut_ptr(),
                self.value_offsets.len(),
                self.metas.as_mut_ptr(),
                self.metas.len(),
                self.values.as_mut_ptr(),
                self.values.len(),
            )
        };
        assert_eq!(self.used.number, 0);
    }

    fn apply(&self, x: &[f64], y: &mut [f64]) {
        // SAFETY: every pointer and length is a list's used part, and `y` is borrowed alone.
        let answer = unsafe {
            sys::denimrasp_abtm_apply(
                self.row_tile_ptr.len() - 1,
                x.len(),
                self.row_tile_ptr.as_ptr(),
                self.row_tile_ptr.len(),
                self.masks.as_ptr(),
                self.used.tiles,
                self.value_offsets.as_ptr(),
                self.used.tiles,
                self.metas.as_ptr(),
                self.used.tiles,
                self.values.as_ptr(),
                self.used.value_slots,
                self.used.matrix_nnz,
                x.as_ptr(),
                x.len(),
                y.as_mut_ptr(),
                y.len(),
            )
        };
        assert_eq!(answer.number, 0);
    }

    fn expand(&self, mask: &rust::DofMask, out: &mut [u64]) {
        // SAFETY: every pointer and length is a list's used part, and `out` is borrowed alone.
        let answer = unsafe {
            sys::denimrasp_abtm_expand_mask_one_hop(
                mask.len(),
                mask.len(),
                self.row_tile_ptr.as_ptr(),
                self.row_tile_ptr.len(),
                self.masks.as_ptr(),
                self.used.tiles,
                self.value_offsets.as_ptr(),
                self.used.tiles,
                self.metas.as_ptr(),
                self.used.tiles,
                self.values.as_ptr(),
                self.used.value_slots,
                self.used.matrix_nnz,
                mask.len(),
                mask.words().as_ptr(),
                mask.words().len(),
                out.as_mut_ptr(),
                out.len(),
            )
        };
        assert_eq!(answer.number, 0);
    }

    /// Stops unless the lists hold the Rust's tiles.
    fn same(&self, matrix: &rust::AbtmMatrix) {
        let mut at = 0;
        for row in 0..matrix.rows() {
            assert_eq!(self.row_tile_ptr[row] as usize, at);
            for tile in matrix.row_tiles(row).unwrap() {
                let meta = (tile.kind() as u32) << 30 | (tile.base_col() / 64) as u32;
                assert_eq!((self.masks[at], self.metas[at]), (tile.mask, meta));
                assert_eq!(self.value_offsets[at], tile.value_offset);
                at += 1;
            }
        }
        assert_eq!(at, self.used.tiles);
        let values = &self.values[..self.used.value_slots];
        assert_eq!(bits(values), bits(matrix.values()));
    }
}

pub fn times(table: &Table, kind: &Kind, m: &Both, random: &mut Random) {
    let config = rust::AbtmConfig {
        sparse_max_nnz: SPARSE,
        dense_min_nnz: DENSE,
    };
    let build = || rust::AbtmMatrix::from_csr32(&m.rust, config).unwrap();
    let (matrix, mut lists) = (build(), Lists::of(&m.csr));
    lists.same(&matrix);
    let stats = matrix.stats();
    println!(
        "# tiles of {}: {} sparse, {} bitmap, {} dense",
        kind.name, stats.sparse_tiles, stats.bitmap_tiles, stats.dense_tiles
    );
    table.line(
        ("tile_build", kind.name, "-"),
        || timed(|| lists.build(&m.csr)),
        || timed(build),
    );
    let owned = denimrasp::AbtmConfig::default();
    table.line(
        ("tile_build_owned", kind.name, "-"),
        || timed(|| denimrasp::AbtmMatrix::from_csr32(&m.owned, owned)),
        || timed(build),
    );
    product(table, kind, &lists, &matrix, random);
    if kind.nrows == kind.ncols {
        expansions(table, kind, &lists, &matrix, random);
    }
}

fn product(
    table: &Table,
    kind: &Kind,
    lists: &Lists,
    matrix: &rust::AbtmMatrix,
    random: &mut Random,
) {
    let x: Vec<f64> = (0..kind.ncols).map(|_| random.value()).collect();
    let (mut y, mut z) = (vec![0.0; kind.nrows], vec![1.0; kind.nrows]);
    lists.apply(&x, &mut y);
    matrix.apply(&x, &mut z).unwrap();
    assert_eq!(bits(&y), bits(&z));
    table.line(
        ("tile_apply", kind.name, "-"),
        || timed(|| lists.apply(&x, &mut y)),
        || timed(|| matrix.apply(&x, &mut z)),
    );
}

fn expansions(
    table: &Table,
    kind: &Kind,
    lists: &Lists,
    matrix: &rust::AbtmMatrix,
    random: &mut Random,
) {
    for percent in [1, 10, 50] {
        let members = kind.active(percent, random);
        let mask = rust::DofMask::from_indices(kind.ncols, &members).unwrap();
        let mut out = vec![0; mask.words().len()];
        lists.expand(&mask, &mut out);
        assert_eq!(out, matrix.expand_mask_one_hop(&mask).unwrap().words());
        table.line(
            ("tile_expand", kind.name, &percent.to_string()),
            || timed(|| lists.expand(&mask, &mut out)),
            || timed(|| matrix.expand_mask_one_hop(&mask)),
        );
    }
}
