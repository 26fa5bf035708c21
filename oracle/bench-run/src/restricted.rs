//! Matrices cut to active columns, from a plot list and from tiles; on a square matrix those cut to a region, and the region's
//! numbers of a vector.

use crate::matrices::{Csr, Kind, Random};
use crate::tiles;
use crate::timing::{Table, timed};
use crate::{Both, bits};
use denimrasp::sys;
use hybit_matrix as rust;

/// The lists of a cut matrix, of the length that it fills, and its members.
struct Lists {
    row_ptr: Vec<u32>,
    col_idx: Vec<u32>,
    values: Vec<f64>,
    members: Vec<u32>,
}

impl Lists {
    fn new(matrix: &rust::Csr32Matrix, members: usize) -> Self {
        Self {
            row_ptr: vec![0; matrix.nrows() + 1],
            col_idx: vec![0; matrix.nnz()],
            values: vec![0.0; matrix.nnz()],
            members: vec![0; members],
        }
    }

    fn cut_csr(&mut self, m: &Csr, active: &rust::DofMask) {
        // SAFETY: every pointer and length is a list's, and `self` is borrowed alone.
        let answer = unsafe {
            sys::denimrasp_restricted_from_csr32(
                m.nrows,
                m.ncols,
                m.row_ptr.as_ptr(),
                m.row_ptr.len(),
                m.col_idx.as_ptr(),
                m.col_idx.len(),
                m.values.as_ptr(),
                m.values.len(),
                active.len(),
                active.words().as_ptr(),
                active.words().len(),
                self.row_ptr.as_mut_ptr(),
                self.row_ptr.len(),
                self.col_idx.as_mut_ptr(),
                self.col_idx.len(),
                self.values.as_mut_ptr(),
                self.values.len(),
            )
        };
        assert_eq!((answer.number, answer.retained_nnz), (0, self.values.len()));
    }

    fn cut_tiles(&mut self, t: &tiles::Lists, active: &rust::DofMask) {
        // SAFETY: every pointer and length is a list's used part, and `self` is borrowed alone.
        let answer = unsafe {
            sys::denimrasp_restricted_from_abtm(
                t.row_tile_ptr.len() - 1,
                active.len(),
                t.row_tile_ptr.as_ptr(),
                t.row_tile_ptr.len(),
                t.masks.as_ptr(),
                t.used.tiles,
                t.value_offsets.as_ptr(),
                t.used.tiles,
                t.metas.as_ptr(),
                t.used.tiles,
                t.values.as_ptr(),
                t.used.value_slots,
                t.used.matrix_nnz,
                active.len(),
                active.words().as_ptr(),
                active.words().len(),
                self.row_ptr.as_mut_ptr(),
                self.row_ptr.len(),
                self.col_idx.as_mut_ptr(),
                self.col_idx.len(),
                self.values.as_mut_ptr(),
                self.values.len(),
            )
        };
        assert_eq!((answer.number, answer.retained_nnz), (0, self.values.len()));
    }

    fn cut_region(&mut self, m: &Csr, region: &rust::DofMask) {
        // SAFETY: every pointer and length is a list's, and `self` is borrowed alone.
        let answer = unsafe {
            sys::denimrasp_local_from_csr32(
                m.nrows,
                m.ncols,
                m.row_ptr.as_ptr(),
                m.row_ptr.len(),
                m.col_idx.as_ptr(),
                m.col_idx.len(),
                m.values.as_ptr(),
                m.values.len(),
                region.len(),
                region.words().as_ptr(),
                region.words().len(),
                self.members.as_mut_ptr(),
                self.members.len(),
                self.row_ptr.as_mut_ptr(),
                self.row_ptr.len(),
                self.col_idx.as_mut_ptr(),
                self.col_idx.len(),
                self.values.as_mut_ptr(),
                self.values.len(),
            )
        };
        assert_eq!((answer.number, answer.local_nnz), (0, self.values.len()));
    }

    fn gather(&self, global: &[f64], local: &mut [f64]) {
        // SAFETY: every pointer and length is a list's, and `local` is borrowed alone.
        let answer = unsafe {
            sys::denimrasp_local_gather_input(
                global.len(),
                self.members.as_ptr(),
                self.members.len(),
                global.as_ptr(),
                global.len(),
                local.as_mut_ptr(),
                local.len(),
            )
        };
        assert_eq!(answer.number, 0);
    }

    /// Stops unless the lists hold the Rust's matrix.
    fn same(&self, matrix: &rust::Csr32Matrix) {
        assert_eq!(self.row_ptr, matrix.row_ptr());
        assert_eq!(self.col_idx, matrix.col_idx());
        assert_eq!(bits(&self.values), bits(matrix.values()));
    }
}

/// The same columns as a mask of either side.
struct Active {
    rust: rust::DofMask,
    owned: denimrasp::DofMask,
    percent: String,
}

impl Active {
    fn new(kind: &Kind, percent: usize, random: &mut Random) -> Self {
        let columns = kind.active(percent, random);
        Self {
            rust: rust::DofMask::from_indices(kind.ncols, &columns).unwrap(),
            owned: denimrasp::DofMask::from_indices(kind.ncols, &columns).unwrap(),
            percent: percent.to_string(),
        }
    }
}

pub fn times(table: &Table, kind: &Kind, m: &Both, random: &mut Random) {
    for percent in [1, 10, 50] {
        let active = Active::new(kind, percent, random);
        from_csr(table, kind, m, &active);
        from_tiles(table, kind, m, &active);
        if kind.nrows == kind.ncols {
            region(table, kind, m, &active, random);
        }
    }
}

fn from_csr(table: &Table, kind: &Kind, m: &Both, active: &Active) {
    type Ours = denimrasp::PreparedColumnRestrictedCsrOperator;
    type Theirs = rust::PreparedColumnRestrictedCsrOperator;
    let build = || Theirs::from_csr32(&m.rust, &active.rust).unwrap();
    let made = build();
    let mut lists = Lists::new(made.matrix(), 0);
    lists.cut_csr(&m.csr, &active.rust);
    lists.same(made.matrix());
    table.line(
        ("restrict_csr", kind.name, &active.percent),
        || timed(|| lists.cut_csr(&m.csr, &active.rust)),
        || timed(build),
    );
    table.line(
        ("restrict_csr_owned", kind.name, &active.percent),
        || timed(|| Ours::from_csr32(&m.owned, &active.owned)),
        || timed(build),
    );
}

fn from_tiles(table: &Table, kind: &Kind, m: &Both, active: &Active) {
    type Ours = denimrasp::PreparedColumnRestrictedCsrOperator;
    type Theirs = rust::PreparedColumnRestrictedCsrOperator;
    let config = rust::AbtmConfig::default();
    let source = rust::AbtmMatrix::from_csr32(&m.rust, config).unwrap();
    let config = denimrasp::AbtmConfig::default();
    let owned = denimrasp::AbtmMatrix::from_csr32(&m.owned, config).unwrap();
    let tiles = tiles::Lists::of(&m.csr);
    let build = || Theirs::from_abtm(&source, &active.rust).unwrap();
    let made = build();
    let mut lists = Lists::new(made.matrix(), 0);
    lists.cut_tiles(&tiles, &active.rust);
    lists.same(made.matrix());
    table.line(
        ("restrict_abtm", kind.name, &active.percent),
        || timed(|| lists.cut_tiles(&tiles, &active.rust)),
        || timed(build),
    );
    table.line(
        ("restrict_abtm_owned", kind.name, &active.percent),
        || timed(|| Ours::from_abtm(&owned, &active.owned)),
        || timed(build),
    );
}

fn region(table: &Table, kind: &Kind, m: &Both, active: &Active, random: &mut Random) {
    type Ours = denimrasp::PreparedLocalCsrOperator;
    type Theirs = rust::PreparedLocalCsrOperator;
    let build = || Theirs::from_csr32(&m.rust, &active.rust).unwrap();
    let made = build();
    let mut lists = Lists::new(made.matrix(), made.local_nodes());
    lists.cut_region(&m.csr, &active.rust);
    lists.same(made.matrix());
    assert_eq!(lists.members, made.global_nodes());
    table.line(
        ("local_build", kind.name, &active.percent),
        || timed(|| lists.cut_region(&m.csr, &active.rust)),
        || timed(build),
    );
    table.line(
        ("local_build_owned", kind.name, &active.percent),
        || timed(|| Ours::from_csr32(&m.owned, &active.owned)),
        || timed(build),
    );
    let global: Vec<f64> = (0..kind.ncols).map(|_| random.value()).collect();
    let [mut a, mut b] = [0; 2].map(|_| vec![0.0; made.local_nodes()]);
    lists.gather(&global, &mut a);
    made.gather_input(&global, &mut b).unwrap();
    assert_eq!(bits(&a), bits(&b));
    table.line(
        ("gather", kind.name, &active.percent),
        || timed(|| lists.gather(&global, &mut a)),
        || timed(|| made.gather_input(&global, &mut b)),
    );
}
