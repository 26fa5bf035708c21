//! Document 01's worked plots on tiles, their zeros, their products, and the expansion of a mask.

use denimrasp::{
    AbtmConfig, AbtmMatrix, AbtmMetadataFirstMatrix, AbtmStats, Csr32Matrix, DofMask, HybitError,
    TILE_WIDTH, TileDesc, TileKind,
};

const USUAL: (u8, u8) = (8, 40);

fn one_row(ncols: usize, columns: &[u32], values: &[f64]) -> Csr32Matrix {
    let ends = vec![0, columns.len() as u32];
    Csr32Matrix::new(1, ncols, ends, columns.to_vec(), values.to_vec()).unwrap()
}

fn tiles(csr: &Csr32Matrix, (sparse, dense): (u8, u8)) -> Result<AbtmMatrix, HybitError> {
    let config = AbtmConfig {
        sparse_max_nnz: sparse,
        dense_min_nnz: dense,
    };
    AbtmMatrix::from_csr32(csr, config)
}

/// The tiles of row 0: first column, mask, kind, first value's place.
fn row(matrix: &AbtmMatrix) -> Vec<(usize, u64, TileKind, u32)> {
    let shown = |t: &TileDesc| (t.base_col(), t.mask, t.kind(), t.value_offset);
    matrix.row_tiles(0).unwrap().iter().map(shown).collect()
}

fn refused<T: std::fmt::Debug>(result: Result<T, HybitError>, number: u32, shown: &str) {
    let error = result.unwrap_err();
    assert_eq!(
        (error.number(), error.to_string()),
        (Some(number), shown.to_string())
    );
}

fn product(matrix: &AbtmMatrix, x: &[f64]) -> Vec<f64> {
    let mut y = vec![7.0; matrix.rows()];
    matrix.apply(x, &mut y).unwrap();
    y
}

#[test]
fn the_kind_goes_by_the_count() {
    let kind = |count: u32| {
        let columns: Vec<u32> = (0..count).collect();
        let csr = one_row(64, &columns, &vec![1.0; columns.len()]);
        let matrix = tiles(&csr, (4, 32)).unwrap();
        (row(&matrix)[0].2, matrix.values().len())
    };
    assert_eq!(kind(4), (TileKind::Sparse, 4));
    assert_eq!(kind(5), (TileKind::Bitmap, 5));
    assert_eq!(kind(31), (TileKind::Bitmap, 31));
    assert_eq!(kind(32), (TileKind::Dense, 64));
}

#[test]
fn thresholds() {
    let csr = one_row(70, &[3], &[1.0]);
    assert!(tiles(&csr, (4, 64)).is_ok());
    assert!(tiles(&csr, (1, 2)).is_ok());
    let text = "invalid argument: invalid ABTM density thresholds";
    for bad in [(4, 65), (4, 4), (5, 4), (0, 4), (0, 0), (255, 255)] {
        refused(tiles(&csr, bad), 9, text);
    }
    let usual = AbtmConfig::default();
    assert_eq!((usual.sparse_max_nnz, usual.dense_min_nnz), USUAL);
}

#[test]
fn an_infinite_merged_value_is_kept() {
    let csr = one_row(70, &[5, 5], &[f64::MAX, f64::MAX]);
    let packed = AbtmMetadataFirstMatrix::from_csr32(&csr);
    assert_eq!(packed.unwrap_err().number(), Some(4));
    let matrix = tiles(&csr, USUAL).unwrap();
    assert_eq!(row(&matrix), [(0, 1 << 5, TileKind::Sparse, 0)]);
    assert_eq!(matrix.values(), [f64::INFINITY]);
    assert_eq!(product(&matrix, &[1.0; 70]), [f64::INFINITY]);
}

#[test]
fn zeros_have_no_tile() {
    let columns = [3, 5, 5, 64, 65, 65, 65];
    let values = [-0.0, 1.0, -1.0, 0.0, 2.0, -0.0, 0.5];
    let matrix = tiles(&one_row(70, &columns, &values), USUAL).unwrap();
    assert_eq!(row(&matrix), [(64, 2, TileKind::Sparse, 0)]);
    assert_eq!(matrix.values(), [2.5]);
    let stats = matrix.stats();
    assert_eq!(
        (stats.matrix_nnz, stats.tiles, stats.value_slots),
        (1, 1, 1)
    );
    let cancelled = tiles(&one_row(70, &[5, 5], &[1.0, -1.0]), USUAL).unwrap();
    assert_eq!((row(&cancelled).len(), cancelled.values().len()), (0, 0));
}

#[test]
fn copies_are_added_in_stored_order() {
    let values = [1.0, 1.0e16, -1.0e16];
    let matrix = tiles(&one_row(70, &[5, 5, 5], &values), USUAL).unwrap();
    // 1.0 + 1.0e16 rounds to 1.0e16, so the column ends at zero.
    assert_eq!(matrix.stats().matrix_nnz, 0);
}

/// Columns 0 to 5 of a frame of 6, and nothing at 2: Dense, with 58 slots past the last column.
fn dense() -> AbtmMatrix {
    let columns = [5, 4, 3, 1, 0];
    let values = [32.0, 16.0, 8.0, 2.0, 1.0];
    tiles(&one_row(6, &columns, &values), (1, 5)).unwrap()
}

#[test]
fn a_dense_tile_fills_its_width() {
    let matrix = dense();
    assert_eq!(row(&matrix), [(0, 0b111011, TileKind::Dense, 0)]);
    let mut slots = vec![1.0, 2.0, 0.0, 8.0, 16.0, 32.0];
    slots.resize(TILE_WIDTH, 0.0);
    let bits = |list: &[f64]| list.iter().map(|v| v.to_bits()).collect::<Vec<_>>();
    assert_eq!(bits(matrix.values()), bits(&slots));
}

#[test]
fn a_dense_tile_multiplies_absent_places() {
    let mut x = [1.0; 6];
    assert_eq!(product(&dense(), &x), [59.0]);
    x[2] = f64::INFINITY;
    assert!(product(&dense(), &x)[0].is_nan());
    // A Bitmap tile of the same values does not read that place.
    let columns = [0, 1, 3, 4, 5];
    let csr = one_row(6, &columns, &[1.0, 2.0, 8.0, 16.0, 32.0]);
    assert_eq!(product(&tiles(&csr, (1, 6)).unwrap(), &x), [59.0]);
}

#[test]
fn a_sparse_tile_is_summed_on_its_own() {
    let csr = one_row(70, &[0, 64, 65], &[1.0e16, 1.0, 1.0]);
    let matrix = tiles(&csr, USUAL).unwrap();
    assert_eq!(product(&matrix, &[1.0; 70]), [1.0e16 + (1.0 + 1.0)]);
    // The plot list adds one after another, and so would a Dense tile.
    assert_eq!(csr.spmv(&[1.0; 70]).unwrap(), [(1.0e16 + 1.0) + 1.0]);
}

#[test]
fn figures() {
    let stats = dense().stats();
    let kinds = (stats.sparse_tiles, stats.bitmap_tiles, stats.dense_tiles);
    assert_eq!((stats.nrows, stats.ncols), (1, 6));
    assert_eq!((stats.tiles, kinds), (1, (0, 0, 1)));
    assert_eq!((stats.matrix_nnz, stats.value_slots), (5, 64));
    assert_eq!(stats.metadata_bytes, 4 * 2 + 16);
    assert_eq!(stats.metadata_bytes_per_nnz(), 24.0 / 5.0);
    assert_eq!(stats.total_estimated_bytes(), 24 + 8 * 64);
    let none = AbtmStats::default();
    assert_eq!(
        (none.metadata_bytes_per_nnz(), none.total_estimated_bytes()),
        (0.0, 0)
    );
    let most = AbtmStats {
        value_slots: usize::MAX / 4,
        ..Default::default()
    };
    assert_eq!(most.total_estimated_bytes(), usize::MAX);
}

#[test]
fn many_slots_for_few_entries() {
    // Four Dense tiles of two entries: the lists are first lent for one slot an entry, then long enough.
    let columns = [0, 1, 64, 65, 128, 129, 192, 193];
    let matrix = tiles(&one_row(256, &columns, &[1.0; 8]), (1, 2)).unwrap();
    assert_eq!((matrix.values().len(), row(&matrix).len()), (256, 4));
    assert_eq!(product(&matrix, &[1.0; 256]), [8.0]);
}

#[test]
fn lengths_and_rows() {
    let matrix = dense();
    assert_eq!((matrix.rows(), matrix.cols()), (1, 6));
    let mut y = [7.0];
    let text = "dimension mismatch: expected 6, got 5";
    refused(matrix.apply(&[0.0; 5], &mut y), 6, text);
    let text = "dimension mismatch: expected 1, got 0";
    refused(matrix.apply(&[0.0; 6], &mut []), 6, text);
    assert_eq!(y, [7.0]);
    let text = "invalid argument: ABTM row index out of range";
    refused(matrix.row_tiles(1), 7, text);
    refused(matrix.row_tiles(usize::MAX), 7, text);
}

/// 70 x 70: row 0 holds 1 and 69, row 1 holds 2, row 69 holds 68.
fn square() -> AbtmMatrix {
    let ends = (0..=70u32).map(|row| match row {
        0 => 0,
        1 => 2,
        2..=69 => 3,
        _ => 4,
    });
    let columns = vec![69, 1, 2, 68];
    let csr = Csr32Matrix::new(70, 70, ends.collect(), columns, vec![1.0; 4]).unwrap();
    tiles(&csr, USUAL).unwrap()
}

#[test]
fn one_hop() {
    let expanded = |members: &[usize]| {
        let mask = DofMask::from_indices(70, members).unwrap();
        square().expand_mask_one_hop(&mask).unwrap().indices()
    };
    assert_eq!(expanded(&[]), Vec::<usize>::new());
    assert_eq!(expanded(&[0]), [0, 1, 69]);
    assert_eq!(expanded(&[1, 69]), [1, 2, 68, 69]);
    assert_eq!(expanded(&[5]), [5]);
}

#[test]
fn an_expansion_is_of_a_square_matrix_and_its_length() {
    let text = "invalid matrix: mask expansion requires a square ABTM matrix";
    refused(dense().expand_mask_one_hop(&DofMask::new(6)), 10, text);
    refused(dense().expand_mask_one_hop(&DofMask::new(7)), 10, text);
    let text = "dimension mismatch: expected 70, got 69";
    refused(square().expand_mask_one_hop(&DofMask::new(69)), 6, text);
}
