//! Matrices cut to active columns and to a region: what is kept, in which order and under which number, the figures, the products.

use denimrasp::{
    AbtmConfig, AbtmMatrix, Csr32Matrix, DofMask, HybitError, PreparedColumnRestrictedCsrOperator,
    PreparedLocalCsrOperator,
};

fn refused<T: std::fmt::Debug>(result: Result<T, HybitError>, number: u32, shown: &str) {
    let error = result.unwrap_err();
    assert_eq!(
        (error.number(), error.to_string()),
        (Some(number), shown.to_string())
    );
}

fn mask(len: usize, members: &[usize]) -> DofMask {
    DofMask::from_indices(len, members).unwrap()
}

fn bits(list: &[f64]) -> Vec<u64> {
    list.iter().map(|v| v.to_bits()).collect()
}

/// Stops unless the matrix has these lists.
fn lists(matrix: &Csr32Matrix, ends: &[u32], columns: &[u32], values: &[f64]) {
    assert_eq!((matrix.row_ptr(), matrix.col_idx()), (ends, columns));
    assert_eq!(bits(matrix.values()), bits(values));
    assert_eq!(matrix.validate(), Ok(()));
}

/// 3 x 70, unsorted: copies of 3 that add up, copies of 64 that cancel, a zero at 69, an empty row.
fn matrix() -> Csr32Matrix {
    let columns = vec![65, 3, 64, 3, 64, 69, 2, 65];
    let values = vec![2.0, 1.0, 4.0, 0.5, -4.0, -0.0, 8.0, 16.0];
    Csr32Matrix::new(3, 70, vec![0, 6, 6, 8], columns, values).unwrap()
}

fn tiles(csr: &Csr32Matrix, (sparse, dense): (u8, u8)) -> AbtmMatrix {
    let config = AbtmConfig {
        sparse_max_nnz: sparse,
        dense_min_nnz: dense,
    };
    AbtmMatrix::from_csr32(csr, config).unwrap()
}

fn cut(members: &[usize]) -> PreparedColumnRestrictedCsrOperator {
    let active = mask(70, members);
    PreparedColumnRestrictedCsrOperator::from_csr32(&matrix(), &active).unwrap()
}

#[test]
fn entries_of_active_columns_in_stored_order() {
    let kept = cut(&[3, 65, 69]);
    let values = [2.0, 1.0, 0.5, -0.0, 16.0];
    lists(kept.matrix(), &[0, 4, 4, 5], &[65, 3, 3, 69, 65], &values);
    assert_eq!(kept.active_columns(), &mask(70, &[3, 65, 69]));
    assert_eq!((kept.source_nnz(), kept.retained_nnz()), (8, 5));
    assert_eq!(kept.retained_fraction(), 5.0 / 8.0);
    assert_eq!(kept.storage_bytes(), 4 * 4 + 12 * 5 + 8 * 2);
    let none = cut(&[]);
    lists(none.matrix(), &[0, 0, 0, 0], &[], &[]);
    assert_eq!(none.retained_fraction(), 0.0);
    let all: Vec<usize> = (0..70).collect();
    let (whole, all) = (matrix(), cut(&all));
    let (ends, columns) = (whole.row_ptr(), whole.col_idx());
    lists(all.matrix(), ends, columns, whole.values());
}

#[test]
fn values_of_tiles_in_active_columns_ascending() {
    // Sparse tiles, then Dense ones: the same values.
    for thresholds in [(8, 40), (1, 2)] {
        let source = tiles(&matrix(), thresholds);
        let restrict = |members: &[usize]| {
            PreparedColumnRestrictedCsrOperator::from_abtm(&source, &mask(70, members)).unwrap()
        };
        let kept = restrict(&[3, 64, 65, 69]);
        lists(
            kept.matrix(),
            &[0, 2, 2, 3],
            &[3, 65, 65],
            &[1.5, 2.0, 16.0],
        );
        assert_eq!((kept.source_nnz(), kept.retained_nnz()), (4, 3));
        assert_eq!(kept.retained_fraction(), 0.75);
        assert_eq!(kept.storage_bytes(), 4 * 4 + 12 * 3 + 8 * 2);
        lists(restrict(&[0, 64]).matrix(), &[0, 0, 0, 0], &[], &[]);
    }
}

#[test]
fn a_dense_tile_keeps_its_own_places() {
    let columns = vec![0, 1, 3, 4, 5];
    let values = vec![1.0, 2.0, 8.0, 16.0, 32.0];
    let csr = Csr32Matrix::new(1, 6, vec![0, 5], columns, values).unwrap();
    for thresholds in [(1, 5), (1, 6), (8, 40)] {
        let source = tiles(&csr, thresholds);
        let active = mask(6, &[1, 2, 4, 5]);
        let kept = PreparedColumnRestrictedCsrOperator::from_abtm(&source, &active).unwrap();
        lists(kept.matrix(), &[0, 3], &[1, 4, 5], &[2.0, 16.0, 32.0]);
    }
}

#[test]
fn an_infinite_active_value_is_refused() {
    let csr = Csr32Matrix::new(
        1,
        70,
        vec![0, 3],
        vec![5, 5, 6],
        vec![f64::MAX, f64::MAX, 1.0],
    );
    let source = tiles(&csr.unwrap(), (8, 40));
    let restrict = |members: &[usize]| {
        PreparedColumnRestrictedCsrOperator::from_abtm(&source, &mask(70, members))
    };
    let text = "invalid matrix: matrix contains NaN or infinity";
    refused(restrict(&[5, 6]), 4, text);
    let kept = restrict(&[6]).unwrap();
    lists(kept.matrix(), &[0, 1], &[6], &[1.0]);
}

#[test]
fn a_product_does_not_read_masked_columns() {
    let kept = cut(&[3, 65]);
    assert_eq!((kept.rows(), kept.cols()), (3, 70));
    let mut x = [f64::NAN; 70];
    (x[3], x[65]) = (10.0, 100.0);
    let mut y = [7.0; 3];
    kept.apply(&x, &mut y).unwrap();
    assert_eq!(y, [215.0, 0.0, 1600.0]);
    let text = "dimension mismatch: expected 70, got 69";
    refused(kept.apply(&x[1..], &mut y), 6, text);
    let text = "dimension mismatch: expected 3, got 2";
    refused(kept.apply(&x, &mut y[1..]), 6, text);
    assert_eq!(y, [215.0, 0.0, 1600.0]);
}

#[test]
fn a_mask_has_the_length_of_the_columns() {
    let source = tiles(&matrix(), (8, 40));
    for len in [69, 71, 3] {
        let text = format!("dimension mismatch: expected 70, got {len}");
        let active = mask(len, &[0, 2]);
        let from_csr = PreparedColumnRestrictedCsrOperator::from_csr32(&matrix(), &active);
        refused(from_csr, 6, &text);
        let from_tiles = PreparedColumnRestrictedCsrOperator::from_abtm(&source, &active);
        refused(from_tiles, 6, &text);
    }
}

/// 70 x 70: row 0 holds 69, 1 and 69 again, row 1 holds 2 and a zero at 0, row 69 holds 68 and 0.
fn square() -> Csr32Matrix {
    let ends = (0..=70u32).map(|row| match row {
        0 => 0,
        1 => 3,
        2..=69 => 5,
        _ => 7,
    });
    let columns = vec![69, 1, 69, 2, 0, 68, 0];
    let values = vec![1.0, 2.0, 4.0, 8.0, -0.0, 16.0, 32.0];
    Csr32Matrix::new(70, 70, ends.collect(), columns, values).unwrap()
}

fn local(members: &[usize]) -> PreparedLocalCsrOperator {
    PreparedLocalCsrOperator::from_csr32(&square(), &mask(70, members)).unwrap()
}

#[test]
fn a_region_is_numbered_anew() {
    let region = local(&[0, 5, 69]);
    let values = [1.0, 4.0, 32.0];
    lists(region.matrix(), &[0, 2, 2, 3], &[2, 2, 0], &values);
    assert_eq!((region.global_size(), region.local_nodes()), (70, 3));
    assert_eq!(region.global_nodes(), [0, 5, 69]);
    assert_eq!((region.local_nnz(), region.source_row_nnz()), (3, 5));
    assert_eq!(region.boundary_pruning_ratio(), 1.0 - 3.0 / 5.0);
    assert_eq!(region.storage_bytes(), 4 * 4 + 12 * 3 + 4 * 3);
    let region = local(&[0, 1]);
    lists(region.matrix(), &[0, 1, 2], &[1, 0], &[2.0, -0.0]);
    assert_eq!(region.source_row_nnz(), 5);
}

#[test]
fn an_empty_region_and_a_full_one() {
    let none = local(&[]);
    lists(none.matrix(), &[0], &[], &[]);
    assert_eq!((none.global_nodes(), none.source_row_nnz()), (&[][..], 0));
    assert_eq!(none.boundary_pruning_ratio(), 0.0);
    assert_eq!(none.storage_bytes(), 4);
    assert_eq!(none.gather_input_vec(&[1.0; 70]), Ok(Vec::new()));
    let members: Vec<usize> = (0..70).collect();
    let (whole, all) = (square(), local(&members));
    let (ends, columns) = (whole.row_ptr(), whole.col_idx());
    lists(all.matrix(), ends, columns, whole.values());
    assert_eq!(all.boundary_pruning_ratio(), 0.0);
}

#[test]
fn a_vector_is_gathered_and_multiplied() {
    let region = local(&[0, 5, 69]);
    let global: Vec<f64> = (0..70).map(f64::from).collect();
    let x = region.gather_input_vec(&global).unwrap();
    assert_eq!(x, [0.0, 5.0, 69.0]);
    assert_eq!((region.rows(), region.cols()), (3, 3));
    let mut y = [7.0; 3];
    region.apply(&x, &mut y).unwrap();
    assert_eq!(y, [345.0, 0.0, 0.0]);
    let mut place = [7.0; 3];
    region.gather_input(&global, &mut place).unwrap();
    assert_eq!(place, [0.0, 5.0, 69.0]);
    let text = "dimension mismatch: expected 70, got 69";
    refused(region.gather_input(&global[1..], &mut place[1..]), 6, text);
    let text = "dimension mismatch: expected 3, got 2";
    refused(region.gather_input(&global, &mut place[1..]), 6, text);
    assert_eq!(place, [0.0, 5.0, 69.0]);
    refused(region.apply(&x[1..], &mut y), 6, text);
}

#[test]
fn a_region_is_of_a_square_matrix_and_its_length() {
    let text = "invalid matrix: local R A R preparation requires a square matrix";
    for len in [3, 70, 71] {
        let region = mask(len, &[0, 2]);
        refused(
            PreparedLocalCsrOperator::from_csr32(&matrix(), &region),
            10,
            text,
        );
    }
    for len in [69, 71] {
        let text = format!("dimension mismatch: expected 70, got {len}");
        let region = mask(len, &[0, len - 1]);
        refused(
            PreparedLocalCsrOperator::from_csr32(&square(), &region),
            6,
            &text,
        );
    }
}
