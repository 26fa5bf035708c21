//! Each refusal that the types of the crate can meet: its variant, text, number, and what is left unchanged.

use denimrasp::{
    AbtmMetadataFirstMatrix, AbtmProductPruningStats, AbtmTopology, Csr32Matrix, DofMask,
    HybitError,
};

const LIMIT: usize = 1 << 20;

fn refused<T: std::fmt::Debug>(result: Result<T, HybitError>, number: u32, shown: &str) {
    let error = result.unwrap_err();
    assert_eq!(
        (error.number(), error.to_string()),
        (Some(number), shown.to_string())
    );
}

fn csr(
    shape: (usize, usize),
    ends: &[u32],
    columns: &[u32],
    values: &[f64],
) -> Result<Csr32Matrix, HybitError> {
    Csr32Matrix::new(
        shape.0,
        shape.1,
        ends.to_vec(),
        columns.to_vec(),
        values.to_vec(),
    )
}

fn store(nrows: usize) -> AbtmMetadataFirstMatrix {
    let ends: Vec<u32> = (0..=nrows as u32).collect();
    let columns: Vec<u32> = (0..nrows as u32).collect();
    let matrix = csr((nrows, 70), &ends, &columns, &vec![1.0; nrows]).unwrap();
    AbtmMetadataFirstMatrix::from_csr32(&matrix).unwrap()
}

const OVER_SIZE: &str = "matrix or index size exceeds the selected representation";

#[test]
fn over_size() {
    refused(DofMask::try_new(LIMIT + 1), 1, OVER_SIZE);
    refused(DofMask::try_new(usize::MAX), 1, OVER_SIZE);
    refused(DofMask::from_indices(usize::MAX, &[7]), 1, OVER_SIZE);
    assert_eq!(DofMask::try_new(LIMIT).unwrap().words().len(), LIMIT / 64);
    refused(csr((0, LIMIT + 1), &[0], &[], &[]), 1, OVER_SIZE);
    refused(csr((usize::MAX, 1), &[], &[], &[]), 1, OVER_SIZE);
    assert!(csr((0, LIMIT), &[0], &[], &[]).is_ok());
}

#[test]
fn too_many_entries() {
    let most = 1 << 24;
    let long = Csr32Matrix::new(1, 1, vec![0, 0], vec![0; most + 1], vec![0.0; most]);
    refused(long, 1, OVER_SIZE);
    let long = Csr32Matrix::new(1, 1, vec![0, 0], vec![0; most], vec![0.0; most + 1]);
    refused(long, 1, OVER_SIZE);
}

#[test]
#[should_panic(expected = "a mask of length 1048577 is above 1048576")]
fn new_stops_above_the_limit() {
    DofMask::new(LIMIT + 1);
}

#[test]
fn bad_frames() {
    let text = "invalid matrix: row_ptr length must equal nrows + 1";
    refused(csr((2, 5), &[0, 1], &[0], &[1.0]), 2, text);
    refused(csr((0, 5), &[], &[], &[]), 2, text);
    let text = "invalid matrix: col_idx and values lengths differ";
    refused(csr((1, 5), &[0, 1], &[0], &[1.0, 2.0]), 2, text);
    let text = "invalid matrix: row_ptr[0] must be zero";
    refused(csr((1, 5), &[1, 1], &[0], &[1.0]), 2, text);
    let text = "invalid matrix: row_ptr[nrows] must equal nnz";
    refused(csr((1, 5), &[0, 2], &[0], &[1.0]), 2, text);
    let text = "invalid matrix: row_ptr must be monotonically nondecreasing";
    refused(csr((2, 5), &[0, 2, 1], &[0], &[1.0]), 2, text);
}

#[test]
fn bad_entries() {
    let text = "invalid matrix: column index out of range";
    refused(csr((1, 5), &[0, 1], &[5], &[1.0]), 3, text);
    let text = "invalid matrix: matrix contains NaN or infinity";
    refused(csr((1, 5), &[0, 1], &[4], &[f64::NAN]), 4, text);
    refused(csr((1, 5), &[0, 1], &[4], &[f64::NEG_INFINITY]), 4, text);
}

#[test]
fn lengths_differ() {
    let matrix = csr((2, 3), &[0, 0, 1], &[2], &[4.0]).unwrap();
    let mut y = [7.0, 7.0];
    let text = "dimension mismatch: expected 3, got 2";
    refused(matrix.apply(&[0.0; 2], &mut y), 6, text);
    let text = "dimension mismatch: expected 2, got 1";
    refused(matrix.apply(&[0.0; 3], &mut y[..1]), 6, text);
    assert_eq!(y, [7.0, 7.0]);
    let (mut a, b) = (DofMask::new(5), DofMask::new(6));
    let text = "dimension mismatch: expected 5, got 6";
    refused(a.union_assign(&b), 6, text);
    refused(a.intersect_assign(&b), 6, text);
    refused(a.and_not_assign(&b), 6, text);
    refused(a.intersects(&b), 6, text);
}

#[test]
fn a_dot_looks_at_the_mask_then_the_vector_then_the_row() {
    let store = store(2);
    let text = "dimension mismatch: expected 70, got 69";
    refused(
        store.sparse_dot_row(2, &DofMask::new(69), &[0.0; 68]),
        6,
        text,
    );
    refused(
        store.sparse_dot_rows(&DofMask::new(69), &[0.0; 68]),
        6,
        text,
    );
    let text = "dimension mismatch: expected 70, got 68";
    refused(
        store.sparse_dot_row(2, &DofMask::new(70), &[0.0; 68]),
        6,
        text,
    );
    refused(
        store.sparse_dot_rows(&DofMask::new(70), &[0.0; 68]),
        6,
        text,
    );
    let text = "invalid argument: ABTM topology row index out of range";
    refused(
        store.sparse_dot_row(2, &DofMask::new(70), &[0.0; 70]),
        7,
        text,
    );
}

#[test]
fn no_such_place() {
    let text = "invalid argument: DOF mask index out of range";
    let mut mask = DofMask::from_indices(70, &[1]).unwrap();
    refused(mask.set(70, true), 7, text);
    refused(mask.set(usize::MAX, false), 7, text);
    assert_eq!(mask.indices(), [1]);
    refused(DofMask::from_indices(70, &[1, 70]), 7, text);
    let store = store(2);
    let text = "invalid argument: ABTM topology row index out of range";
    refused(store.topology().row(2), 7, text);
    let text = "invalid argument: ABTM G2 row index out of range";
    refused(store.row_values(usize::MAX), 7, text);
    let row = store.topology().row(1).unwrap();
    let text = "invalid argument: ABTM topology row rank column out of range";
    refused(row.rank(71), 7, text);
    let text = "invalid argument: ABTM topology rank offset out of range";
    refused(row.words().next().unwrap().rank(65), 7, text);
}

#[test]
fn frames_differ() {
    let (a, b) = (store(2), store(3));
    let text = "invalid argument: ABTM topology dimensions differ";
    let (a, b) = (a.topology(), b.topology());
    refused(a.union(b), 8, text);
    refused(a.intersection(b), 8, text);
    refused(a.and_not(b), 8, text);
    refused(a.xor(b), 8, text);
}

#[test]
fn totals_above_the_largest_number_change_nothing() {
    let full = AbtmProductPruningStats {
        candidate_products: 1,
        active_words: usize::MAX,
        ..Default::default()
    };
    let mut totals = full;
    refused(totals.accumulate(full), 1, OVER_SIZE);
    assert_eq!(totals, full);
    let one = AbtmProductPruningStats {
        executed_products: 2,
        ..Default::default()
    };
    totals.accumulate(one).unwrap();
    assert_eq!(
        (totals.executed_products, totals.active_words),
        (2, usize::MAX)
    );
}

#[test]
fn a_built_value_is_accepted_again() {
    let store = store(3);
    assert_eq!(store.validate(), Ok(()));
    assert_eq!(store.topology().validate(), Ok(()));
    let empty = AbtmTopology::from_csr32(&csr((0, 0), &[0], &[], &[]).unwrap()).unwrap();
    assert_eq!(
        (empty.validate(), empty.stats().metadata_bytes),
        (Ok(()), 4)
    );
}

#[test]
fn a_text_of_someone_else_has_no_number() {
    assert_eq!(HybitError::InvalidMatrix("else").number(), None);
    let other_kind = HybitError::InvalidArgument("column index out of range");
    assert_eq!(other_kind.number(), None);
}
