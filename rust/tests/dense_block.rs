//! Blocks: which are stored, their figures, the order in which a product adds, the refusals.

use denimrasp::{Csr32Matrix, DenseBlockCsrOperator, DenseBlockSize, HybitError};

const B3: DenseBlockSize = DenseBlockSize::B3;
const B6: DenseBlockSize = DenseBlockSize::B6;

fn refused<T: std::fmt::Debug>(result: Result<T, HybitError>, number: u32, shown: &str) {
    let error = result.unwrap_err();
    assert_eq!(
        (error.number(), error.to_string()),
        (Some(number), shown.to_string())
    );
}

/// The matrix with these entries: row, column, value, in the order of the rows.
fn matrix(nrows: usize, ncols: usize, entries: &[(usize, u32, f64)]) -> Csr32Matrix {
    let ends = (0..=nrows).map(|row| entries.partition_point(|e| e.0 < row) as u32);
    let columns = entries.iter().map(|e| e.1).collect();
    let values = entries.iter().map(|e| e.2).collect();
    Csr32Matrix::new(nrows, ncols, ends.collect(), columns, values).unwrap()
}

fn blocks(matrix: &Csr32Matrix, size: DenseBlockSize) -> DenseBlockCsrOperator {
    DenseBlockCsrOperator::from_csr32(matrix, size).unwrap()
}

fn bits(list: &[f64]) -> Vec<u64> {
    list.iter().map(|v| v.to_bits()).collect()
}

/// Stops unless the product is this one, by the bits.
fn product(operator: &DenseBlockCsrOperator, x: &[f64], y: &[f64]) {
    let mut found = vec![7.0; y.len()];
    operator.apply(x, &mut found).unwrap();
    assert_eq!(bits(&found), bits(y));
}

#[test]
fn widths() {
    const WIDTHS: [usize; 2] = [B3.width(), B6.width()];
    assert_eq!(WIDTHS, [3, 6]);
    let operator = blocks(&matrix(4, 4, &[]), B6);
    assert_eq!((operator.block_size(), operator.block_width()), (B6, 6));
}

/// Document 01's worked plot: 4 by 4 with (0,0) and (0,3), width 3: fraction 0.5.
#[test]
fn a_block_and_a_tail() {
    let m = matrix(4, 4, &[(0, 0, 1.0), (0, 3, 2.0)]);
    let operator = blocks(&m, B3);
    assert_eq!(operator.fast_block_fraction(), 0.5);
    assert_eq!((operator.rows(), operator.cols()), (4, 4));
    assert_eq!(operator.unique_blocks(), 2);
    assert_eq!(operator.structural_slots(), 2);
    assert_eq!(operator.dense_value_slots(), 18);
    assert_eq!(operator.block_fill(), 2.0 / 12.0);
    assert_eq!(operator.value_padding_ratio(), 9.0);
    assert_eq!(operator.metadata_bytes(), 4 * 3 + 4 * 2);
    assert_eq!(operator.storage_bytes(), 20 + 8 * 18);
    product(&operator, &[10.0, 0.0, 0.0, 0.5], &[11.0, 0.0, 0.0, 0.0]);
    let six = blocks(&m, B6);
    assert_eq!((six.unique_blocks(), six.fast_block_fraction()), (1, 0.0));
    assert_eq!((six.block_fill(), six.value_padding_ratio()), (0.125, 18.0));
}

/// The lists are private, as in hybit; `{:?}` has them.
#[test]
fn blocks_are_printed_as_hybit_prints_them() {
    let m = matrix(2, 4, &[(0, 3, 2.0), (0, 0, -0.0), (1, 0, 1.0), (1, 0, 0.5)]);
    let shown = "DenseBlockCsrOperator { nrows: 2, ncols: 4, block_size: B3, row_ptr: [0, 2], col_idx: [0, 1], \
        values: [0.0, 0.0, 0.0, 1.5, 0.0, 0.0, 0.0, 0.0, 0.0, 2.0, 0.0, 0.0, 0.0, 0.0, 0.0, 0.0, 0.0, 0.0], \
        structural_slots: 3, valid_dense_slots: 8 }";
    assert_eq!(format!("{:?}", blocks(&m, B3)), shown);
}

/// Zeros and cancelling copies are entries: their block is stored, their places count.
#[test]
fn zeros_have_their_block() {
    let m = matrix(
        1,
        9,
        &[(0, 8, 0.0), (0, 1, 1.0), (0, 1, -1.0), (0, 2, -0.0)],
    );
    let operator = blocks(&m, B3);
    assert_eq!(
        (operator.unique_blocks(), operator.structural_slots()),
        (2, 3)
    );
    product(&operator, &[1.0; 9], &[0.0]);
    let none = blocks(&matrix(5, 9, &[]), B3);
    assert_eq!((none.unique_blocks(), none.dense_value_slots()), (0, 0));
    assert_eq!((none.block_fill(), none.value_padding_ratio()), (0.0, 0.0));
    assert_eq!(
        (none.fast_block_fraction(), none.metadata_bytes()),
        (0.0, 12)
    );
    product(&none, &[f64::NAN; 9], &[0.0; 5]);
}

#[test]
fn empty_shapes() {
    for (nrows, ncols) in [(0, 0), (0, 7), (7, 0)] {
        for size in [B3, B6] {
            let operator = blocks(&matrix(nrows, ncols, &[]), size);
            assert_eq!((operator.rows(), operator.cols()), (nrows, ncols));
            let pointers = nrows.div_ceil(size.width()) + 1;
            assert_eq!(operator.storage_bytes(), 4 * pointers);
            product(&operator, &vec![1.0; ncols], &vec![0.0; nrows]);
        }
    }
}

/// Any number of copies is added in stored order, from 0.0; a sum may be infinite.
#[test]
fn copies_in_stored_order() {
    let half = f64::EPSILON / 2.0;
    for size in [B3, B6] {
        let sum = |values: &[f64]| {
            let entries: Vec<_> = values.iter().map(|&value| (0, 5, value)).collect();
            let mut y = [7.0];
            let operator = blocks(&matrix(1, 6, &entries), size);
            assert_eq!(operator.structural_slots(), 1);
            operator
                .apply(&[0.0, 0.0, 0.0, 0.0, 0.0, 1.0], &mut y)
                .unwrap();
            y[0]
        };
        assert_eq!(sum(&[1.0, half, half]), 1.0);
        assert_eq!(sum(&[half, half, 1.0]), 1.0 + 2.0 * half);
        assert_eq!(sum(&[f64::MAX, f64::MAX, f64::MIN]), f64::INFINITY);
    }
}

/// 1.0 takes half an ulp twice only where both are added to one number first: in a full block, and in a block of a partial row.
#[test]
fn the_order_of_a_product() {
    let half = f64::EPSILON / 2.0;
    let more = 1.0 + 2.0 * half;
    for (size, w) in [(B3, 3), (B6, 6)] {
        let columns = [0, w as u32, w as u32 + 1];
        for (nrows, ncols, sum) in [
            (w, 2 * w, more),
            (w, w + 2, 1.0),
            (1, 2 * w, more),
            (1, w + 2, more),
        ] {
            let row = nrows - 1;
            let values = [1.0, half, half];
            let entries = [0, 1, 2].map(|place| (row, columns[place], values[place]));
            let mut y = vec![0.0; nrows];
            y[row] = sum;
            let operator = blocks(&matrix(nrows, ncols, &entries), size);
            product(&operator, &vec![1.0; ncols], &y);
        }
    }
}

/// A place of a block without an entry is 0.0 times x: a NaN there shows. A column without a block isn't read.
#[test]
fn a_product_reads_whole_blocks() {
    let operator = blocks(&matrix(3, 7, &[(0, 1, 2.0), (2, 6, 4.0)]), B3);
    let mut x = [1.0; 7];
    product(&operator, &x, &[2.0, 0.0, 4.0]);
    x[4] = f64::NAN;
    product(&operator, &x, &[2.0, 0.0, 4.0]);
    x[0] = f64::INFINITY;
    let mut y = [7.0; 3];
    operator.apply(&x, &mut y).unwrap();
    assert!(y.iter().all(|v| v.is_nan()));
}

#[test]
fn lengths_are_checked_and_leave_y() {
    let operator = blocks(&matrix(4, 7, &[(0, 1, 2.0)]), B6);
    let mut y = [7.0; 4];
    let text = "dimension mismatch: expected 7, got 6";
    refused(operator.apply(&[1.0; 6], &mut y[1..]), 6, text);
    let text = "dimension mismatch: expected 4, got 3";
    refused(operator.apply(&[1.0; 7], &mut y[1..]), 6, text);
    assert_eq!(y, [7.0; 4]);
}

/// Blocks in every frame of up to 20 rows and columns, beside what the entries say.
#[test]
fn frames() {
    for (nrows, ncols) in (0..=20).flat_map(|r| (0..=20).map(move |c| (r, c))) {
        let places = (0..nrows).flat_map(|row| (0..ncols).map(move |col| (row, col)));
        let entries: Vec<_> = places
            .filter(|(row, col)| (3 * row + col) % 4 == 0)
            .map(|(row, col)| (row, col as u32, 1.0))
            .collect();
        for size in [B3, B6] {
            let w = size.width();
            let mut found: Vec<_> = entries
                .iter()
                .map(|e| (e.0 / w, e.1 as usize / w))
                .collect();
            found.sort_unstable();
            found.dedup();
            let fast =
                |&(row, col): &(usize, usize)| (row + 1) * w <= nrows && (col + 1) * w <= ncols;
            let fast = found.iter().copied().filter(fast).count();
            let operator = blocks(&matrix(nrows, ncols, &entries), size);
            assert_eq!(operator.unique_blocks(), found.len());
            assert_eq!(operator.structural_slots(), entries.len());
            let fraction = fast as f64 / found.len().max(1) as f64;
            assert_eq!(operator.fast_block_fraction(), fraction);
            let rows = |row| entries.iter().filter(|e| e.0 == row).count() as f64;
            let y: Vec<f64> = (0..nrows).map(rows).collect();
            product(&operator, &vec![1.0; ncols], &y);
        }
    }
}
