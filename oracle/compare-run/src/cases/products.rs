//! Row products whose bits show the order of rounding.

use super::{INF, NAN, csr};
use crate::rng::Rng;
use calls::Call;

const BEFORE: f64 = 7.5;
/// Half a unit in the last place of 1.0.
const HALF_UNIT: f64 = 1.1102230246251565e-16;

pub fn calls() -> Vec<Call> {
    let mut all = Vec::new();
    let groups = [
        rounding(),
        not_fused(),
        zeros(),
        small_numbers(),
        large_numbers(),
        odd_vectors(),
    ];
    for (values, x) in groups.concat() {
        row(&mut all, &values, &x);
    }
    all.push(rows_apart());
    all.extend((0..14).map(side_by_side));
    all.push(long_row());
    all
}

type Row = ([f64; 3], [f64; 3]);

/// One row of three entries, in stored order and in others, and with a column twice.
fn row(all: &mut Vec<Call>, values: &[f64; 3], x: &[f64; 3]) {
    for cols in [[0, 1, 2], [2, 1, 0], [1, 2, 0], [2, 0, 2]] {
        let c = csr(1, 3, &[0, 3], &cols, values);
        all.push(Call::Csr32Apply(c, x.to_vec(), vec![BEFORE]));
    }
}

/// Sums that another order rounds otherwise.
fn rounding() -> Vec<Row> {
    let ones = [1.0; 3];
    let large = [1e16, 1.0, -1e16];
    let tenths = [0.1, 0.2, 0.3];
    vec![
        (large, ones),
        (ones, large),
        ([1e16, -1e16, 1.0], ones),
        ([1.0, HALF_UNIT, HALF_UNIT], ones),
        ([HALF_UNIT, HALF_UNIT, 1.0], ones),
        (tenths, ones),
        (tenths, tenths),
    ]
}

/// A product that is fused with its sum, or a sum that starts elsewhere, would differ.
fn not_fused() -> Vec<Row> {
    vec![
        ([-1.0, 0.1, 0.0], [1.0, 10.0, 1.0]),
        (
            [1.0000000000000002, -1.0, 0.5],
            [0.9999999999999999, 1.0, 3.0],
        ),
        (
            [0.3333333333333333, -1.0, 0.3333333333333333],
            [3.0, 1.0, 3.0000000000000004],
        ),
    ]
}

/// Zeros of either sign: a sum from 0.0 is never -0.0.
fn zeros() -> Vec<Row> {
    let (minus_zeros, ones, minus_ones) = ([-0.0; 3], [1.0; 3], [-1.0; 3]);
    vec![
        (minus_zeros, ones),
        ([0.0; 3], minus_ones),
        (minus_zeros, minus_ones),
        (minus_ones, minus_zeros),
        ([2.5, -2.5, -0.0], ones),
    ]
}

/// Subnormal numbers, and products that round to them or to nothing.
fn small_numbers() -> Vec<Row> {
    let smallest = [5e-324, -5e-324, 1e-323];
    let halves = [0.5, 1.5, -0.5];
    let tiny = [1e-200, 1e-160, 3e-162];
    vec![
        (smallest, halves),
        (smallest, [0.25, 0.75, 0.125]),
        (
            [2.2250738585072014e-308, 2.225073858507201e-308, 1.0],
            halves,
        ),
        (tiny, tiny),
    ]
}

/// Overflow, and numbers just below it.
fn large_numbers() -> Vec<Row> {
    let largest = [f64::MAX, f64::MAX, f64::MIN];
    // Half a unit in the last place of the largest value is 2^970; the number just below it, and it.
    let near_tie = [9.979201547673598e291, 9.9792015476736e291, 1.0];
    let huge = [1e200, -1e200, 1e108];
    vec![
        (largest, [1.0; 3]),
        (largest, [2.0, -2.0, 0.5]),
        (largest, near_tie),
        (near_tie, [1.0; 3]),
        (huge, huge),
    ]
}

/// x may hold anything; a column without an entry is not read.
fn odd_vectors() -> Vec<Row> {
    let values = [2.0, 0.0, -0.5];
    let vectors = [
        [INF, 1.0, 2.0],
        [1.0, -INF, 3.0],
        [INF, 1.0, INF],
        [0.0, INF, -INF],
        [NAN, 1.0, 2.0],
        [1.0, 2.0, NAN],
    ];
    vectors.map(|x| (values, x)).to_vec()
}

/// One row's NaN or infinity is no other's.
fn rows_apart() -> Call {
    let c = csr(
        5,
        4,
        &[0, 1, 1, 3, 6, 7],
        &[1, 0, 1, 2, 0, 2, 3],
        &[3.0, 1e16, 1.0, 1.0, 1.0, 1.0, -0.0],
    );
    Call::Csr32Apply(c, vec![1.0, 0.1, NAN, INF], vec![BEFORE; 5])
}

/// The port sums rows of each third of the matrix side by side: every number of rows up to 13, of different lengths.
fn side_by_side(nrows: usize) -> Call {
    let mut rng = Rng::new(nrows as u64);
    let (mut ptr, mut cols, mut values) = (vec![0], vec![], vec![]);
    for row in 0..nrows {
        for _ in 0..row % 5 {
            cols.push(rng.below(7) as u32);
            values.push((rng.below(2001) as f64 - 1000.0) / 7.0);
        }
        ptr.push(cols.len() as u32);
    }
    let x = (0..7).map(|k| 1.0 / (k + 1) as f64).collect();
    Call::Csr32Apply(csr(nrows, 7, &ptr, &cols, &values), x, vec![BEFORE; nrows])
}

/// 4,096 entries of one row: subnormal values, so that they stay short as text, and an x that brings them to size.
fn long_row() -> Call {
    let cols: Vec<u32> = (0..4096).map(|k| k * 31 % 64).collect();
    let values: Vec<f64> = (0..4096).map(|k| f64::from_bits(k * 7 % 1009)).collect();
    let x = (0..64).map(|k| 1e300 / (k as f64 - 20.5)).collect();
    let c = csr(3, 64, &[0, 0, 4096, 4096], &cols, &values);
    Call::Csr32Apply(c, x, vec![BEFORE; 3])
}
