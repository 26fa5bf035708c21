//! The plot list.

use super::faults::{Fault, Left, csr_faults, fault, fault_told, in_order, within};
use super::{accepted, accepted_with, csr, f, good_csr};
use calls::Call::*;
use calls::{Csr, bits};

/// A row of 65 columns with these entries, times x of 1.0 but for the listed places.
fn row_product(entries: &[(u32, f64)], x: &[(usize, f64)], expected: f64) {
    let list = csr((1, 65), &[0, entries.len() as u32], entries);
    let mut all = vec![1.0; 65];
    for &(place, value) in x {
        all[place] = value;
    }
    accepted_with(Csr32Apply(list, all, vec![9.0]), [], [&[bits(expected)]]);
}

#[test]
fn check() {
    in_order(&good_csr(), &csr_faults(), Csr32Check, Left::Nothing);
    for (ncols, last) in [(63, 62), (64, 63), (65, 64)] {
        let list = csr((1, ncols), &[0, 2], &[(last, 1.0), (0, -1.0)]);
        accepted(Csr32Check(list), []);
        let list = csr((1, ncols), &[0, 2], &[(last, 1.0), (0, -1.0)]);
        let past = [fault(3, move |c: &mut Csr| c.col_idx[0] = last + 1)];
        in_order(&list, &past, Csr32Check, Left::Nothing);
    }
}

#[test]
fn every_finite_value_is_accepted() {
    let kept = [0.0, -0.0, f64::from_bits(1), f64::MAX, f64::MIN];
    let entries: Vec<(u32, f64)> = kept.iter().map(|&v| (0, v)).collect();
    accepted(Csr32Check(csr((1, 1), &[0, 5], &entries)), []);
}

#[test]
fn empty_shapes() {
    accepted(Csr32Check(csr((0, 0), &[0], &[])), []);
    accepted(Csr32Check(csr((0, 70), &[0], &[])), []);
    accepted(Csr32Check(csr((3, 0), &[0, 0, 0, 0], &[])), []);
    let call = Csr32Apply(csr((0, 2), &[0], &[]), vec![1.0; 2], vec![]);
    accepted_with(call, [], [&[]]);
    let call = Csr32Apply(csr((2, 0), &[0, 0, 0], &[]), vec![], vec![9.0, f64::NAN]);
    accepted_with(call, [], [&[0, 0]]);
    let faults = [
        fault(2, |c: &mut Csr| c.row_ptr.clear()),
        fault(2, |c: &mut Csr| c.row_ptr[0] = 1),
        fault(2, |c: &mut Csr| c.row_ptr.push(0)),
    ];
    in_order(&csr((0, 0), &[0], &[]), &faults, Csr32Check, Left::Nothing);
    let entry = csr((1, 0), &[0, 0], &[]);
    let faults = [fault(3, |c: &mut Csr| {
        *c = csr((1, 0), &[0, 1], &[(0, 1.0)])
    })];
    in_order(&entry, &faults, Csr32Check, Left::Nothing);
}

#[test]
fn apply() {
    let x: Vec<f64> = (0..70).map(f64::from).collect();
    let call = Csr32Apply(good_csr(), x, vec![9.0; 2]);
    accepted_with(call, [], [&[f(390.5), 0]]);
}

#[test]
fn products_in_stored_order() {
    let e = f64::EPSILON / 2.0;
    // 1 + e rounds to 1; e + e first does not.
    row_product(&[(3, 1.0), (0, e), (64, e)], &[], 1.0);
    row_product(&[(0, e), (64, e), (3, 1.0)], &[], 1.0 + 2.0 * e);
    row_product(&[(5, 1.0), (5, 1e300), (5, -1e300)], &[], 0.0);
    row_product(&[(5, 1e300), (5, -1e300), (5, 1.0)], &[], 1.0);
}

#[test]
fn each_product_is_rounded() {
    // (1 + 2e)² is 1 + 4e + 4e²; fused with −(1 + 4e) it would leave 4e².
    let e = f64::EPSILON / 2.0;
    let near = 1.0 + 2.0 * e;
    row_product(&[(0, -(1.0 + 4.0 * e)), (1, near)], &[(1, near)], 0.0);
}

#[test]
fn signs_of_zero_subnormal_and_largest() {
    row_product(&[(0, -0.0)], &[], 0.0);
    row_product(&[(0, 0.0)], &[(0, -1.0)], 0.0);
    row_product(&[(0, 1.0), (1, -1.0)], &[], 0.0);
    let least = f64::from_bits(1);
    row_product(&[(0, least)], &[], least);
    row_product(&[(0, least)], &[(0, 0.5)], 0.0);
    row_product(&[(0, least), (1, least)], &[], f64::from_bits(2));
    row_product(&[(0, f64::MAX)], &[], f64::MAX);
    row_product(&[(0, f64::MAX), (0, f64::MAX)], &[], f64::INFINITY);
}

#[test]
fn x_may_hold_anything() {
    let inf = f64::INFINITY;
    row_product(&[(0, 0.0)], &[(0, inf)], f64::NAN);
    row_product(&[(0, -2.0)], &[(0, inf)], -inf);
    row_product(&[(0, 1.0), (1, -1.0)], &[(0, inf), (1, inf)], f64::NAN);
    row_product(&[(0, 1.0)], &[(0, -f64::NAN)], f64::NAN);
    row_product(&[(0, 1.0)], &[(1, f64::NAN)], 1.0);
}

type Product = (Csr, Vec<f64>, Vec<f64>);

/// The refusals of the plot list, then 6 for x and 6 for y of these lengths.
fn product_faults(x_len: usize, y_len: usize) -> Vec<Fault<Product>> {
    let mut faults = within(csr_faults(), |(c, ..): &mut Product| c);
    let short_x = move |(_, x, _): &mut Product| *x = vec![1.0; x_len];
    let short_y = move |(_, _, y): &mut Product| *y = vec![-0.0; y_len];
    faults.push(fault_told((6, 70, x_len), short_x));
    faults.push(fault_told((6, 2, y_len), short_y));
    faults
}

#[test]
fn refusals_of_apply() {
    let good = (good_csr(), vec![1.0; 70], vec![9.0, f64::NAN]);
    for (x_len, y_len) in [(69, 1), (71, 3), (0, 0), (2, 70)] {
        let left = Left::Untouched(|(_, _, y): &Product| y.iter().map(|&v| bits(v)).collect());
        let call = |(c, x, y)| Csr32Apply(c, x, y);
        in_order(&good, &product_faults(x_len, y_len), call, left);
    }
}

#[test]
fn bytes() {
    accepted(Csr32MetadataBytes(good_csr()), [4 * 3 + 4 * 5]);
    accepted(Csr32StorageBytes(good_csr()), [4 * 3 + 12 * 5]);
    accepted(Csr32MetadataBytes(csr((0, 0), &[0], &[])), [4]);
    accepted(Csr32StorageBytes(csr((0, 0), &[0], &[])), [4]);
    in_order(
        &good_csr(),
        &csr_faults(),
        Csr32MetadataBytes,
        Left::Nothing,
    );
    in_order(&good_csr(), &csr_faults(), Csr32StorageBytes, Left::Nothing);
}
