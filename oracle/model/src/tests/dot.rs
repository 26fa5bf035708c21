//! The pruned dot of a row, and of all rows.

use super::faults::{
    Fault, Left, PLACES_OVER, alter, fault, fault_told, in_order, shorten, store_faults, within,
};
use super::{accepted, accepted_with, f, good_mask, good_store, mask, words};
use calls::Call::{self, *};
use calls::{Mask, Store, bits};

/// A store of one row of 130 columns with these columns and values, ascending.
fn one_row(entries: &[(usize, f64)]) -> Store {
    let mut made: Vec<(u32, u64)> = Vec::new();
    for &(col, _) in entries {
        let (word, bit) = ((col / 64) as u32, 1 << (col % 64));
        match made.last_mut() {
            Some(last) if last.0 == word => last.1 |= bit,
            _ => made.push((word, bit)),
        }
    }
    Store {
        words: words((1, 130), &[0, made.len() as u32], &made),
        row_value_ptr: vec![0, entries.len() as u32],
        values: entries.iter().map(|entry| entry.1).collect(),
    }
}

/// The row's dot with every column active but the listed ones, and x of 1.0 but at the listed places.
fn dot(entries: &[(usize, f64)], masked: &[usize], x: &[(usize, f64)], sum: f64, counts: [u64; 5]) {
    let mut words = [u64::MAX, u64::MAX, 3];
    for col in masked {
        words[col / 64] &= !(1 << (col % 64));
    }
    let mut all = vec![1.0; 130];
    for &(col, value) in x {
        all[col] = value;
    }
    let [a, b, c, d, e] = counts;
    let m = mask(130, &words);
    let call = MetadataFirstSparseDotRow(one_row(entries), 0, m.clone(), all.clone());
    accepted(call, [bits(sum), a, b, c, d, e]);
    let (sums, executed) = (vec![9.0; 2], vec![9; 3]);
    let call = MetadataFirstSparseDotRows(one_row(entries), m, all, sums, executed);
    accepted_with(call, [], [&[bits(sum), 0], &[b, 0, 0]]);
}

#[test]
fn edges_of_words() {
    let entries = [
        (62, 1.0),
        (63, 2.0),
        (64, 4.0),
        (65, 8.0),
        (127, 16.0),
        (128, 32.0),
    ];
    dot(&entries, &[], &[], 63.0, [6, 6, 0, 3, 3]);
    dot(&entries, &[63], &[], 61.0, [6, 5, 1, 3, 3]);
    dot(&entries, &[64, 65], &[], 51.0, [6, 4, 2, 3, 3]);
    dot(&entries, &[62, 63], &[], 60.0, [6, 4, 2, 3, 2]);
    dot(&entries, &[64, 65, 127], &[], 35.0, [6, 3, 3, 3, 2]);
    dot(
        &entries,
        &[62, 63, 64, 65, 127, 128],
        &[],
        0.0,
        [6, 0, 6, 3, 0],
    );
    dot(&entries, &[0, 61, 66, 129], &[], 63.0, [6, 6, 0, 3, 3]);
}

#[test]
fn the_value_is_that_of_the_place_among_present_columns() {
    let entries = [(0, 1.0), (1, 10.0), (2, 100.0)];
    dot(
        &entries,
        &[0],
        &[(1, 2.0), (2, 3.0)],
        320.0,
        [3, 2, 1, 1, 1],
    );
    dot(&entries, &[0, 1], &[(2, 3.0)], 300.0, [3, 1, 2, 1, 1]);
}

#[test]
fn sums_ascend_from_zero() {
    let e = f64::EPSILON / 2.0;
    dot(
        &[(3, 1.0), (70, e), (129, e)],
        &[],
        &[],
        1.0,
        [3, 3, 0, 3, 3],
    );
    let last = [(3, e), (70, e), (129, 1.0)];
    dot(&last, &[], &[], 1.0 + 2.0 * e, [3, 3, 0, 3, 3]);
    dot(&last, &[3], &[], 1.0, [3, 2, 1, 3, 2]);
    let near = 1.0 + 2.0 * e;
    let rounded = [(0, -(1.0 + 4.0 * e)), (1, near)];
    dot(&rounded, &[], &[(1, near)], 0.0, [2, 2, 0, 1, 1]);
}

#[test]
fn zeros_are_executed() {
    dot(&[(0, 0.0), (1, -0.0)], &[], &[], 0.0, [2, 2, 0, 1, 1]);
    dot(&[(0, -0.0)], &[], &[], 0.0, [1, 1, 0, 1, 1]);
    dot(&[(0, 1.0)], &[], &[(0, -0.0)], 0.0, [1, 1, 0, 1, 1]);
    let least = f64::from_bits(1);
    dot(
        &[(0, least), (1, least)],
        &[],
        &[],
        f64::from_bits(2),
        [2, 2, 0, 1, 1],
    );
}

#[test]
fn x_counts_only_where_executed() {
    let entries = [(0, 1.0), (1, 0.0), (2, f64::MAX)];
    let inf = f64::INFINITY;
    dot(
        &entries,
        &[1],
        &[(1, inf), (2, 0.5)],
        f64::MAX / 2.0,
        [3, 2, 1, 1, 1],
    );
    dot(&entries, &[], &[(1, inf)], f64::NAN, [3, 3, 0, 1, 1]);
    dot(&entries, &[0, 1], &[(2, 2.0)], inf, [3, 1, 2, 1, 1]);
    dot(
        &entries,
        &[0, 1],
        &[(0, f64::NAN), (99, f64::NAN)],
        f64::MAX,
        [3, 1, 2, 1, 1],
    );
}

#[test]
fn an_empty_row() {
    dot(&[], &[], &[], 0.0, [0; 5]);
}

type Row = (Store, usize, Mask, Vec<f64>);

/// 1 of the store and the mask; 11, 12; 5; 6 of the mask, 6 of the vector of these lengths.
fn dot_faults(mask_len: usize, x_len: usize) -> Vec<Fault<Row>> {
    let mut faults = vec![
        fault(1, |(_, _, m, _): &mut Row| m.len = PLACES_OVER),
        fault(1, |(_, _, m, _): &mut Row| m.len = usize::MAX),
    ];
    faults.extend(within(store_faults(), |(s, ..): &mut Row| s));
    faults.extend([
        fault(5, |(_, _, m, _): &mut Row| shorten(&mut m.words)),
        fault(5, |(_, _, m, _): &mut Row| m.words.push(0)),
        fault(5, |(_, _, m, _): &mut Row| m.words[1] |= 1 << 63),
    ]);
    let other_mask = move |(_, _, m, _): &mut Row| alter(&mut m.len, mask_len);
    faults.push(fault_told((6, 70, mask_len), other_mask));
    let other_x = move |(_, _, _, x): &mut Row| *x = vec![1.0; x_len];
    faults.push(fault_told((6, 70, x_len), other_x));
    faults
}

#[test]
fn refusals_of_a_row() {
    for (mask_len, x_len) in [(69, 71), (71, 69), (127, 0)] {
        let mut faults = dot_faults(mask_len, x_len);
        faults.push(fault(7, |(_, row, ..): &mut Row| *row = 2));
        faults.push(fault(7, |(_, row, ..): &mut Row| *row = usize::MAX));
        let good = (good_store(), 1, good_mask(), vec![1.0; 70]);
        let call = |(s, row, m, x)| MetadataFirstSparseDotRow(s, row, m, x);
        in_order(&good, &faults, call, Left::Nothing);
    }
}

type Rows = (Row, Vec<f64>, Vec<u32>);

#[test]
fn refusals_of_all_rows() {
    let mut faults = within(dot_faults(69, 71), |(row, ..): &mut Rows| row);
    faults.extend([
        fault(13, |(_, sums, _): &mut Rows| *sums = vec![9.0; 1]),
        fault(13, |(_, _, executed): &mut Rows| *executed = vec![9; 1]),
        fault(13, |(_, sums, _): &mut Rows| sums.clear()),
        fault(13, |(_, _, executed): &mut Rows| executed.clear()),
    ]);
    let good = (
        (good_store(), 0, good_mask(), vec![1.0; 70]),
        vec![9.0; 3],
        vec![9; 2],
    );
    let left = Left::Zeros(|(_, sums, executed): &Rows| vec![sums.len(), executed.len()]);
    let call: fn(Rows) -> Call =
        |((s, _, m, x), sums, executed)| MetadataFirstSparseDotRows(s, m, x, sums, executed);
    in_order(&good, &faults, call, left);
}

#[test]
fn all_rows() {
    let m = mask(70, &[9, 2]);
    let call = MetadataFirstSparseDotRows(good_store(), m, vec![2.0; 70], vec![9.0; 2], vec![9; 2]);
    accepted_with(call, [], [&[f(7.0), f(16.0)], &[2, 1]]);
}

#[test]
fn empty_shapes() {
    let store = |nrows: usize| Store {
        words: words((nrows, 0), &vec![0; nrows + 1], &[]),
        row_value_ptr: vec![0; nrows + 1],
        values: vec![],
    };
    let none = mask(0, &[]);
    let call = MetadataFirstSparseDotRow(store(2), 1, none.clone(), vec![]);
    accepted(call, [0; 6]);
    let call = MetadataFirstSparseDotRows(store(2), none.clone(), vec![], vec![9.0; 2], vec![9; 2]);
    accepted_with(call, [], [&[0, 0], &[0, 0]]);
    let call = MetadataFirstSparseDotRows(store(0), none, vec![], vec![], vec![9]);
    accepted_with(call, [], [&[], &[0]]);
}
