//! Packed stores: damaged in each way of 11 and 12, and their dots under masks and vectors of all kinds.

use super::{HUGE, INF, MOST, NAN, ONES, mask, store, words};
use crate::make::store_of;
use calls::{Call, Mask, Store, Words};

const VALUES: [f64; 9] = [1.0, 3.0, 0.0, 0.1, 2.5, -7.25, 5e-324, 0.0, f64::MAX];
const VALUE_PTR: [u32; 4] = [0, 5, 5, 9];

/// Three rows of 130 columns, the second empty: columns 0, 63, 64, 127, 129, and 5, 69, 70, 128.
fn trial_words() -> Words {
    let masks = [0x8000_0000_0000_0001, 0x8000_0000_0000_0001, 2, 32, 96, 1];
    words(3, 130, &[0, 3, 3, 6], &[0, 1, 2, 0, 1, 2], &masks)
}

pub fn trial() -> Store {
    store(&trial_words(), &VALUE_PTR, &VALUES)
}

pub fn calls() -> Vec<Call> {
    let mut all = Vec::new();
    questions(&mut all, &trial());
    questions(&mut all, &store(&words(0, 130, &[0], &[], &[]), &[0], &[]));
    questions(
        &mut all,
        &store(&words(1, 0, &[0, 0], &[], &[]), &[0, 0], &[]),
    );
    for s in damaged() {
        handed(&mut all, &s);
    }
    vectors(&mut all);
    operands(&mut all);
    wide(&mut all);
    all
}

/// The check, the figures and every row, with those past the last (7).
fn questions(all: &mut Vec<Call>, s: &Store) {
    all.push(Call::MetadataFirstCheck(s.clone()));
    all.push(Call::MetadataFirstStats(s.clone()));
    for row in (0..=s.words.nrows).chain([HUGE]) {
        all.push(Call::MetadataFirstRowValues(s.clone(), row));
    }
}

/// Each call on a store that is handed in. 1, 11 and 12 come before the 5 and 6 of the other operands, 7 and 13.
fn handed(all: &mut Vec<Call>, s: &Store) {
    let (good, bad) = (mask(130, &[ONES, ONES, 3]), mask(130, &[ONES, ONES, 7]));
    all.push(Call::MetadataFirstCheck(s.clone()));
    all.push(Call::MetadataFirstStats(s.clone()));
    all.push(Call::MetadataFirstRowValues(s.clone(), 0));
    all.push(Call::MetadataFirstRowValues(s.clone(), HUGE));
    all.push(dot(s, 2, &good, &[1.0; 130]));
    all.push(dots(s, &good, &[1.0; 130], 3, 3));
    all.push(dot(s, HUGE, &bad, &[1.0; 3]));
    all.push(dots(s, &bad, &[1.0; 3], 2, 3));
}

pub fn damaged() -> Vec<Store> {
    [damaged_words(), damaged_pointers(), damaged_values()].concat()
}

/// 1, and 11 in each way: pointers, an empty mask, a bit past the columns, a fall, the total, lists of unequal length.
fn damaged_words() -> Vec<Store> {
    let good = trial();
    let changes: [fn(&mut Words); 9] = [
        |w| w.row_word_ptr[3] = 5,
        |w| w.masks[1] = 0,
        |w| w.masks[2] = 4,
        |w| w.word_indices.swap(1, 2),
        |w| w.structural_nnz = 8,
        |w| w.structural_nnz = HUGE,
        |w| w.masks.truncate(5),
        |w| w.nrows = MOST + 1,
        |w| w.ncols = 129,
    ];
    changes
        .map(|change| {
            let mut s = good.clone();
            change(&mut s.words);
            s
        })
        .to_vec()
}

/// 12 by the value pointers: the last below the count, the first not 0, a fall, a row with a value too few or too many, the next
/// one with as many more, one pointer too many or too few, none. 11 before 12.
fn damaged_pointers() -> Vec<Store> {
    let lists: [&[u32]; 9] = [
        &[0, 5, 5, 8],
        &[1, 5, 5, 9],
        &[0, 6, 5, 9],
        &[0, 4, 4, 9],
        &[0, 5, 6, 9],
        &[0, 5, 5, 9, 9],
        &[0, 5, 5],
        &[],
        &[0, 5, 5, u32::MAX],
    ];
    let mut all = lists
        .map(|ptr| store(&trial_words(), ptr, &VALUES))
        .to_vec();
    let mut both = all[0].clone();
    both.words.structural_nnz = 8;
    all.push(both);
    all
}

/// 12 by the values: one too few, one too many (with pointers to match, too), NaN and the infinities first, in the middle and
/// last. -0.0 and the largest value are good. 11 before 12.
fn damaged_values() -> Vec<Store> {
    let ten = [1.0; 10];
    let mut all = vec![
        store(&trial_words(), &VALUE_PTR, &VALUES[..8]),
        store(&trial_words(), &[0, 5, 5, 8], &VALUES[..8]),
        store(&trial_words(), &VALUE_PTR, &ten),
        store(&trial_words(), &[0, 5, 5, 10], &ten),
        store(&trial_words(), &[0, 6, 6, 10], &ten),
    ];
    for place in [0, 4, 8] {
        for value in [NAN, INF, -INF, -0.0, f64::MIN] {
            let mut s = trial();
            s.values[place] = value;
            all.push(s);
        }
    }
    let mut both = trial();
    both.values[8] = NAN;
    both.words.structural_nnz = 8;
    all.push(both);
    all
}

fn dot(s: &Store, row: usize, m: &Mask, x: &[f64]) -> Call {
    Call::MetadataFirstSparseDotRow(s.clone(), row, m.clone(), x.to_vec())
}

fn dots(s: &Store, m: &Mask, x: &[f64], sums: usize, executed: usize) -> Call {
    Call::MetadataFirstSparseDotRows(
        s.clone(),
        m.clone(),
        x.to_vec(),
        vec![7.5; sums],
        vec![77; executed],
    )
}

/// The dots of every row and of one past the last (7), and of all rows.
fn every_dot(all: &mut Vec<Call>, s: &Store, m: &Mask, x: &[f64]) {
    all.extend((0..4).map(|row| dot(s, row, m, x)));
    all.push(dots(s, m, x, 3, 3));
}

/// A good operand or one that is refused, before 7 and 13: a row past the last, lists too short.
fn last_refusals(all: &mut Vec<Call>, s: &Store, m: &Mask, x: &[f64]) {
    all.push(dot(s, 0, m, x));
    all.push(dot(s, 3, m, x));
    all.push(dots(s, m, x, 3, 3));
    all.push(dots(s, m, x, 2, 3));
}

/// Masks that hold all columns, none, and some; vectors of ones, of different numbers, and with NaN and infinities in masked
/// plots, where they don't show, and in active ones.
fn vectors(all: &mut Vec<Call>) {
    let s = trial();
    let full = mask(130, &[ONES, ONES, 3]);
    let none = mask(130, &[0; 3]);
    let some = mask(130, &[1, 65, 1]);
    let ascending: Vec<f64> = (0..130).map(|col| col as f64 + 0.25).collect();
    let mut odd = ascending.clone();
    for (col, value) in [(63, NAN), (127, INF), (129, -INF), (5, NAN), (69, NAN)] {
        odd[col] = value;
    }
    let mut infinite = odd.clone();
    infinite[0] = INF;
    infinite[70] = INF;
    let mut active = infinite.clone();
    active[0] = NAN;
    active[128] = 2.0;
    for m in [&full, &none, &some] {
        for x in [&vec![1.0; 130], &ascending, &odd, &infinite, &active] {
            every_dot(all, &s, m, x);
        }
    }
    // Lists that are longer, each one place short, and empty.
    for (sums, executed) in [(5, 4), (4, 3), (3, 4), (2, 3), (3, 2), (0, 3), (0, 0)] {
        all.push(dots(&s, &some, &ascending, sums, executed));
    }
}

/// 5 by a word too few, one too many, a bit at the length; 6 of the mask and of the vector, by one more and one less; 1 of the
/// mask's length before 11; 12 before 5; of several the first.
fn operands(all: &mut Vec<Call>) {
    let s = trial();
    let x = [1.0; 131];
    let four = [1, 65, 1, 0];
    let masks = [
        (mask(130, &four[..2]), 129),
        (mask(130, &four), 130),
        (mask(130, &[1, 65, 4]), 130),
        (mask(129, &four[..3]), 130),
        (mask(129, &four[..3]), 129),
        (mask(131, &four[..3]), 131),
        (mask(130, &four[..3]), 129),
        (mask(130, &four[..3]), 131),
        (mask(130, &four[..3]), 0),
        (mask(0, &[]), 130),
    ];
    for (m, n) in &masks {
        last_refusals(all, &s, m, &x[..*n]);
    }
    let mut total = trial();
    total.words.structural_nnz = 8;
    last_refusals(all, &total, &mask(MOST + 1, &four[..3]), &x);
    last_refusals(all, &total, &mask(130, &four), &x);
    let infinite = store(&trial_words(), &VALUE_PTR, &[NAN; 9]);
    last_refusals(all, &infinite, &mask(130, &four), &x);
}

/// One row of 4,096 columns, 100 of them present, under every third column; x is subnormal, so that it stays short as text, and
/// the values bring it to size.
fn wide(all: &mut Vec<Call>) {
    let cols: Vec<u32> = (0..100).map(|k| k * 40 + k % 7).collect();
    let values: Vec<f64> = (0..100).map(|k| 1e300 / (k as f64 - 49.5)).collect();
    let c = super::csr(1, 4096, &[0, 100], &cols, &values);
    let s = store_of(model::judge, &c).expect("a good plot list");
    let x: Vec<f64> = (0..4096).map(|col| f64::from_bits(col * 3 + 1)).collect();
    let m = mask(4096, &[0x9249_2492_4924_9249; 64]);
    all.push(dot(&s, 0, &m, &x));
    all.push(dots(&s, &m, &x, 1, 1));
}
