//! Plot lists: each refusal of the check in each of its ways, refusals that compete, frames without rows or columns.

use super::{HUGE, INF, MOST, NAN, csr};
use calls::{Call, Csr};

/// The list that the others are damaged from: an empty row, columns unsorted and twice.
const PTR: [u32; 5] = [0, 2, 2, 5, 7];
const COL: [u32; 7] = [5, 0, 3, 3, 1, 0, 5];
const VAL: [f64; 7] = [1.5, -2.0, 0.25, 0.5, -0.75, 1e16, 3.0];
const X: [f64; 7] = [1.0, 2.0, 3.0, -4.0, 5.0, 0.5, 6.0];
/// What y holds before a product.
const BEFORE: f64 = 7.5;

fn good() -> Csr {
    csr(4, 6, &PTR, &COL, &VAL)
}

pub fn calls() -> Vec<Call> {
    let mut all = Vec::new();
    let lists = [
        sizes(),
        pointer_lists(),
        lists_unequal(),
        outside_columns(),
        values(),
        several_faults(),
        empty_frames(),
    ];
    for c in lists.concat() {
        every_call(&mut all, c);
    }
    for c in long_lists() {
        // What y holds before is short as text.
        let (x, y) = (X[..6].to_vec(), vec![5e-324; c.nrows]);
        all.push(Call::Csr32Apply(c.clone(), x, y));
        all.push(Call::Csr32Check(c));
    }
    vectors(&mut all);
    all
}

fn apply(c: &Csr, x: usize, y: usize) -> Call {
    Call::Csr32Apply(c.clone(), X[..x].to_vec(), vec![BEFORE; y])
}

/// All calls on one plot list; the product with vectors for four rows and six columns, and with both of another length, so that
/// 6 comes last.
fn every_call(all: &mut Vec<Call>, c: Csr) {
    all.push(apply(&c, 6, 4));
    all.push(apply(&c, 4, 6));
    all.push(Call::Csr32MetadataBytes(c.clone()));
    all.push(Call::Csr32StorageBytes(c.clone()));
    all.push(Call::Csr32Check(c));
}

/// 6 of x and of y, which leaves y as it was: x is told first.
fn vectors(all: &mut Vec<Call>) {
    for (x, y) in [
        (0, 4),
        (5, 4),
        (7, 4),
        (6, 0),
        (6, 3),
        (6, 5),
        (7, 5),
        (0, 0),
    ] {
        all.push(apply(&good(), x, y));
    }
    let rows = csr(4, 0, &[0; 5], &[], &[]);
    let columns = csr(0, 6, &[0], &[], &[]);
    let nothing = csr(0, 0, &[0], &[], &[]);
    for (x, y) in [(0, 4), (6, 0), (0, 0), (1, 1)] {
        all.extend([&rows, &columns, &nothing].map(|c| apply(c, x, y)));
    }
}

/// 1 for rows and columns: 2^20 lies in the domain. 2 for rows without pointers.
fn sizes() -> Vec<Csr> {
    let frames = [
        (4, 6),
        (4, MOST),
        (4, MOST + 1),
        (4, HUGE),
        (MOST, 6),
        (MOST + 1, 6),
        (HUGE, 6),
        (HUGE, HUGE),
        (5, 6),
        (3, 6),
    ];
    frames
        .map(|(nrows, ncols)| csr(nrows, ncols, &PTR, &COL, &VAL))
        .to_vec()
}

/// 2 by the pointers: none, one too few, one too many; the first not 0; the last below and above the count; a fall in the middle
/// and at the end, a pointer far past the count.
fn pointer_lists() -> Vec<Csr> {
    let lists: [&[u32]; 10] = [
        &[],
        &[0, 2, 2, 7],
        &[0, 2, 2, 5, 7, 7],
        &[1, 2, 2, 5, 7],
        &[0, 2, 2, 5, 6],
        &[0, 2, 2, 5, 8],
        &[0, 2, 1, 5, 7],
        &[0, 9, 9, 9, 7],
        &[0, 2, 2, 8, 7],
        &[0, 2, u32::MAX, 5, 7],
    ];
    lists.map(|ptr| csr(4, 6, ptr, &COL, &VAL)).to_vec()
}

/// 2 by lists of unequal length, or both of another length than the last pointer says; the last one is good.
fn lists_unequal() -> Vec<Csr> {
    let six = [0, 2, 2, 5, 6];
    vec![
        csr(4, 6, &PTR, &COL[..6], &VAL),
        csr(4, 6, &six, &COL, &VAL[..6]),
        csr(4, 6, &PTR, &COL, &VAL[..6]),
        csr(4, 6, &six, &COL[..6], &VAL),
        csr(4, 6, &PTR, &COL[..6], &VAL[..6]),
        csr(4, 6, &six, &COL[..6], &VAL[..6]),
    ]
}

/// 3 at the first, a middle and the last place, by one and by far; a narrower frame; the last column of the domain.
fn outside_columns() -> Vec<Csr> {
    let mut all = vec![csr(4, 5, &PTR, &COL, &VAL), csr(4, 0, &PTR, &COL, &VAL)];
    for place in [0, 3, 6] {
        for (ncols, col) in [(6, 6), (6, u32::MAX), (MOST, 1_048_575), (MOST, 1_048_576)] {
            let mut c = csr(4, ncols, &PTR, &COL, &VAL);
            c.col_idx[place] = col;
            all.push(c);
        }
    }
    all
}

/// 4 for NaN and the infinities at the first, a middle and the last place; the largest, the smallest and both zeros are none.
fn values() -> Vec<Csr> {
    let mut all = Vec::new();
    for place in [0, 3, 6] {
        for value in [NAN, INF, -INF, f64::MAX, f64::MIN, 5e-324, 0.0, -0.0] {
            let mut c = good();
            c.values[place] = value;
            all.push(c);
        }
    }
    all
}

/// Several faults at once: the first in the order 1, 2, 3, 4 is told, and 6 after them all.
fn several_faults() -> Vec<Csr> {
    let fall = [0, 2, 1, 5, 7];
    let faulty = |nrows, ncols, ptr: &[u32], value, col| {
        let mut c = csr(nrows, ncols, ptr, &COL, &VAL);
        c.values[1] = value;
        c.col_idx[2] = col;
        c
    };
    vec![
        faulty(MOST + 1, 6, &fall, INF, 6),
        faulty(4, MOST + 1, &fall, INF, 1_048_577),
        faulty(4, MOST + 1, &PTR, INF, 1_048_577),
        faulty(4, MOST + 1, &PTR, INF, 3),
        faulty(4, 6, &fall, INF, 6),
        faulty(4, 6, &fall, INF, 3),
        faulty(4, 6, &fall, 2.0, 6),
        faulty(4, 6, &PTR, INF, 6),
        faulty(4, 6, &PTR, INF, 3),
    ]
}

/// Frames without rows, columns or entries, good ones and entries that have no row or no column.
fn empty_frames() -> Vec<Csr> {
    let frame = |nrows, ncols, ptr: &[u32], entries: usize| {
        csr(nrows, ncols, ptr, &vec![0; entries], &vec![2.5; entries])
    };
    vec![
        frame(0, 0, &[0], 0),
        frame(0, 6, &[0], 0),
        frame(4, 0, &[0; 5], 0),
        frame(4, 6, &[0; 5], 0),
        frame(0, 0, &[], 0),
        frame(0, 6, &[0], 1),
        frame(0, 6, &[1], 1),
        frame(1, 0, &[0, 1], 1),
    ]
}

/// One fault in lists of 100 places and of 4,096, at places around the ends of vectors: 2 as a fall, 3 and 4.
fn long_lists() -> Vec<Csr> {
    let mut all = Vec::new();
    for place in [
        0, 1, 2, 3, 4, 7, 8, 15, 16, 31, 32, 63, 64, 65, 96, 97, 98, 99,
    ] {
        let pointers: Vec<u32> = (0..=100).collect();
        let base = csr(100, 6, &pointers, &[5; 100], &[0.0; 100]);
        let (mut fall, mut column, mut value) = (base.clone(), base.clone(), base);
        fall.row_ptr.swap(place, place + 1);
        column.col_idx[place] = 6;
        value.values[place] = NAN;
        all.extend([fall, column, value]);
    }
    let full = csr(4, 6, &[0, 0, 4096, 4096, 4096], &[5; 4096], &[0.0; 4096]);
    let (mut column, mut value) = (full.clone(), full.clone());
    column.col_idx[4095] = 6;
    value.values[4095] = INF;
    all.extend([full, column, value]);
    all
}
