//! Document 01's worked plots of tiles, asked of all three judges; and the shrinking of tiles.

mod common;

use calls::{Call, Csr, Tiles, bits};
use common::all_say;
use compare_run::shrink::smallest;
use compare_run::tiles::{BITMAP, DENSE, SPARSE, Tile, listed, room};

fn one_row(ncols: usize, entries: &[(u32, f64)]) -> Csr {
    Csr {
        nrows: 1,
        ncols,
        row_ptr: vec![0, entries.len() as u32],
        col_idx: entries.iter().map(|e| e.0).collect(),
        values: entries.iter().map(|e| e.1).collect(),
    }
}

#[test]
fn thresholds() {
    for (sparse, dense, number) in [(4, 32, 0), (4, 64, 0), (4, 65, 9), (4, 4, 9), (0, 9, 9)] {
        all_say(&Call::AbtmValidate(sparse, dense), number, &[], &[]);
    }
}

#[test]
fn kinds_under_4_and_32() {
    for (n, kind) in [(4, SPARSE), (5, BITMAP), (31, BITMAP), (32, DENSE)] {
        let entries: Vec<(u32, f64)> = (0..n).map(|col| (col, 1.5)).collect();
        let slots = if kind == DENSE { 64 } else { n as usize };
        let mut values = vec![bits(1.5); n as usize];
        values.resize(slots, 0);
        let call = Call::AbtmFromCsr32(one_row(70, &entries), 4, 32, room([2, 1, 1, 1, slots]));
        let mask = (1 << n) - 1;
        let lists = [vec![0, 1], vec![mask], vec![0], vec![kind.into()], values];
        all_say(&call, 0, &[1, slots as u64, n.into()], &lists);
    }
}

#[test]
fn the_largest_value_twice_is_kept_and_cancelling_values_have_no_tile() {
    let build = |entries: &[(u32, f64)]| {
        Call::AbtmFromCsr32(one_row(6, entries), 4, 32, room([2, 1, 1, 1, 1]))
    };
    let infinite = bits(f64::INFINITY);
    let lists = [vec![0, 1], vec![32], vec![0], vec![0], vec![infinite]];
    let call = build(&[(5, f64::MAX), (5, f64::MAX)]);
    all_say(&call, 0, &[1, 1, 1], &lists);
    let none = [vec![0, 0], vec![0], vec![0], vec![0], vec![0]];
    all_say(&build(&[(5, 1.0), (5, -1.0)]), 0, &[0, 0, 0], &none);
}

#[test]
fn a_dense_tile_adds_to_the_row() {
    let half = f64::EPSILON / 2.0;
    let tile = |meta, mask, present: &[f64]| Tile {
        meta,
        mask,
        present: present.to_vec(),
    };
    for (kind, sum) in [(BITMAP, 1.0 + 2.0 * half), (DENSE, 1.0)] {
        let row = vec![tile(SPARSE, 1, &[1.0]), tile(kind + 1, 3, &[half, half])];
        let call = Call::AbtmApply(listed(66, &[row]), vec![1.0; 66], vec![9.0]);
        all_say(&call, 0, &[], &[vec![bits(sum)]]);
    }
}

/// Tiles shrink to the one that matters and stay good.
#[test]
fn tiles_shrink() {
    let tile = |meta| Tile {
        meta,
        mask: 1 << 40 | 3,
        present: vec![1.0, 2.0, 3.0],
    };
    let rows = vec![vec![tile(SPARSE), tile(DENSE + 1)], vec![tile(BITMAP)]];
    let good = |t: &Tiles| model::judge(&Call::AbtmCheck(t.clone())).number == 0;
    let dense = |t: &Tiles| t.metas.iter().any(|meta| meta >> 30 == 2);
    let fails = |call: &Call| matches!(call, Call::AbtmStats(t) if good(t) && dense(t));
    let Call::AbtmStats(small) = smallest(&Call::AbtmStats(listed(128, &rows)), &fails) else {
        panic!("another call");
    };
    assert_eq!((small.nrows, small.masks.len()), (1, 1));
    assert_eq!((small.matrix_nnz, small.values.len()), (1, 64));
}
