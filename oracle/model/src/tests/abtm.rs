//! Tiles: thresholds, the check, the build, the tile by value, parts, figures, product, expansion.

use super::faults::{
    Fault, Left, PLACES_OVER, alter, csr_faults, fault, fault_told, in_order, mask_faults,
    short_tiles_faults, shorten, tiles_faults, within,
};
use super::{accepted, accepted_with, csr, f, good_csr, good_tiles, mask, tiles_room};
use crate::judge;
use calls::Call::*;
use calls::{Csr, Mask, Tiles, TilesRoom, bits};

const SPARSE: u64 = 0;
const BITMAP: u64 = 1 << 30;
const DENSE: u64 = 2 << 30;
const INF: f64 = f64::INFINITY;

#[test]
fn thresholds() {
    for sparse in 0..=255 {
        for dense in 0..=255 {
            let good = sparse >= 1 && dense <= 64 && sparse < dense;
            let outcome = judge(&AbtmValidate(sparse, dense));
            assert_eq!(outcome.number, if good { 0 } else { 9 });
            assert!(outcome.result.is_empty() && outcome.lists.is_empty());
        }
    }
    for (sparse, dense) in [(4, 32), (4, 64), (8, 40), (1, 2), (63, 64)] {
        accepted(AbtmValidate(sparse, dense), []);
    }
    for (sparse, dense) in [(4, 65), (4, 4), (0, 32), (5, 4), (64, 64), (0, 0)] {
        assert_eq!(judge(&AbtmValidate(sparse, dense)).number, 9);
    }
}

#[test]
fn check() {
    in_order(&good_tiles(), &tiles_faults(), AbtmCheck, Left::Nothing);
}

fn no_tiles(nrows: usize, ncols: usize) -> Tiles {
    Tiles {
        nrows,
        ncols,
        row_tile_ptr: vec![0; nrows + 1],
        masks: vec![],
        value_offsets: vec![],
        metas: vec![],
        values: vec![],
        matrix_nnz: 0,
    }
}

/// One row with one tile in word 0.
fn one_tile(ncols: usize, kind: u64, mask: u64, values: &[f64]) -> Tiles {
    Tiles {
        nrows: 1,
        ncols,
        row_tile_ptr: vec![0, 1],
        masks: vec![mask],
        value_offsets: vec![0],
        metas: vec![kind as u32],
        values: values.to_vec(),
        matrix_nnz: mask.count_ones() as usize,
    }
}

/// The 64 values of a Dense tile with these at these offsets.
fn dense(present: &[(usize, f64)]) -> Vec<f64> {
    let mut values = vec![0.0; 64];
    for &(offset, value) in present {
        values[offset] = value;
    }
    values
}

#[test]
fn empty_shapes() {
    for (nrows, ncols) in [(0, 0), (0, 70), (3, 0), (3, 70)] {
        let faults = [
            fault(12, |t: &mut Tiles| t.values.push(0.0)),
            fault(12, |t: &mut Tiles| t.row_tile_ptr.push(0)),
            fault(12, |t: &mut Tiles| t.row_tile_ptr.clear()),
            fault(12, |t: &mut Tiles| t.matrix_nnz = 1),
        ];
        in_order(&no_tiles(nrows, ncols), &faults, AbtmCheck, Left::Nothing);
    }
}

#[test]
fn infinite_values_and_any_kind_for_a_count_are_good() {
    accepted(AbtmCheck(one_tile(64, SPARSE, 3, &[INF, -INF])), []);
    accepted(AbtmCheck(one_tile(64, BITMAP, 1, &[f64::MAX])), []);
    accepted(AbtmCheck(one_tile(64, SPARSE, u64::MAX, &[5e-324; 64])), []);
    accepted(AbtmCheck(one_tile(64, BITMAP, u64::MAX, &[-1.0; 64])), []);
    let one = dense(&[(0, -INF)]);
    accepted(AbtmCheck(one_tile(1, DENSE, 1, &one)), []);
    // The last column of the word and none past it.
    let last = one_tile(64, SPARSE, 1 << 63, &[1.0]);
    accepted(AbtmCheck(last.clone()), []);
    let faults = [fault(12, |t: &mut Tiles| t.ncols = 63)];
    in_order(&last, &faults, AbtmCheck, Left::Nothing);
}

#[test]
fn word_numbers_rise_within_a_row_only() {
    let mut tiles = one_tile(130, SPARSE, 1, &[1.0, 2.0]);
    (tiles.masks, tiles.metas) = (vec![1, 1], vec![2, 0]);
    (tiles.value_offsets, tiles.matrix_nnz) = (vec![0, 1], 2);
    (tiles.nrows, tiles.row_tile_ptr) = (2, vec![0, 1, 2]);
    accepted(AbtmCheck(tiles.clone()), []);
    let faults = [fault(12, |t: &mut Tiles| {
        (t.nrows, t.row_tile_ptr) = (1, vec![0, 2])
    })];
    in_order(&tiles, &faults, AbtmCheck, Left::Nothing);
}

/// A tile as the build should make it: word number, kind, mask, and its slots.
type Made = (u64, u64, u64, Vec<f64>);

/// Builds tiles from one row of 200 columns into lists one place too long.
fn builds_to(entries: &[(u32, f64)], thresholds: (u8, u8), made: &[Made]) {
    let list = csr((1, 200), &[0, entries.len() as u32], entries);
    let n = made.len();
    let slots: Vec<u64> = made
        .iter()
        .flat_map(|t| t.3.iter().map(|v| f(*v)))
        .collect();
    let room = tiles_room([3, n + 1, n + 1, n + 1, slots.len() + 1]);
    let masks: Vec<u64> = made.iter().map(|t| t.2).chain([0]).collect();
    let metas: Vec<u64> = made.iter().map(|t| t.0 + t.1).chain([0]).collect();
    let mut offsets: Vec<u64> = (0..n)
        .map(|tile| made[..tile].iter().map(|t| t.3.len() as u64).sum())
        .collect();
    offsets.push(0);
    let nnz = made.iter().map(|t| u64::from(t.2.count_ones())).sum();
    let values: Vec<u64> = slots.iter().copied().chain([0]).collect();
    let pointers = [0, n as u64, 0];
    let lists: [&[u64]; 5] = [&pointers, &masks, &offsets, &metas, &values];
    let call = AbtmFromCsr32(list, thresholds.0, thresholds.1, room);
    accepted_with(call, [n as u64, slots.len() as u64, nnz], lists);
}

/// Columns 0 to n - 1 with 1.0, 2.0 ..
fn first_columns(n: usize) -> (Vec<(u32, f64)>, u64, Vec<f64>) {
    let values: Vec<f64> = (1..=n).map(|v| v as f64).collect();
    let entries = (0..).zip(values.iter().copied()).collect();
    let mask = (0..n).map(|offset| 1 << offset).sum();
    (entries, mask, values)
}

#[test]
fn kinds_by_count_under_4_and_32() {
    for (n, kind) in [(4, SPARSE), (5, BITMAP), (31, BITMAP), (32, DENSE)] {
        let (entries, mask, mut values) = first_columns(n);
        if kind == DENSE {
            values.resize(64, 0.0);
        }
        builds_to(&entries, (4, 32), &[(0, kind, mask, values)]);
    }
}

#[test]
fn kinds_by_count_under_all_thresholds() {
    for (sparse, dense) in [(1, 2), (1, 64), (63, 64), (8, 40), (31, 33)] {
        for n in 1..=64 {
            let (entries, mask, mut values) = first_columns(n);
            let kind = if n <= sparse {
                SPARSE
            } else if n >= dense {
                values.resize(64, 0.0);
                DENSE
            } else {
                BITMAP
            };
            let thresholds = (sparse as u8, dense as u8);
            builds_to(&entries, thresholds, &[(0, kind, mask, values)]);
        }
    }
}

#[test]
fn tiles_follow_one_another() {
    let entries = [
        (199, 9.0),
        (0, 1.0),
        (63, 2.0),
        (64, 3.0),
        (130, 5.0),
        (131, 6.0),
        (129, 4.0),
    ];
    let third = dense(&[(1, 4.0), (2, 5.0), (3, 6.0)]);
    let made = [
        (0, BITMAP, 1 << 63 | 1, vec![1.0, 2.0]),
        (1, SPARSE, 1, vec![3.0]),
        (2, DENSE, 14, third),
        (3, SPARSE, 1 << 7, vec![9.0]),
    ];
    builds_to(&entries, (1, 3), &made);
    builds_to(&[], (1, 3), &[]);
}

#[test]
fn dense_slots_reach_past_the_last_column() {
    let (entries, _, _) = first_columns(3);
    let moved: Vec<(u32, f64)> = entries.iter().map(|e| (e.0 + 197, e.1)).collect();
    let values = dense(&[(5, 1.0), (6, 2.0), (7, 3.0)]);
    builds_to(&moved, (1, 2), &[(3, DENSE, 0b1110_0000, values)]);
}

#[test]
fn zeros_are_skipped_and_dropped() {
    builds_to(&[(5, 0.0), (6, -0.0)], (1, 2), &[]);
    builds_to(&[(5, 1.0), (5, -1.0)], (1, 2), &[]);
    let one = vec![(0, SPARSE, 1 << 6, vec![2.0])];
    builds_to(&[(5, 1.0), (6, 2.0), (5, -1.0), (7, 0.0)], (1, 2), &one);
    builds_to(&[(6, 0.0), (6, 2.0), (6, -0.0)], (1, 2), &one);
    // Zeros count for no threshold.
    let entries = [(5, 1.0), (5, -1.0), (6, 2.0), (7, 0.0), (8, -0.0)];
    builds_to(&entries, (1, 3), &one);
    let back = [(6, 1.0), (6, -1.0), (6, 2.0)];
    builds_to(&back, (1, 2), &one);
}

#[test]
fn copies_add_in_stored_order() {
    let e = f64::EPSILON / 2.0;
    let sum = |x: f64| vec![(0, SPARSE, 32, vec![x])];
    builds_to(&[(5, 1.0), (5, e), (5, e)], (1, 2), &sum(1.0));
    let late = [(5, e), (5, e), (5, 1.0)];
    builds_to(&late, (1, 2), &sum(1.0 + 2.0 * e));
    builds_to(&[(5, 1e300), (5, 1.0), (5, -1e300)], (1, 2), &[]);
    let early = [(5, 1e300), (5, -1e300), (5, 1.0)];
    builds_to(&early, (1, 2), &sum(1.0));
}

#[test]
fn the_largest_value_twice_is_kept_as_infinite() {
    let (most, least) = (f64::MAX, f64::MIN);
    let sum = |x: f64| vec![(0, SPARSE, 32, vec![x])];
    builds_to(&[(5, most), (5, most)], (4, 32), &sum(INF));
    builds_to(&[(5, least), (5, least)], (4, 32), &sum(-INF));
    let back = [(5, most), (5, most), (5, least), (5, least)];
    builds_to(&back, (4, 32), &sum(INF));
}

#[test]
fn rows_have_their_own_tiles() {
    let room = tiles_room([3, 3, 3, 3, 4]);
    let values = [1.5, 4.0, 2.0, 8.0].map(f);
    let lists: [&[u64]; 5] = [&[0, 2, 3], &[8, 3, 1], &[0, 1, 3], &[0, 1, 0], &values];
    let call = AbtmFromCsr32(good_csr(), 2, 3, room);
    accepted_with(call, [3, 4, 4], lists);
    let flat = csr((2, 0), &[0, 0, 0], &[]);
    let call = AbtmFromCsr32(flat, 1, 2, tiles_room([3, 1, 0, 2, 1]));
    accepted_with(call, [0, 0, 0], [&[0; 3], &[0], &[], &[0; 2], &[0]]);
    let none = csr((0, 0), &[0], &[]);
    let call = AbtmFromCsr32(none, 1, 2, tiles_room([1, 0, 0, 0, 0]));
    accepted_with(call, [0, 0, 0], [&[0], &[], &[], &[], &[]]);
}

fn room_lengths(room: &TilesRoom) -> Vec<usize> {
    vec![
        room.row_tile_ptr.len(),
        room.masks.len(),
        room.value_offsets.len(),
        room.metas.len(),
        room.values.len(),
    ]
}

#[test]
fn refusals_of_the_build() {
    type Input = (Csr, u8, u8, TilesRoom);
    let mut faults = within(csr_faults(), |input: &mut Input| &mut input.0);
    faults.push(fault(9, |input: &mut Input| input.1 = 0));
    faults.push(fault(9, |input: &mut Input| input.1 = 3));
    faults.push(fault(9, |input: &mut Input| input.2 = 2));
    faults.push(fault(9, |input: &mut Input| input.2 = 65));
    let needed = [3, 3, 3, 3, 4];
    for place in 0..5 {
        let mut lengths = needed;
        lengths[place] -= 1;
        faults.push(fault(13, move |input: &mut Input| {
            input.3 = tiles_room(lengths)
        }));
    }
    faults.push(fault(13, |input: &mut Input| input.3 = tiles_room([0; 5])));
    let good = (good_csr(), 2, 3, tiles_room(needed));
    let left = Left::Zeros(|input: &Input| room_lengths(&input.3));
    in_order(
        &good,
        &faults,
        |(c, s, d, r)| AbtmFromCsr32(c, s, d, r),
        left,
    );
}

#[test]
fn a_tile_by_value() {
    let most = (1 << 30) - 1;
    for (kind, bits) in [(0, SPARSE), (1, BITMAP), (2, DENSE)] {
        for word in [0, 1, 16_383, most] {
            let meta = bits as u32 + word;
            accepted(AbtmTileKind(meta), [kind]);
            accepted(AbtmTileBaseCol(meta), [u64::from(word) * 64]);
        }
    }
    for word in [0, 1, most] {
        let outcome = judge(&AbtmTileKind((3 << 30) + word));
        assert_eq!((outcome.number, outcome.result), (12, vec![0]));
        accepted(AbtmTileBaseCol((3 << 30) + word), [u64::from(word) * 64]);
    }
}

#[test]
fn row_tiles() {
    accepted(AbtmRowTiles(good_tiles(), 0), [0, 2]);
    accepted(AbtmRowTiles(good_tiles(), 1), [2, 3]);
    accepted(AbtmRowTiles(no_tiles(3, 70), 2), [0, 0]);
    type Input = (Tiles, usize);
    let mut faults = within(tiles_faults(), |(t, _): &mut Input| t);
    faults.push(fault(7, |(_, row): &mut Input| *row = 2));
    faults.push(fault(7, |(_, row): &mut Input| *row = usize::MAX));
    in_order(
        &(good_tiles(), 1),
        &faults,
        |(t, row)| AbtmRowTiles(t, row),
        Left::Nothing,
    );
}

#[test]
fn stats() {
    let call = AbtmStats(good_tiles());
    accepted(call, [2, 70, 5, 3, 1, 1, 1, 67, 4 * 3 + 16 * 3]);
    accepted(AbtmStats(no_tiles(0, 0)), [0, 0, 0, 0, 0, 0, 0, 0, 4]);
    in_order(
        &good_tiles(),
        &short_tiles_faults(),
        AbtmStats,
        Left::Nothing,
    );
}

#[test]
fn figures() {
    for (bytes, ones, ratio) in [(60, 5, 12.0), (1, 3, 1.0 / 3.0), (7, 0, 0.0), (0, 7, 0.0)] {
        accepted(AbtmMetadataBytesPerNnz(bytes, ones), [f(ratio)]);
    }
    let call = AbtmMetadataBytesPerNnz((1 << 53) + 1, 1);
    accepted(call, [f(9_007_199_254_740_992.0)]);
    let max = usize::MAX;
    let all = u64::MAX;
    for (bytes, slots, total) in [
        (60, 67, 596),
        (0, 0, 0),
        (max, 0, all),
        (max, 1, all),
        (7, max / 8, all),
        (8, max / 8, all),
        (0, max / 8 + 1, all),
        (0, max, all),
    ] {
        accepted(AbtmTotalEstimatedBytes(bytes, slots), [total]);
    }
    accepted(AbtmTotalEstimatedBytes(6, max / 8), [all - 1]);
}

/// The product of one row of tiles.
fn product(tiles: Tiles, x: &[f64], sum: f64) {
    let call = AbtmApply(tiles, x.to_vec(), vec![9.0]);
    accepted_with(call, [], [&[bits(sum)]]);
}

#[test]
fn product_of_two_rows() {
    let mut x = vec![0.0; 70];
    (x[3], x[64], x[65], x[0], x[2]) = (2.0, 1.0, 10.0, 0.5, 3.0);
    let call = AbtmApply(good_tiles(), x, vec![9.0; 2]);
    accepted_with(call, [], [&[f(27.0), f(1.0)]]);
    let call = AbtmApply(no_tiles(2, 70), vec![f64::NAN; 70], vec![9.0; 2]);
    accepted_with(call, [], [&[0, 0]]);
    let call = AbtmApply(no_tiles(0, 0), vec![], vec![]);
    accepted_with(call, [], [&[]]);
}

/// One row with a Sparse tile that holds `first` at column 0, then a tile of the given kind at columns 64 and 65.
fn two_tiles(kind: u64, first: f64, second: [f64; 2]) -> Tiles {
    let mut values = vec![first];
    if kind == DENSE {
        values.extend(dense(&[(0, second[0]), (1, second[1])]));
    } else {
        values.extend(second);
    }
    Tiles {
        nrows: 1,
        ncols: 128,
        row_tile_ptr: vec![0, 2],
        masks: vec![1, 3],
        value_offsets: vec![0, 1],
        metas: vec![0, kind as u32 + 1],
        values,
        matrix_nnz: 3,
    }
}

#[test]
fn dense_tiles_add_to_the_row_and_others_their_own_sum() {
    let e = f64::EPSILON / 2.0;
    let x = vec![1.0; 128];
    // On its own e + e is 2e, which 1.0 takes; one after the other 1.0 takes neither.
    product(two_tiles(SPARSE, 1.0, [e, e]), &x, 1.0 + 2.0 * e);
    product(two_tiles(BITMAP, 1.0, [e, e]), &x, 1.0 + 2.0 * e);
    product(two_tiles(DENSE, 1.0, [e, e]), &x, 1.0);
    let (most, least) = (f64::MAX, f64::MIN);
    product(two_tiles(SPARSE, most, [most, least]), &x, most);
    product(two_tiles(DENSE, most, [most, least]), &x, INF);
}

#[test]
fn dense_tiles_add_absent_places() {
    for (kind, nan) in [(SPARSE, false), (BITMAP, false), (DENSE, true)] {
        for wild in [f64::NAN, INF, -INF] {
            let mut x = vec![1.0; 128];
            x[127] = wild;
            let sum = if nan { f64::NAN } else { 7.0 };
            product(two_tiles(kind, 1.0, [2.0, 4.0]), &x, sum);
            x[127] = 1.0;
            x[64] = wild;
            product(two_tiles(kind, 1.0, [2.0, 4.0]), &x, wild);
            // A word without a tile adds nothing.
            x[64] = 1.0;
            x[1] = wild;
            product(two_tiles(kind, 1.0, [2.0, 4.0]), &x, 7.0);
        }
    }
}

#[test]
fn places_past_the_last_column_add_nothing() {
    let tiles = one_tile(2, DENSE, 1, &dense(&[(0, 3.0)]));
    product(tiles.clone(), &[2.0, 5.0], 6.0);
    product(tiles, &[2.0, f64::NAN], f64::NAN);
}

#[test]
fn zeros_of_products() {
    // From 0.0 on, so no sum is -0.0.
    for kind in [SPARSE, BITMAP] {
        product(one_tile(1, kind, 1, &[1.0]), &[-0.0], 0.0);
    }
    product(one_tile(1, DENSE, 1, &dense(&[(0, 1.0)])), &[-0.0], 0.0);
    product(one_tile(1, SPARSE, 1, &[INF]), &[0.0], f64::NAN);
    product(one_tile(1, SPARSE, 1, &[INF]), &[-2.0], -INF);
    // Each product is rounded before it is added.
    let near = 1.0 + f64::EPSILON;
    let far = -(1.0 + 2.0 * f64::EPSILON);
    let tiles = one_tile(2, SPARSE, 3, &[far, near]);
    product(tiles, &[1.0, near], 0.0);
}

#[test]
fn refusals_of_the_product() {
    type Input = (Tiles, Vec<f64>, Vec<f64>);
    let mut faults = within(short_tiles_faults(), |input: &mut Input| &mut input.0);
    faults.push(fault_told((6, 70, 69), |input: &mut Input| {
        shorten(&mut input.1)
    }));
    faults.push(fault_told((6, 2, 3), |input: &mut Input| input.2.push(9.0)));
    let good = (good_tiles(), vec![1.0; 70], vec![9.0; 2]);
    let left = Left::Untouched(|input: &Input| vec![f(9.0); input.2.len()]);
    in_order(&good, &faults, |(t, x, y)| AbtmApply(t, x, y), left);
}

/// A square of 70: row 0 leads to 1 and 65, row 1 to 2, row 65 to 69, row 69 to 69.
fn square() -> Tiles {
    let mut row_tile_ptr = vec![0, 2];
    row_tile_ptr.extend(vec![3; 64]);
    row_tile_ptr.extend(vec![4; 4]);
    row_tile_ptr.push(5);
    let mut values = vec![1.0];
    values.extend(dense(&[(1, 2.0)]));
    values.extend([3.0, 4.0, 5.0]);
    Tiles {
        nrows: 70,
        ncols: 70,
        row_tile_ptr,
        masks: vec![2, 2, 4, 32, 32],
        value_offsets: vec![0, 1, 65, 66, 67],
        metas: vec![0, 1 + (2 << 30), 1 << 30, 1, 1],
        values,
        matrix_nnz: 5,
    }
}

fn expands_to(before: [u64; 2], after: [u64; 2]) {
    let room = vec![9; 3];
    let call = AbtmExpandMaskOneHop(square(), mask(70, &before), room);
    accepted_with(call, [], [&[after[0], after[1], 0]]);
}

#[test]
fn expansion_is_one_hop() {
    expands_to([0, 0], [0, 0]);
    // 0 brings 1 and 65, which bring nothing themselves.
    expands_to([1, 0], [3, 2]);
    expands_to([2, 0], [6, 0]);
    expands_to([3, 0], [7, 2]);
    expands_to([1, 2], [3, 2 | 32]);
    expands_to([0, 32], [0, 32]);
    expands_to([4, 0], [4, 0]);
    expands_to([u64::MAX, 63], [u64::MAX, 63]);
    let call = AbtmExpandMaskOneHop(no_tiles(0, 0), mask(0, &[]), vec![]);
    accepted_with(call, [], [&[]]);
}

#[test]
fn refusals_of_expansion() {
    type Input = (Tiles, Mask, Vec<u64>);
    let size = |t: &mut Tiles| t.nrows = PLACES_OVER;
    let mut faults: Vec<Fault<Input>> = vec![fault(1, move |input: &mut Input| size(&mut input.0))];
    faults.extend(
        within(mask_faults(), |input: &mut Input| &mut input.1)
            .into_iter()
            .filter(|fault| fault.number() == 1),
    );
    faults.push(fault(12, |input: &mut Input| input.0.values[0] = -0.0));
    faults.push(fault(12, |input: &mut Input| input.0.matrix_nnz = 6));
    faults.extend(
        within(mask_faults(), |input: &mut Input| &mut input.1)
            .into_iter()
            .filter(|fault| fault.number() == 5),
    );
    faults.push(fault(10, |input: &mut Input| alter(&mut input.0.ncols, 71)));
    faults.push(fault_told((6, 70, 66), |input: &mut Input| {
        alter(&mut input.1.len, 66)
    }));
    faults.push(fault(13, |input: &mut Input| shorten(&mut input.2)));
    let good = (square(), mask(70, &[1, 0]), vec![9; 2]);
    let left = Left::Zeros(|input: &Input| vec![input.2.len()]);
    in_order(
        &good,
        &faults,
        |(t, m, out)| AbtmExpandMaskOneHop(t, m, out),
        left,
    );
}
