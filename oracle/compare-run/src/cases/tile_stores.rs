//! Tiles that are handed in: damaged in each way of 12, their rows, figures, products and expansions.

use super::{HUGE, INF, MOST, NAN, ONES, mask};
use crate::tiles::{BITMAP, DENSE, SPARSE, Tile, listed};
use calls::{Call, Mask, Tiles};

pub fn calls() -> Vec<Call> {
    let mut all = Vec::new();
    for t in [
        trial(),
        square(),
        listed(0, &[]),
        listed(70, &[vec![], vec![]]),
    ] {
        questions(&mut all, &t);
    }
    for t in damaged() {
        handed(&mut all, &t);
    }
    kinds_and_values(&mut all);
    products(&mut all);
    sums(&mut all);
    operands(&mut all);
    expansions(&mut all);
    refused_expansions(&mut all);
    all
}

fn tile(meta: u32, mask: u64, present: &[f64]) -> Tile {
    Tile {
        meta,
        mask,
        present: present.to_vec(),
    }
}

/// Three rows of 130 columns, the second empty: Sparse 3, Dense 64 and 127; Bitmap 0 and 63, Sparse 128, which is the last tile
/// and has a column past it.
pub fn trial() -> Tiles {
    let rows = [
        vec![
            tile(SPARSE, 8, &[1.5]),
            tile(DENSE + 1, 1 << 63 | 1, &[4.0, -0.1]),
        ],
        vec![],
        vec![
            tile(BITMAP, 1 << 63 | 1, &[8.0, -INF]),
            tile(SPARSE + 2, 1, &[0.3]),
        ],
    ];
    listed(130, &rows)
}

/// A square of 66: row 0 leads to 1 and 65, row 1 to 2, row 65 to 64.
fn square() -> Tiles {
    let mut rows = vec![vec![]; 66];
    rows[0] = vec![tile(SPARSE, 2, &[1.0]), tile(DENSE + 1, 2, &[2.0])];
    rows[1] = vec![tile(BITMAP, 4, &[3.0])];
    rows[65] = vec![tile(SPARSE + 1, 1, &[4.0])];
    listed(66, &rows)
}

/// The check, the figures and every row, with those past the last (7).
fn questions(all: &mut Vec<Call>, t: &Tiles) {
    all.push(Call::AbtmCheck(t.clone()));
    all.push(Call::AbtmStats(t.clone()));
    for row in (0..=t.nrows.min(3)).chain([t.nrows, HUGE]) {
        all.push(Call::AbtmRowTiles(t.clone(), row));
    }
}

/// Each call on tiles that are handed in. 1 and 12 come before 5, 10, 6, 7 and 13.
fn handed(all: &mut Vec<Call>, t: &Tiles) {
    all.push(Call::AbtmCheck(t.clone()));
    all.push(Call::AbtmStats(t.clone()));
    all.push(Call::AbtmRowTiles(t.clone(), 2));
    all.push(Call::AbtmRowTiles(t.clone(), HUGE));
    all.push(Call::AbtmApply(t.clone(), vec![1.0; 130], vec![7.5; 3]));
    all.push(Call::AbtmApply(t.clone(), vec![1.0; 2], vec![7.5; 2]));
    let bad = mask(130, &[0, 0, 4]);
    all.push(Call::AbtmExpandMaskOneHop(t.clone(), bad, vec![77; 2]));
}

pub fn damaged() -> Vec<Tiles> {
    [damaged_lists(), damaged_tiles(), damaged_slots()].concat()
}

fn changed<const N: usize>(changes: [fn(&mut Tiles); N]) -> Vec<Tiles> {
    let changed = changes.map(|change| {
        let mut t = trial();
        change(&mut t);
        t
    });
    changed.to_vec()
}

/// 1; pointers too few, too many, none, not from 0, falling, not to the end; tile lists of unequal length; a wrong total; gaps
/// and overlaps of offsets; values too few and too many.
fn damaged_lists() -> Vec<Tiles> {
    changed([
        |t| t.nrows = MOST + 1,
        |t| t.ncols = HUGE,
        |t| t.row_tile_ptr.truncate(3),
        |t| t.row_tile_ptr.push(4),
        |t| t.row_tile_ptr.clear(),
        |t| t.row_tile_ptr[0] = 1,
        |t| t.row_tile_ptr[1] = 3,
        |t| t.row_tile_ptr[3] = 3,
        |t| t.row_tile_ptr[3] = u32::MAX,
        |t| t.masks.truncate(3),
        |t| t.value_offsets.push(68),
        |t| t.metas.truncate(3),
        |t| t.matrix_nnz -= 1,
        |t| t.matrix_nnz += 1,
        |t| t.matrix_nnz = HUGE,
        |t| t.value_offsets[0] = 1,
        |t| t.value_offsets[1] = 0,
        |t| t.value_offsets[2] = u32::MAX,
        |t| {
            t.value_offsets[3] += 1;
            t.values.insert(67, 0.0);
        },
        |t| t.values.push(1.0),
        |t| t.values.truncate(67),
        |t| t.values.clear(),
    ])
}

/// Word numbers that fall or stay, a word past the last column, kind 3, an empty mask of a Dense tile, bits past the last column.
fn damaged_tiles() -> Vec<Tiles> {
    changed([
        |t| (t.metas[2], t.metas[3]) = (BITMAP + 1, SPARSE),
        |t| t.metas[3] = SPARSE,
        |t| t.metas[3] = SPARSE + 3,
        |t| t.metas[3] = SPARSE + (1 << 30) - 1,
        |t| t.metas[0] = 3 << 30,
        |t| t.metas[3] |= 3 << 30,
        |t| {
            (t.masks[1], t.matrix_nnz) = (0, 4);
            t.values[1..65].fill(0.0);
        },
        |t| t.masks[3] = 4,
        |t| t.masks[3] = 1 << 63,
        |t| t.ncols = 128,
        |t| t.ncols = 0,
    ])
}

/// NaN and zeros at present places of each kind; -0.0, a number and NaN at an absent one. Other numbers are good.
fn damaged_slots() -> Vec<Tiles> {
    let mut all = changed([
        |t| t.values[2] = -0.0,
        |t| t.values[2] = 5e-324,
        |t| t.values[63] = NAN,
        |t| t.values[63] = INF,
    ]);
    for place in [0, 1, 64, 65, 66, 67] {
        for value in [NAN, 0.0, -0.0, INF, 5e-324] {
            let mut t = trial();
            t.values[place] = value;
            all.push(t);
        }
    }
    all
}

/// Kinds that no thresholds give their counts: 12 doesn't judge them.
fn kinds_and_values(all: &mut Vec<Call>) {
    for kind in [SPARSE, BITMAP, DENSE] {
        for (mask, values) in [(1, [2.0].as_slice()), (ONES, &[0.5; 64])] {
            let t = listed(64, &[vec![tile(kind, mask, values)]]);
            questions(all, &t);
            all.push(Call::AbtmApply(t, vec![0.1; 64], vec![7.5]));
        }
    }
    let row = vec![tile(DENSE, 1, &[2.0]), tile(SPARSE + 1, 3, &[INF, 1.0])];
    questions(all, &listed(66, &[row]));
}

/// Vectors with NaN and infinities at present places, at absent places of a Dense tile, where they show, and of others, where
/// they don't; past the last column there is no place.
fn products(all: &mut Vec<Call>) {
    let plain: Vec<f64> = (0..130).map(|col| col as f64 + 0.25).collect();
    let mut vectors = vec![vec![1.0; 130], vec![-0.0; 130], plain.clone()];
    for col in [0, 1, 3, 63, 64, 65, 126, 127, 128, 129] {
        for value in [NAN, INF, -INF] {
            let mut x = plain.clone();
            x[col] = value;
            vectors.push(x);
        }
    }
    for x in vectors {
        all.push(Call::AbtmApply(trial(), x, vec![7.5; 3]));
    }
    let t = listed(66, &[vec![tile(DENSE + 1, 1, &[3.0])]]);
    for last in [1.0, NAN, INF] {
        let mut x = vec![2.0; 66];
        x[65] = last;
        all.push(Call::AbtmApply(t.clone(), x, vec![7.5]));
    }
    let none = listed(2, &[vec![], vec![]]);
    all.push(Call::AbtmApply(none, vec![NAN; 2], vec![7.5; 2]));
    all.push(Call::AbtmApply(listed(0, &[]), vec![], vec![]));
}

/// Sums that show whether a tile adds to the row or on its own: 1 and twice half an ulp, the largest value and a pair of it.
fn sums(all: &mut Vec<Call>) {
    let half = f64::EPSILON / 2.0;
    let (most, least) = (f64::MAX, f64::MIN);
    for values in [[1.0, half, half], [most, most, least], [0.1, 0.2, 0.3]] {
        for kind in [SPARSE, BITMAP, DENSE] {
            let second = tile(kind + 1, 3, &values[1..]);
            let row = vec![tile(SPARSE, 1, &values[..1]), second];
            all.push(Call::AbtmApply(
                listed(66, &[row]),
                vec![1.0; 66],
                vec![7.5],
            ));
        }
    }
    // Each product is rounded before it is added.
    let near = 1.0 + f64::EPSILON;
    let far = -(1.0 + 2.0 * f64::EPSILON);
    for kind in [SPARSE, BITMAP, DENSE] {
        let t = listed(2, &[vec![tile(kind, 3, &[far, near])]]);
        all.push(Call::AbtmApply(t, vec![1.0, near], vec![7.5]));
    }
}

/// 6 of x before 6 of y, by one less and one more.
fn operands(all: &mut Vec<Call>) {
    for (x, y) in [
        (129, 3),
        (131, 3),
        (0, 3),
        (130, 2),
        (130, 4),
        (129, 2),
        (130, 0),
    ] {
        all.push(Call::AbtmApply(trial(), vec![1.0; x], vec![7.5; y]));
    }
}

fn expand(m: Mask, room: usize) -> Call {
    Call::AbtmExpandMaskOneHop(square(), m, vec![77; room])
}

/// One hop: what a new member leads to is not joined. Lists just long enough and longer.
fn expansions(all: &mut Vec<Call>) {
    for words in [
        [0, 0],
        [1, 0],
        [2, 0],
        [3, 0],
        [0, 2],
        [1, 2],
        [4, 1],
        [ONES, 3],
    ] {
        all.push(expand(mask(66, &words), 2));
    }
    all.push(expand(mask(66, &[1, 0]), 4));
    let none = listed(0, &[]);
    all.push(Call::AbtmExpandMaskOneHop(none, mask(0, &[]), vec![77]));
}

/// 1 of the mask's length before 12; 12 before 5; 5 by words too few, too many, a bit at the length; 10 before 6; 6 by one less
/// and one more before 13; 13 last.
fn refused_expansions(all: &mut Vec<Call>) {
    let four = [1, 0, 0, 0];
    let mut bad = square();
    bad.matrix_nnz = 5;
    for m in [mask(MOST + 1, &four), mask(66, &four), mask(66, &four[..2])] {
        all.push(Call::AbtmExpandMaskOneHop(bad.clone(), m, vec![77]));
    }
    for (len, words) in [
        (66, 1),
        (66, 3),
        (65, 2),
        (67, 2),
        (0, 0),
        (64, 1),
        (HUGE, 2),
    ] {
        all.push(expand(mask(len, &four[..words]), 2));
        all.push(expand(mask(len, &four[..words]), 1));
    }
    all.push(expand(mask(66, &[1, 4]), 2));
    all.push(expand(mask(66, &[1, 0]), 1));
    all.push(expand(mask(66, &[1, 0]), 0));
    for len in [3, 130, 7] {
        let words = vec![1; usize::div_ceil(len, 64)];
        let m = Mask { len, words };
        all.push(Call::AbtmExpandMaskOneHop(trial(), m, vec![77; 2]));
    }
}
