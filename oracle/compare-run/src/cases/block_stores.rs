//! Blocks that are handed in: damaged in each way of 12, their fractions and products.

use super::blocks::{BOTH, small};
use super::{HUGE, INF, MOST, NAN};
use crate::blocks::{Block, listed, width};
use calls::{Blocks, Call};

pub fn calls() -> Vec<Call> {
    let mut all = Vec::new();
    for b in [trial(), trial_of_six()] {
        questions(&mut all, &b);
    }
    for b in damaged() {
        questions(&mut all, &b);
    }
    several_faults(&mut all);
    any_values(&mut all);
    fractions(&mut all);
    sums(&mut all);
    rounded_products(&mut all);
    places(&mut all);
    operands(&mut all);
    all
}

/// A block whose places have numbers of their own.
fn block(col: u32, six: bool, from: usize) -> Block {
    let places = width(six) * width(six);
    let values: Vec<f64> = (from..from + places).map(small).collect();
    Block::new(col, six, &values)
}

/// 8 by 10 of width 3: full blocks and a tail, an empty block row, a partial one with a tail.
fn trial() -> Blocks {
    let rows = [
        vec![block(0, false, 1), block(2, false, 2), block(3, false, 3)],
        vec![],
        vec![block(1, false, 4), block(3, false, 5)],
    ];
    listed((8, 10), false, &rows)
}

/// 7 by 13 of width 6: a full block and a tail, a partial row with a full one.
fn trial_of_six() -> Blocks {
    let rows = [
        vec![block(1, true, 1), block(2, true, 2)],
        vec![block(0, true, 3)],
    ];
    listed((7, 13), true, &rows)
}

fn apply(b: &Blocks, x: usize, y: usize) -> Call {
    Call::DenseBlockApply(b.clone(), vec![1.0; x], vec![small(7); y])
}

/// Each call on blocks that are handed in. 1 and 12 come before 6.
fn questions(all: &mut Vec<Call>, b: &Blocks) {
    all.push(Call::DenseBlockCheck(b.clone()));
    all.push(Call::DenseBlockFastBlockFraction(b.clone()));
    all.push(apply(b, b.ncols.min(14), b.nrows.min(8)));
    all.push(apply(b, 2, 1));
}

/// 1; pointers too few, too many, none, not from 0, falling, not to the end; block columns equal, falling, outside the frame;
/// values too few, too many, those of the other width; a frame of other block rows or columns.
fn damaged() -> Vec<Blocks> {
    let changes: [fn(&mut Blocks); 33] = [
        |b| b.nrows = MOST + 1,
        |b| b.nrows = HUGE,
        |b| b.ncols = MOST + 1,
        |b| b.ncols = HUGE,
        |b| b.row_ptr.truncate(3),
        |b| b.row_ptr.push(5),
        |b| b.row_ptr.clear(),
        |b| b.row_ptr[0] = 1,
        |b| b.row_ptr[1] = 6,
        |b| b.row_ptr[1] = u32::MAX,
        |b| b.row_ptr[2] = 2,
        |b| b.row_ptr[3] = 4,
        |b| b.row_ptr[3] = 6,
        |b| b.nrows = 6,
        |b| b.nrows = 10,
        |b| b.nrows = 0,
        |b| b.col_idx[1] = 0,
        |b| b.col_idx[2] = 2,
        |b| b.col_idx.swap(0, 1),
        |b| b.col_idx.swap(3, 4),
        |b| b.col_idx[2] = 4,
        |b| b.col_idx[4] = 4,
        |b| b.col_idx[4] = u32::MAX,
        |b| b.ncols = 9,
        |b| b.ncols = 0,
        |b| b.values.truncate(44),
        |b| b.values.push(0.0),
        |b| b.values.truncate(36),
        |b| b.values.resize(54, 0.0),
        |b| b.values.clear(),
        |b| b.values.resize(180, 0.0),
        |b| b.col_idx.truncate(4),
        |b| b.six = true,
    ];
    let damaged = changes.map(|change| {
        let mut b = trial();
        change(&mut b);
        b
    });
    damaged.to_vec()
}

/// 1 before 12, 12 before 6 of x, that before 6 of y; frames with as many block rows and columns are good.
fn several_faults(all: &mut Vec<Call>) {
    let mut b = trial();
    (b.nrows, b.row_ptr[0]) = (MOST + 1, 1);
    questions(all, &b);
    for (nrows, ncols) in [(7, 10), (9, 10), (8, 11), (8, 12), (9, 12), (7, 11)] {
        let mut b = trial();
        (b.nrows, b.ncols) = (nrows, ncols);
        questions(all, &b);
    }
}

/// NaN, infinities and zeros of either sign in any place, and numbers outside the frame: 12 judges no value.
fn any_values(all: &mut Vec<Call>) {
    for value in [NAN, INF, -INF, -0.0, 0.0, 2.5] {
        for place in [0, 8, 18, 19, 27, 34, 36, 43] {
            let mut b = trial();
            b.values[place] = value;
            all.push(Call::DenseBlockCheck(b.clone()));
            all.push(apply(&b, 10, 8));
        }
    }
    let mut b = trial();
    b.values.fill(NAN);
    all.push(Call::DenseBlockFastBlockFraction(b.clone()));
    all.push(apply(&b, 10, 8));
}

/// Blocks wholly inside the frame among all: none, some, all; in no blocks.
fn fractions(all: &mut Vec<Call>) {
    for six in BOTH {
        let w = width(six);
        let row = |from: u32, to: u32| (from..to).map(|col| Block::new(col, six, &[])).collect();
        let rows: [Vec<Block>; 3] = [row(0, 3), row(2, 3), row(1, 3)];
        for (nrows, ncols) in [
            (3 * w, 3 * w),
            (3 * w - 1, 3 * w),
            (3 * w, 3 * w - 1),
            (2 * w + 1, 2 * w + 1),
        ] {
            let b = listed((nrows, ncols), six, &rows);
            all.push(Call::DenseBlockFastBlockFraction(b));
        }
        for frame in [(0, 0), (0, 7), (7, 0), (7, 7)] {
            let none = vec![vec![]; usize::div_ceil(frame.0, w)];
            let b = listed(frame, six, &none);
            all.push(Call::DenseBlockCheck(b.clone()));
            all.push(Call::DenseBlockFastBlockFraction(b.clone()));
            all.push(Call::DenseBlockApply(
                b,
                vec![NAN; frame.1],
                vec![7.5; frame.0],
            ));
        }
    }
}

/// Sums that show whether a block adds one number or its terms: 1 and twice half an ulp, the largest value and a pair of it; and
/// in what order the terms of a block are added.
fn sums(all: &mut Vec<Call>) {
    let half = f64::EPSILON / 2.0;
    let (most, least) = (f64::MAX, f64::MIN);
    for six in BOTH {
        let w = width(six);
        for (nrows, ncols) in [(w, 2 * w), (w, w + 2), (1, 2 * w), (1, w + 2)] {
            for [first, a, b] in [[1.0, half, half], [most, most, least], [0.1, 0.2, 0.3]] {
                let row = vec![Block::new(0, six, &[first]), Block::new(1, six, &[a, b])];
                let b = listed((nrows, ncols), six, &[row]);
                all.push(Call::DenseBlockApply(b, vec![1.0; ncols], vec![0.0; nrows]));
            }
        }
        let mut last = vec![0.0; w];
        (last[0], last[1], last[w - 1]) = (half, half, 1.0);
        let mut split = vec![0.0; w];
        (split[0], split[w / 2], split[w - 1]) = (1.0, half, half);
        for values in [last, split] {
            for (nrows, ncols) in [(w, w), (1, w), (w, w - 1)] {
                let b = listed((nrows, ncols), six, &[vec![Block::new(0, six, &values)]]);
                all.push(Call::DenseBlockApply(b, vec![1.0; ncols], vec![0.0; nrows]));
            }
        }
    }
}

/// Each product is rounded before it is added; sums of zeros are +0.0.
fn rounded_products(all: &mut Vec<Call>) {
    let near = 1.0 + f64::EPSILON;
    let far = -(1.0 + 2.0 * f64::EPSILON);
    for six in BOTH {
        let w = width(six);
        for (nrows, ncols) in [(w, w), (w, 2), (1, w), (1, 2)] {
            let b = listed(
                (nrows, ncols),
                six,
                &[vec![Block::new(0, six, &[far, near])]],
            );
            let mut x = vec![0.0; ncols];
            (x[0], x[1]) = (1.0, near);
            all.push(Call::DenseBlockApply(b.clone(), x, vec![0.0; nrows]));
            let zeros = vec![-0.0; ncols];
            all.push(Call::DenseBlockApply(b, zeros, vec![0.0; nrows]));
        }
    }
}

/// NaN and infinities in x: they show in every row of a block that holds their column, whatever is stored there, and in no other.
fn places(all: &mut Vec<Call>) {
    for col in 0..10 {
        for value in [NAN, INF] {
            let mut x = vec![0.0; 10];
            x[col] = value;
            all.push(Call::DenseBlockApply(trial(), x, vec![0.0; 8]));
        }
    }
    for col in 0..13 {
        let mut x = vec![0.0; 13];
        x[col] = -INF;
        all.push(Call::DenseBlockApply(trial_of_six(), x, vec![0.0; 7]));
    }
    let pair = vec![Block::new(0, false, &[2.0]), Block::new(2, false, &[4.0])];
    let b = listed((5, 8), false, &[pair.clone(), pair]);
    for col in 0..8 {
        let mut x = vec![1.0; 8];
        x[col] = NAN;
        all.push(Call::DenseBlockApply(b.clone(), x, vec![0.0; 5]));
    }
}

/// 6 of x before 6 of y, by one less and one more.
fn operands(all: &mut Vec<Call>) {
    for (x, y) in [(9, 8), (11, 8), (0, 8), (10, 7), (10, 9), (9, 7), (10, 0)] {
        all.push(apply(&trial(), x, y));
    }
    for (x, y) in [(12, 7), (14, 7), (13, 6), (13, 8), (12, 8)] {
        all.push(apply(&trial_of_six(), x, y));
    }
}
