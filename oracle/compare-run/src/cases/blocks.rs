//! Blocks: builds, the rooms and refusals of them, figures. The calls to blocks that are handed in are in `block_stores`.

use super::values::COUNTS;
use super::{HUGE, INF, MOST, NAN, csr};
use crate::blocks::{blocks_of, lengths};
use crate::restricted::room;
use crate::rng::Rng;
use calls::{Call, Csr};

pub const BOTH: [bool; 2] = [false, true];

pub fn calls() -> Vec<Call> {
    let mut all = Vec::new();
    worked_fraction(&mut all);
    frames(&mut all);
    all.extend(short());
    shapes(&mut all);
    generated(&mut all);
    figures(&mut all);
    all
}

/// Builds that show copies, zeros, the order of blocks, the rooms and the refusals.
pub fn short() -> Vec<Call> {
    let mut all = Vec::new();
    merged(&mut all);
    zeros(&mut all);
    unsorted(&mut all);
    rooms(&mut all);
    refusals(&mut all);
    all
}

fn build(c: &Csr, six: bool, lengths: [usize; 3]) -> Call {
    Call::DenseBlockFromCsr32(c.clone(), six, room(lengths))
}

/// The build of a good plot list into lists just long enough.
fn exact(c: &Csr, six: bool) -> Call {
    let b = blocks_of(model::judge, c, six).expect("a good plot list");
    build(c, six, lengths(&b))
}

fn one_row(ncols: usize, entries: &[(u32, f64)]) -> Csr {
    let cols: Vec<u32> = entries.iter().map(|e| e.0).collect();
    let values: Vec<f64> = entries.iter().map(|e| e.1).collect();
    csr(1, ncols, &[0, cols.len() as u32], &cols, &values)
}

/// Values that are short as text: the smallest floats, whose sums are exact.
pub fn small(n: usize) -> f64 {
    f64::from_bits(n as u64)
}

/// Document 01's worked plot: 4 by 4 with (0,0) and (0,3), width 3: fraction 0.5.
fn worked_fraction(all: &mut Vec<Call>) {
    let c = csr(4, 4, &[0, 2, 2, 2, 2], &[0, 3], &[1.0, 2.0]);
    for six in BOTH {
        all.push(exact(&c, six));
        let b = blocks_of(model::judge, &c, six).expect("a good plot list");
        all.push(Call::DenseBlockCheck(b.clone()));
        all.push(Call::DenseBlockFastBlockFraction(b.clone()));
        all.push(Call::DenseBlockApply(b, vec![0.5; 4], vec![7.5; 4]));
    }
}

/// A plot list with entries in the corners of its frame and on the diagonal, each with its own number.
fn cornered(nrows: usize, ncols: usize) -> Csr {
    let (mut ptr, mut cols) = (vec![0], vec![]);
    for row in 0..nrows {
        let corner = row == 0 || row + 1 == nrows;
        let entry = |col: &usize| *col == row || corner && (*col == 0 || col + 1 == ncols);
        cols.extend((0..ncols).rev().filter(entry).map(|col| col as u32));
        ptr.push(cols.len() as u32);
    }
    let values: Vec<f64> = (1..=cols.len()).map(small).collect();
    csr(nrows, ncols, &ptr, &cols, &values)
}

/// Frames on both sides of each multiple of the widths, with the places of their blocks that lie inside.
fn frames(all: &mut Vec<Call>) {
    let sizes = [1, 2, 3, 4, 5, 6, 7, 12, 13];
    for (place, nrows) in sizes.into_iter().enumerate() {
        for ncols in sizes.into_iter().skip(place % 3).step_by(3) {
            for six in BOTH {
                all.push(exact(&cornered(nrows, ncols), six));
            }
        }
    }
}

/// Copies in stored order, any number of them; pairs that cancel or overflow; infinite sums that stay: 4 isn't asked after merging.
fn merged(all: &mut Vec<Call>) {
    let (most, least) = (f64::MAX, f64::MIN);
    let half = f64::EPSILON / 2.0;
    let rows: [&[(u32, f64)]; 14] = [
        &[(5, most), (5, most)],
        &[(5, least), (5, least)],
        &[(5, most), (5, most), (5, least), (5, least)],
        &[(5, most), (5, least), (5, most)],
        &[(5, 1.0), (5, -1.0)],
        &[(5, 1.0), (6, 2.0), (5, -1.0)],
        &[(5, 1.0), (5, half), (5, half)],
        &[(5, half), (5, half), (5, 1.0)],
        &[(5, 1e16), (5, 1.0), (5, -1e16)],
        &[(5, 1e16), (5, -1e16), (5, 1.0)],
        &[(5, 0.1), (5, 0.2), (5, 0.3)],
        &[(5, 0.3), (5, 0.2), (5, 0.1)],
        &[(6, 1.0), (5, -1.0), (6, 1.0), (5, 2.0), (6, 1.0)],
        &[(5, 1.0), (5, 1.0), (5, 1.0), (5, 1.0), (5, 1.0), (6, 0.0)],
    ];
    for entries in rows {
        for six in BOTH {
            all.push(exact(&one_row(8, entries), six));
        }
    }
}

/// Zeros of either sign are entries: their places count, and a block of them alone is stored, as +0.0.
fn zeros(all: &mut Vec<Call>) {
    let rows: [&[(u32, f64)]; 6] = [
        &[(5, 0.0)],
        &[(5, -0.0)],
        &[(5, -0.0), (5, -0.0)],
        &[(0, 0.0), (3, -0.0), (7, 0.0)],
        &[(5, -0.0), (6, 2.0), (5, 0.0), (7, -0.0)],
        &[(5, 1.0), (5, -1.0), (5, -0.0), (2, 0.0)],
    ];
    for entries in rows {
        for six in BOTH {
            all.push(exact(&one_row(8, entries), six));
        }
    }
}

/// The rows of a block row in any order of columns, blocks met in any order.
fn unsorted(all: &mut Vec<Call>) {
    let cols = [20, 0, 7, 19, 1, 20, 13, 6, 5, 0, 12];
    let values: Vec<f64> = (1..=11).map(small).collect();
    for six in BOTH {
        all.push(exact(&csr(4, 21, &[0, 4, 4, 9, 11], &cols, &values), six));
        all.push(exact(
            &csr(6, 21, &[0, 1, 2, 3, 8, 8, 11], &cols, &values),
            six,
        ));
    }
}

/// Seven rows of 14 columns, blocks in both block rows of six and all of three.
fn two_rows() -> Csr {
    let cols = [13, 0, 5, 6, 0, 12];
    let values: Vec<f64> = (1..=6).map(small).collect();
    csr(7, 14, &[0, 2, 2, 3, 4, 5, 5, 6], &cols, &values)
}

/// Lists just long enough, each one place short, each one longer, all longer, none; values for one block less.
fn rooms(all: &mut Vec<Call>) {
    let c = two_rows();
    for six in BOTH {
        let b = blocks_of(model::judge, &c, six).expect("a good plot list");
        let needed = lengths(&b);
        all.push(build(&c, six, needed));
        for place in 0..3 {
            for change in [-1, 1] {
                let mut lengths = needed;
                lengths[place] = lengths[place].strict_add_signed(change);
                all.push(build(&c, six, lengths));
            }
        }
        let [pointers, columns, values] = needed;
        all.push(build(&c, six, [pointers + 2, columns + 3, values + 4]));
        all.push(build(&c, six, [pointers, columns, values / columns]));
        all.push(build(&c, six, [0, 0, 0]));
        all.push(build(&c, six, [1, columns, values]));
    }
}

/// Each refusal of the plot list, before 13; 1 before 2, 2 before 3, 3 before 4.
fn refusals(all: &mut Vec<Call>) {
    let changes: [fn(&mut Csr); 19] = [
        |c| c.nrows = MOST + 1,
        |c| c.nrows = HUGE,
        |c| c.ncols = MOST + 1,
        |c| c.ncols = HUGE,
        |c| c.row_ptr.truncate(7),
        |c| c.row_ptr.push(6),
        |c| c.row_ptr.clear(),
        |c| c.row_ptr[0] = 1,
        |c| c.row_ptr[3] = 5,
        |c| c.row_ptr[7] = 5,
        |c| c.values.truncate(5),
        |c| c.col_idx.truncate(5),
        |c| c.col_idx[3] = 14,
        |c| c.col_idx[5] = u32::MAX,
        |c| c.values[3] = NAN,
        |c| c.values[5] = -INF,
        |c| (c.ncols, c.row_ptr[0]) = (HUGE, 1),
        |c| (c.row_ptr[0], c.col_idx[0]) = (1, 14),
        |c| (c.col_idx[5], c.values[0]) = (14, INF),
    ];
    for change in changes {
        let mut c = two_rows();
        change(&mut c);
        all.push(build(&c, false, [4, 6, 54]));
        all.push(build(&c, true, [0, 1, 1]));
    }
}

/// No rows, no columns, no entries; as many columns as there can be; many rows.
fn shapes(all: &mut Vec<Call>) {
    for (nrows, ncols) in [(0, 0), (0, 7), (7, 0), (7, 7)] {
        let c = csr(nrows, ncols, &vec![0; nrows + 1], &[], &[]);
        for six in BOTH {
            all.push(exact(&c, six));
            all.push(build(&c, six, [0, 0, 0]));
            all.push(build(&c, six, [4, 1, 1]));
        }
    }
    let last = MOST as u32 - 1;
    let cols = [last, 0, last - 1, last - 3, last];
    let values = [1, 2, 3, 4, 5].map(small);
    let c = csr(4, MOST, &[0, 3, 3, 4, 5], &cols, &values);
    let mut tall = csr(1000, 4, &[0; 1001], &[3, 1], &[small(1), small(2)]);
    tall.row_ptr[1..].fill(1);
    tall.row_ptr[1000] = 2;
    for six in BOTH {
        all.push(exact(&c, six));
        all.push(exact(&tall, six));
    }
}

/// 40 rows of 50 columns, up to five entries a row, unsorted, with copies and zeros.
fn generated(all: &mut Vec<Call>) {
    let mut rng = Rng::new(5);
    let (mut ptr, mut cols, mut values) = (vec![0], vec![], vec![]);
    for _ in 0..40 {
        for _ in 0..rng.below(6) {
            cols.push(rng.below(50) as u32);
            values.push(small(rng.below(99)));
        }
        ptr.push(cols.len() as u32);
    }
    let c = csr(40, 50, &ptr, &cols, &values);
    for six in BOTH {
        all.push(exact(&c, six));
    }
}

/// Ratios to 0, of thirds, of counts that an f64 rounds; bytes at and past the largest.
fn figures(all: &mut Vec<Call>) {
    for a in COUNTS {
        for b in [0, 1, 3, (1 << 53) + 1, HUGE] {
            all.push(Call::DenseBlockBlockFill(a, b));
            all.push(Call::DenseBlockValuePaddingRatio(b, a));
        }
    }
    for (a, b) in [(2, 12), (5, 24), (12, 12), (1, 16), (36, 36)] {
        all.push(Call::DenseBlockBlockFill(a, b));
        all.push(Call::DenseBlockValuePaddingRatio(9 * a, a));
        all.push(Call::DenseBlockValuePaddingRatio(36 * a, b));
    }
    let quarters = [
        0,
        1,
        2,
        HUGE / 4 - 2,
        HUGE / 4 - 1,
        HUGE / 4,
        HUGE / 4 + 1,
        HUGE,
    ];
    for a in quarters {
        for b in quarters {
            all.push(Call::DenseBlockMetadataBytes(a, b));
        }
        for slots in [0, 9, 36, HUGE / 8 - 1, HUGE / 8, HUGE / 8 + 1, HUGE] {
            all.push(Call::DenseBlockStorageBytes(a, 1, slots));
            all.push(Call::DenseBlockStorageBytes(0, a, slots));
        }
    }
}
