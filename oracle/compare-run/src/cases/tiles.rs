//! Tiles: thresholds, builds, tiles by value, figures. The calls to tiles that are handed in are in `tile_stores`.

use super::{HUGE, INF, MOST, NAN, csr};
use crate::tiles::{BITMAP, DENSE, SPARSE, room};
use calls::{Call, Csr};

pub fn calls() -> Vec<Call> {
    let mut all = Vec::new();
    worked_thresholds(&mut all);
    worked_largest_value_twice(&mut all);
    worked_cancelling_column(&mut all);
    thresholds(&mut all);
    kinds_by_count(&mut all);
    merged(&mut all);
    rooms(&mut all);
    refusals(&mut all);
    shapes(&mut all);
    by_value(&mut all);
    figures(&mut all);
    all
}

fn build(c: &Csr, (sparse, dense): (u8, u8), lengths: [usize; 5]) -> Call {
    Call::AbtmFromCsr32(c.clone(), sparse, dense, room(lengths))
}

fn one_row(ncols: usize, cols: &[u32], values: &[f64]) -> Csr {
    csr(1, ncols, &[0, cols.len() as u32], cols, values)
}

/// Document 01's worked plot: thresholds 4 and 32: 4 entries Sparse, 5 and 31 Bitmap, 32 Dense. Dense 64 accepted, 65 refused; 4
/// and 4 refused.
fn worked_thresholds(all: &mut Vec<Call>) {
    for n in [4, 5, 31, 32] {
        all.push(build(&first_columns(n), (4, 32), [2, 1, 1, 1, 64]));
    }
    for (sparse, dense) in [(4, 32), (4, 64), (4, 65), (4, 4)] {
        all.push(Call::AbtmValidate(sparse, dense));
        all.push(build(&first_columns(4), (sparse, dense), [2, 1, 1, 1, 64]));
    }
}

/// Document 01's worked plot: the largest finite value twice in one column: tiles accept.
fn worked_largest_value_twice(all: &mut Vec<Call>) {
    let c = one_row(6, &[5, 5], &[f64::MAX, f64::MAX]);
    all.push(build(&c, (8, 40), [2, 1, 1, 1, 1]));
}

/// Document 01's worked plot: column 5 with 1.0 and -1.0: no tile.
fn worked_cancelling_column(all: &mut Vec<Call>) {
    let c = one_row(6, &[5, 5], &[1.0, -1.0]);
    all.push(build(&c, (8, 40), [2, 0, 0, 0, 0]));
    all.push(build(&c, (8, 40), [2, 1, 1, 1, 1]));
}

/// The default thresholds, and the borders of each rule, alone and in a build, where 9 comes before 13.
fn thresholds(all: &mut Vec<Call>) {
    let pairs = [
        (8, 40),
        (0, 32),
        (1, 2),
        (1, 1),
        (2, 1),
        (63, 64),
        (64, 64),
        (64, 65),
        (0, 0),
        (0, 64),
        (0, 65),
        (255, 255),
        (1, 255),
        (255, 64),
    ];
    let c = one_row(70, &[65, 3, 3, 64], &[2.0, 1.0, 0.5, 4.0]);
    for (sparse, dense) in pairs {
        all.push(Call::AbtmValidate(sparse, dense));
        all.push(build(&c, (sparse, dense), [2, 2, 2, 2, 66]));
        all.push(build(&c, (sparse, dense), [2, 2, 2, 2, 1]));
    }
}

/// A row with entries in the first n of 64 columns.
fn first_columns(n: u32) -> Csr {
    let cols: Vec<u32> = (0..n).collect();
    let values: Vec<f64> = (1..=n).map(f64::from).collect();
    one_row(64, &cols, &values)
}

/// Other counts under 4 and 32, and the borders of other thresholds.
fn kinds_by_count(all: &mut Vec<Call>) {
    for n in [0, 1, 3, 33, 63, 64] {
        all.push(build(&first_columns(n), (4, 32), [2, 1, 1, 1, 64]));
    }
    for (sparse, dense) in [(1, 2), (1, 64), (8, 40), (63, 64)] {
        for n in [1, sparse, sparse + 1, dense - 1, dense, 64] {
            let c = first_columns(n.into());
            all.push(build(&c, (sparse, dense), [2, 1, 1, 1, 64]));
        }
    }
}

/// Pairs that overflow or cancel; stored zeros of either sign; copies in stored order, any number of them; an infinite sum that
/// stays.
fn merged(all: &mut Vec<Call>) {
    let (most, least) = (f64::MAX, f64::MIN);
    let rows: [&[(u32, f64)]; 17] = [
        &[(5, most), (5, most)],
        &[(5, 1.0), (5, -1.0)],
        &[(5, least), (5, least)],
        &[(5, most), (5, most), (5, least), (5, least)],
        &[(5, most), (5, least), (5, most)],
        &[(5, 0.0)],
        &[(5, -0.0), (5, -0.0)],
        &[(5, 0.0), (6, 2.0), (5, -0.0), (7, -0.0)],
        &[(5, 1.0), (6, 2.0), (5, -1.0)],
        &[(5, 1e16), (5, 1.0), (5, -1e16)],
        &[(5, 1e16), (5, -1e16), (5, 1.0)],
        &[(5, 1.0), (5, 1e16), (5, 1.0), (5, -1e16)],
        &[(5, 0.1), (5, 0.2), (5, 0.3)],
        &[(5, 0.3), (5, 0.2), (5, 0.1)],
        &[(5, 5e-324), (5, -5e-324), (5, 5e-324)],
        &[(6, 1.0), (5, -1.0), (6, 1.0), (5, 2.0), (6, 1.0)],
        &[(5, 1.0), (5, 1.0), (5, 1.0), (5, 1.0), (5, 1.0), (6, 0.0)],
    ];
    for entries in rows {
        let cols: Vec<u32> = entries.iter().map(|e| e.0).collect();
        let values: Vec<f64> = entries.iter().map(|e| e.1).collect();
        let c = one_row(8, &cols, &values);
        all.push(build(&c, (4, 32), [2, 1, 1, 1, 2]));
        all.push(build(&c, (1, 2), [2, 1, 1, 1, 64]));
    }
}

/// Two rows of 130 columns: 0, 1, 63 and 64; 124 to 127 and 128, 129. Under 1 and 4 they are Bitmap, Sparse, Dense, Bitmap.
fn two_rows() -> Csr {
    let cols = [64, 0, 63, 1, 0, 129, 128, 127, 126, 125, 124];
    let values = [4.0, 1.0, 2.0, 3.0, 0.5, 9.0, 8.0, 7.0, 6.0, 5.0, 0.1];
    csr(2, 130, &[0, 5, 11], &cols, &values)
}

/// Lists just long enough, each one place short, each one longer, all longer, none.
fn rooms(all: &mut Vec<Call>) {
    let c = two_rows();
    for (thresholds, slots) in [((1, 4), 70), ((4, 32), 10)] {
        let needed = [3, 4, 4, 4, slots];
        all.push(build(&c, thresholds, needed));
        for place in 0..5 {
            for change in [-1, 1] {
                let mut lengths = needed;
                lengths[place] = lengths[place].strict_add_signed(change);
                all.push(build(&c, thresholds, lengths));
            }
        }
        all.push(build(&c, thresholds, needed.map(|n| n + 3)));
        all.push(build(&c, thresholds, [0; 5]));
    }
}

/// 1, 2, 3, 4 and 9 before 13 and before each other.
fn refusals(all: &mut Vec<Call>) {
    let changes: [fn(&mut Csr); 8] = [
        |c| c.nrows = MOST + 1,
        |c| c.ncols = HUGE,
        |c| c.row_ptr[2] = 10,
        |c| c.values.truncate(10),
        |c| c.col_idx[3] = 130,
        |c| c.values[3] = NAN,
        |c| c.values[10] = -INF,
        |c| (c.values[0], c.col_idx[1], c.row_ptr[0]) = (INF, 200, 1),
    ];
    for change in changes {
        let mut c = two_rows();
        change(&mut c);
        all.push(build(&c, (4, 32), [3, 4, 4, 4, 10]));
        all.push(build(&c, (4, 4), [3, 4, 4, 4, 10]));
        all.push(build(&c, (4, 32), [3, 4, 4, 4, 9]));
    }
}

/// No rows, no columns, no entries; columns at the ends of the most that there can be; tiles past the last column of 65 and 70.
fn shapes(all: &mut Vec<Call>) {
    for (nrows, ncols) in [(0, 0), (0, 70), (2, 0), (2, 70)] {
        let c = csr(nrows, ncols, &vec![0; nrows + 1], &[], &[]);
        all.push(build(&c, (1, 2), [nrows + 1, 0, 0, 0, 0]));
        all.push(build(&c, (1, 2), [nrows + 2, 1, 1, 1, 1]));
    }
    let last = MOST as u32 - 1;
    let cols = [last, 0, last - 64, last - 1];
    let c = one_row(MOST, &cols, &[1.0, 2.0, 3.0, 4.0]);
    all.push(build(&c, (1, 2), [2, 3, 3, 3, 66]));
    all.push(build(&c, (2, 3), [2, 3, 3, 3, 4]));
    for ncols in [65, 70] {
        let c = one_row(ncols, &[64, 0, 1], &[1.0, 2.0, 3.0]);
        all.push(build(&c, (1, 2), [2, 2, 2, 2, 65]));
    }
}

/// Each kind with the lowest and highest word numbers; 12 for the kind of kind 3.
fn by_value(all: &mut Vec<Call>) {
    for kind in [SPARSE, BITMAP, DENSE, 3 << 30] {
        for word in [0, 1, 63, 64, 16_383, (1 << 26) - 1, 1 << 26, (1 << 30) - 1] {
            all.push(Call::AbtmTileKind(kind + word));
            all.push(Call::AbtmTileBaseCol(kind + word));
        }
    }
}

/// Ratios of no ones, of thirds, of counts that an f64 rounds; totals at and past the largest.
fn figures(all: &mut Vec<Call>) {
    let counts = [0, 1, 3, 60, (1 << 53) + 1, HUGE - 1, HUGE];
    for a in counts {
        for b in counts {
            all.push(Call::AbtmMetadataBytesPerNnz(a, b));
        }
        for slots in [0, 1, 67, HUGE / 8 - 1, HUGE / 8, HUGE / 8 + 1, HUGE] {
            all.push(Call::AbtmTotalEstimatedBytes(a, slots));
        }
    }
    all.push(Call::AbtmTotalEstimatedBytes(7, HUGE / 8));
    all.push(Call::AbtmTotalEstimatedBytes(8, HUGE / 8));
}
