//! Blocks at the edge of document 01's domain, and one past it. 2^24 blocks with all their values, 1.2 GB, are left out.

use super::{Block, blocks_of, listed, width};
use crate::Sink;
use crate::make::Judge;
use crate::restricted::room;
use calls::{Call, Csr};

const MOST_PLACES: usize = 1 << 20;
const MOST_STORED: usize = 1 << 24;

/// The calls with many stored things.
pub fn many(sink: &mut impl Sink) {
    long_lists(sink);
    full_rows(sink);
}

/// The most rows and columns, and one more.
pub fn large(sink: &mut impl Sink, judge: Judge) {
    for n in [MOST_PLACES - 1, MOST_PLACES, MOST_PLACES + 1] {
        for six in [false, true] {
            wide(sink, judge, n, six);
            tall(sink, judge, n, six);
        }
    }
    for six in [false, true] {
        banded(sink, judge, six);
    }
}

/// 2^24 blocks without their values (12), one more (1); values alone, which have no such limit (12).
fn long_lists(sink: &mut impl Sink) {
    for n in [MOST_STORED, MOST_STORED + 1] {
        let mut b = listed((1, 1), false, &[vec![]]);
        b.values = vec![0.0; n];
        sink.call(&Call::DenseBlockCheck(b.clone()));
        b.values.clear();
        b.row_ptr[1] = n as u32;
        b.col_idx = vec![0; n];
        sink.call(&Call::DenseBlockCheck(b.clone()));
        sink.call(&Call::DenseBlockFastBlockFraction(b));
    }
}

/// 16 full rows of 2^20 columns: 2^24 entries, in more than 2^24 values of blocks.
fn full_rows(sink: &mut impl Sink) {
    let row: Vec<u32> = (0..MOST_PLACES as u32).collect();
    let nrows = 16;
    let c = Csr {
        nrows,
        ncols: MOST_PLACES,
        row_ptr: (0..=nrows as u32).map(|r| r * MOST_PLACES as u32).collect(),
        col_idx: row.repeat(nrows),
        values: (0..MOST_STORED).map(|n| (n % 13) as f64).collect(),
    };
    for six in [true, false] {
        let w = width(six);
        let blocks = nrows.div_ceil(w) * MOST_PLACES.div_ceil(w);
        let room = room([nrows.div_ceil(w) + 1, blocks, blocks * w * w]);
        sink.call(&Call::DenseBlockFromCsr32(c.clone(), six, room));
    }
}

/// The build of a plot list, and the questions to its blocks.
fn plot_list(sink: &mut impl Sink, judge: Judge, c: &Csr, six: bool) {
    let (w, n) = (width(six), c.col_idx.len());
    let lengths = [c.nrows.div_ceil(w) + 1, n, n * w * w];
    sink.call(&Call::DenseBlockFromCsr32(c.clone(), six, room(lengths)));
    let Some(b) = blocks_of(judge, c, six) else {
        return;
    };
    sink.call(&Call::DenseBlockCheck(b.clone()));
    sink.call(&Call::DenseBlockFastBlockFraction(b.clone()));
    let mut x: Vec<f64> = (0..c.ncols).map(|col| 0.1 + col as f64).collect();
    sink.call(&Call::DenseBlockApply(
        b.clone(),
        x.clone(),
        vec![7.0; c.nrows],
    ));
    x[c.ncols - 2] = f64::NAN;
    sink.call(&Call::DenseBlockApply(b.clone(), x, vec![7.0; c.nrows]));
    let mut narrow = b.clone();
    narrow.ncols = (narrow.ncols - 1) / w * w;
    sink.call(&Call::DenseBlockCheck(narrow));
    let mut over = b;
    over.nrows = MOST_PLACES + 1;
    sink.call(&Call::DenseBlockCheck(over));
}

/// Four rows whose entries lie at the ends of the columns, unsorted, with copies.
fn wide(sink: &mut impl Sink, judge: Judge, ncols: usize, six: bool) {
    let last = ncols as u32 - 1;
    let c = Csr {
        nrows: 4,
        ncols,
        row_ptr: vec![0, 5, 5, 6, 8],
        col_idx: vec![last, 0, last - 3, last, 5, last - 1, last, 2],
        values: vec![2.5, 1.0, -1.0, 0.1, 3.0, -0.0, 5.0, 0.2],
    };
    plot_list(sink, judge, &c, six);
}

/// As many rows as the domain has, with entries in the first and the last ones.
fn tall(sink: &mut impl Sink, judge: Judge, nrows: usize, six: bool) {
    let mut row_ptr = vec![2; nrows + 1];
    row_ptr[0] = 0;
    (row_ptr[nrows - 1], row_ptr[nrows]) = (4, 7);
    let c = Csr {
        nrows,
        ncols: 13,
        row_ptr,
        col_idx: vec![12, 0, 3, 11, 12, 0, 12],
        values: vec![1.5, 2.0, -4.0, 0.1, 0.2, 8.0, 0.3],
    };
    plot_list(sink, judge, &c, six);
}

/// A square of the most rows and columns with an entry beside the diagonal in each row but the last: a block or two in each block
/// row; the same blocks with one block column too many.
fn banded(sink: &mut impl Sink, judge: Judge, six: bool) {
    let n = MOST_PLACES;
    let c = Csr {
        nrows: n,
        ncols: n,
        row_ptr: (0..=n as u32).map(|row| row.min(n as u32 - 1)).collect(),
        col_idx: (1..n as u32).collect(),
        values: (1..n).map(|row| (row % 7) as f64).collect(),
    };
    plot_list(sink, judge, &c, six);
    let columns = n.div_ceil(width(six)) as u32;
    let mut rows = vec![vec![]; n.div_ceil(width(six))];
    let last = rows.len() - 1;
    for col in [columns - 1, columns] {
        rows[last] = vec![Block::new(col, six, &[0.5])];
        let b = listed((n, n), six, &rows);
        sink.call(&Call::DenseBlockCheck(b.clone()));
        sink.call(&Call::DenseBlockApply(b, vec![2.0; n], vec![7.0; n]));
    }
}
