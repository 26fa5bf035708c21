//! Tiles at the edge of document 01's domain, and one past it.

use super::{DENSE, SPARSE, Tile, listed, room, tiles_of};
use crate::Sink;
use crate::make::Judge;
use calls::{Call, Csr, Mask, Tiles};

const MOST_PLACES: usize = 1 << 20;
const MOST_STORED: usize = 1 << 24;
/// The words of a row of the most columns.
const WORDS: usize = MOST_PLACES / 64;

/// The calls with many stored things.
pub fn many(sink: &mut impl Sink) {
    long_lists(sink);
    most_tiles(sink);
    many_slots(sink);
    full_rows(sink);
}

/// The most rows and columns.
pub fn large(sink: &mut impl Sink, judge: Judge) {
    for ncols in [MOST_PLACES - 1, MOST_PLACES, MOST_PLACES + 1] {
        wide(sink, judge, ncols);
    }
    for n in [MOST_PLACES, MOST_PLACES + 1] {
        square(sink, n);
    }
}

/// Each tile list alone of 2^24 places (12), and of one more (1). The value list has no such limit.
fn long_lists(sink: &mut impl Sink) {
    let none = listed(1, &[]);
    for n in [MOST_STORED, MOST_STORED + 1] {
        let mut t = none.clone();
        t.masks = vec![0; n];
        sink.call(&Call::AbtmCheck(t));
        let mut t = none.clone();
        t.value_offsets = vec![0; n];
        sink.call(&Call::AbtmCheck(t));
        let mut t = none.clone();
        t.metas = vec![0; n];
        sink.call(&Call::AbtmCheck(t));
        let mut t = none.clone();
        t.values = vec![0.0; n];
        sink.call(&Call::AbtmCheck(t));
    }
}

/// 1,024 rows with a Sparse tile in each word are 2^24 tiles; with one tile more it is 1.
fn most_tiles(sink: &mut impl Sink) {
    let n = MOST_STORED as u32;
    let mut t = Tiles {
        nrows: 1025,
        ncols: MOST_PLACES,
        row_tile_ptr: (0..=1024)
            .map(|row| row * WORDS as u32)
            .chain([n])
            .collect(),
        masks: vec![2; MOST_STORED],
        value_offsets: (0..n).collect(),
        metas: (0..n).map(|tile| tile % WORDS as u32).collect(),
        values: vec![1.5; MOST_STORED],
        matrix_nnz: MOST_STORED,
    };
    sink.call(&Call::AbtmCheck(t.clone()));
    sink.call(&Call::AbtmRowTiles(t.clone(), 1023));
    t.row_tile_ptr[1025] += 1;
    t.masks.push(2);
    t.value_offsets.push(n);
    t.metas.push(0);
    t.values.push(1.5);
    t.matrix_nnz += 1;
    sink.call(&Call::AbtmCheck(t));
}

/// 17 rows of Dense tiles have more than 2^24 slots, which is no refusal.
fn many_slots(sink: &mut impl Sink) {
    let tile = |word: usize| Tile {
        meta: DENSE + word as u32,
        mask: 1 << 63 | 1,
        present: vec![0.1, 0.2],
    };
    let row: Vec<Tile> = (0..WORDS).map(tile).collect();
    let t = listed(MOST_PLACES, &vec![row; 17]);
    let x: Vec<f64> = (0..MOST_PLACES).map(|col| 1.0 / (1 + col) as f64).collect();
    sink.call(&Call::AbtmStats(t.clone()));
    sink.call(&Call::AbtmApply(t, x, vec![7.0; 17]));
}

/// 16 full rows of 2^20 columns: 2^24 entries, in 2^18 Dense tiles.
fn full_rows(sink: &mut impl Sink) {
    let row: Vec<u32> = (0..MOST_PLACES as u32).collect();
    let nrows = 16;
    let c = Csr {
        nrows,
        ncols: MOST_PLACES,
        row_ptr: (0..=nrows as u32).map(|r| r * MOST_PLACES as u32).collect(),
        col_idx: row.repeat(nrows),
        values: (1..=MOST_STORED).map(|n| n as f64 * 0.1).collect(),
    };
    let n = nrows * WORDS;
    let room = room([nrows + 1, n, n, n, MOST_STORED]);
    sink.call(&Call::AbtmFromCsr32(c, 8, 40, room));
}

/// One row whose entries lie at the ends of the columns, unsorted, with copies and a zero.
fn wide(sink: &mut impl Sink, judge: Judge, ncols: usize) {
    let last = ncols as u32 - 1;
    let c = Csr {
        nrows: 1,
        ncols,
        row_ptr: vec![0, 8],
        col_idx: vec![last, 0, 63, last, 64, last - 64, last - 1, last],
        values: vec![2.5, 1.0, -1.0, 0.1, 3.0, -0.0, 5.0, 0.2],
    };
    let mut x: Vec<f64> = (0..ncols).map(|col| 0.1 + col as f64).collect();
    for thresholds in [(1, 2), (2, 3)] {
        let (sparse, dense) = thresholds;
        let room = room([2, 4, 4, 4, 256]);
        sink.call(&Call::AbtmFromCsr32(c.clone(), sparse, dense, room));
        let Some(t) = tiles_of(judge, &c, thresholds) else {
            continue;
        };
        sink.call(&Call::AbtmCheck(t.clone()));
        sink.call(&Call::AbtmStats(t.clone()));
        sink.call(&Call::AbtmApply(t.clone(), x.clone(), vec![7.0]));
        x[ncols - 3] = f64::NAN;
        sink.call(&Call::AbtmApply(t.clone(), x.clone(), vec![7.0]));
        let mut narrow = t.clone();
        narrow.ncols -= 1;
        sink.call(&Call::AbtmCheck(narrow));
    }
}

/// A square with entries in the first and the last row.
fn square(sink: &mut impl Sink, n: usize) {
    let last = (n - 1) as u32;
    let tile = |col: u32| Tile {
        meta: SPARSE + col / 64,
        mask: 1 << (col % 64),
        present: vec![1.0],
    };
    let mut rows = vec![vec![]; n];
    rows[0] = vec![tile(1), tile(last - 1)];
    rows[n - 1] = vec![tile(2)];
    let t = listed(n, &rows);
    sink.call(&Call::AbtmStats(t.clone()));
    for row in [0, n - 1, n] {
        sink.call(&Call::AbtmRowTiles(t.clone(), row));
    }
    for members in [vec![0], vec![n - 1], vec![0, n - 1]] {
        let mut words = vec![0; n.div_ceil(64)];
        for index in members {
            words[index / 64] |= 1 << (index % 64);
        }
        let m = Mask { len: n, words };
        let out = vec![7; n.div_ceil(64)];
        sink.call(&Call::AbtmExpandMaskOneHop(t.clone(), m, out));
    }
    sink.call(&Call::AbtmApply(t, vec![0.5; n], vec![7.0; n]));
}
