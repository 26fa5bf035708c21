//! Restricted and local lists at the edge of document 01's domain, and one past it.

use super::{mask_of, room};
use crate::Sink;
use crate::tiles::{DENSE, Tile, listed};
use calls::{Call, Csr};

const MOST_PLACES: usize = 1 << 20;
const MOST_STORED: usize = 1 << 24;
const WORDS: usize = MOST_PLACES / 64;

/// The calls with many stored things.
pub fn many(sink: &mut impl Sink) {
    full_tiles(sink);
    full_rows(sink);
}

/// The most rows and columns, and one more.
pub fn large(sink: &mut impl Sink) {
    for n in [MOST_PLACES, MOST_PLACES + 1] {
        wide(sink, n);
        square(sink, n);
        members(sink, n);
    }
}

/// 17 full rows of tiles have 17 x 2^20 ones. With 2^20 - 61,681 columns active at most 2^24 are kept, with one more it is 1,
/// and with an infinite value among them 4.
fn full_tiles(sink: &mut impl Sink) {
    let tile = |word: usize| Tile {
        meta: DENSE + word as u32,
        mask: u64::MAX,
        present: vec![0.1; 64],
    };
    let row: Vec<Tile> = (0..WORDS).map(tile).collect();
    let mut t = listed(MOST_PLACES, &vec![row; 17]);
    let most = MOST_STORED / 17;
    for active in [most, most + 1] {
        let m = mask_of(MOST_PLACES, 0..active);
        let room = room([18, MOST_STORED, MOST_STORED]);
        sink.call(&Call::RestrictedFromAbtm(t.clone(), m, room));
    }
    let last = t.values.len() - 1;
    t.values[last] = f64::INFINITY;
    let m = mask_of(MOST_PLACES, 0..MOST_PLACES);
    sink.call(&Call::RestrictedFromAbtm(t, m, room([18, 1, 1])));
}

/// 16 full rows of 2^20 columns, 2^24 entries, all kept.
fn full_rows(sink: &mut impl Sink) {
    let row: Vec<u32> = (0..MOST_PLACES as u32).collect();
    let c = Csr {
        nrows: 16,
        ncols: MOST_PLACES,
        row_ptr: (0..=16).map(|r| r * MOST_PLACES as u32).collect(),
        col_idx: row.repeat(16),
        values: (1..=MOST_STORED).map(|n| n as f64 * 0.1).collect(),
    };
    let m = mask_of(MOST_PLACES, 0..MOST_PLACES);
    let room = room([17, MOST_STORED, MOST_STORED]);
    sink.call(&Call::RestrictedFromCsr32(c, m, room));
}

/// One row with entries at the ends of the columns, under masks that have one of them each.
fn wide(sink: &mut impl Sink, ncols: usize) {
    let last = ncols as u32 - 1;
    let c = Csr {
        nrows: 1,
        ncols,
        row_ptr: vec![0, 5],
        col_idx: vec![last, 0, last - 1, last, 64],
        values: vec![2.5, -0.0, -1.0, 0.1, 3.0],
    };
    let tile = |col: u32, value: f64| Tile {
        meta: col / 64,
        mask: 1 << (col % 64),
        present: vec![value],
    };
    let t = listed(ncols, &[vec![tile(0, 1.0), tile(last, f64::INFINITY)]]);
    for member in [0, 64, ncols - 2, ncols - 1] {
        let m = mask_of(ncols, [member]);
        let room = room([2, 2, 2]);
        sink.call(&Call::RestrictedFromCsr32(
            c.clone(),
            m.clone(),
            room.clone(),
        ));
        sink.call(&Call::RestrictedFromAbtm(t.clone(), m, room));
    }
}

/// A square with entries in the first and the last row, under regions that have one, both or all of these.
fn square(sink: &mut impl Sink, n: usize) {
    let last = (n - 1) as u32;
    let mut row_ptr = vec![2; n + 1];
    (row_ptr[0], row_ptr[n]) = (0, 4);
    let c = Csr {
        nrows: n,
        ncols: n,
        row_ptr,
        col_idx: vec![last, 0, 0, last],
        values: vec![1.0, 2.0, 3.0, 4.0],
    };
    for region in [vec![0], vec![n - 1], vec![0, n - 1]] {
        let size = region.len();
        let m = mask_of(n, region);
        let call = Call::LocalFromCsr32(c.clone(), m, vec![7; size], room([size + 1, 4, 4]));
        sink.call(&call);
    }
    let m = mask_of(n, 0..n);
    sink.call(&Call::LocalFromCsr32(c, m, vec![7; n], room([n + 1, 4, 4])));
}

/// All members of the most rows; and members that don't rise, as many as there can be and more.
fn members(sink: &mut impl Sink, n: usize) {
    let all: Vec<u32> = (0..n as u32).collect();
    let global: Vec<f64> = (0..n).map(|place| place as f64 * 0.1).collect();
    sink.call(&Call::LocalCheck(n, all.clone()));
    sink.call(&Call::LocalGatherInput(
        n,
        all.clone(),
        global,
        vec![7.0; n],
    ));
    sink.call(&Call::LocalCheck(n - 1, all));
    sink.call(&Call::LocalCheck(MOST_PLACES, vec![0; n]));
}
