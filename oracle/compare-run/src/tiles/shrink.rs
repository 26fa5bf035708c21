//! Smaller tiles that are as good as they were: a row, a tile or a present column dropped, or the columns cut.

use super::{Tile, listed, rows_of};
use crate::shrink::Drop;
use calls::{Call, Tiles};

pub fn tiles_in(call: &mut Call) -> Option<&mut Tiles> {
    use Call::*;
    match call {
        AbtmCheck(t)
        | AbtmStats(t)
        | AbtmRowTiles(t, _)
        | AbtmApply(t, ..)
        | AbtmExpandMaskOneHop(t, ..)
        | RestrictedFromAbtm(t, ..) => Some(t),
        _ => None,
    }
}

/// Rows, columns, tiles and ones; 0 where the lists don't lead to tiles that can be listed anew.
pub fn extent(t: &Tiles) -> (usize, usize, usize, usize) {
    match rows_of(t) {
        Some(rows) if listed(t.ncols, &rows).value_offsets == t.value_offsets => {
            let ones = t.masks.iter().map(|m| m.count_ones() as usize).sum();
            (t.nrows, t.ncols, t.masks.len(), ones)
        }
        _ => (0, 0, 0, 0),
    }
}

/// Drops from tiles whose lists lead to them; where `square`, the columns go with their rows. A wrong total stays wrong; absent
/// values and values past the last are lost.
pub fn drop_tiles(t: &mut Tiles, drop: Drop, square: bool) {
    let Some(mut rows) = rows_of(t) else { return };
    let ones: usize = t.masks.iter().map(|m| m.count_ones() as usize).sum();
    let mut ncols = t.ncols;
    match drop {
        Drop::Row(row) => {
            rows.remove(row);
        }
        Drop::Entry(n) => {
            let row = t.row_tile_ptr.partition_point(|&p| p as usize <= n) - 1;
            rows[row].remove(n - t.row_tile_ptr[row] as usize);
        }
        Drop::One(n) => {
            drop_one(&mut rows, n);
        }
        Drop::ColumnsFrom(n) => {
            ncols = n;
            rows.truncate(if square { n } else { t.nrows });
            rows.iter_mut().flatten().for_each(|tile| cut(tile, n));
        }
    }
    // An empty mask may be what matters: only what the drop emptied goes.
    if matches!(drop, Drop::One(_) | Drop::ColumnsFrom(_)) {
        rows.iter_mut()
            .for_each(|row| row.retain(|tile| tile.mask != 0));
    }
    let mut smaller = listed(ncols, &rows);
    let extra = t.matrix_nnz.wrapping_sub(ones);
    smaller.matrix_nnz = smaller.matrix_nnz.wrapping_add(extra);
    *t = smaller;
}

/// Takes the n-th present column out.
fn drop_one(rows: &mut [Vec<Tile>], n: usize) {
    let mut before = 0;
    for tile in rows.iter_mut().flatten() {
        let ones = tile.present.len();
        if n < before + ones {
            let place = n - before;
            let offset = tile.offsets().nth(place).expect("a place for each value");
            tile.mask &= !(1 << offset);
            tile.present.remove(place);
            return;
        }
        before += ones;
    }
}

/// Takes the columns from n on out.
fn cut(tile: &mut Tile, n: usize) {
    let base = (tile.meta % (1 << 30)) as usize * 64;
    let left = tile.offsets().filter(|offset| base + offset < n);
    let kept = left.count();
    tile.present.truncate(kept);
    let offsets: Vec<usize> = tile.offsets().take(kept).collect();
    tile.mask = offsets.iter().map(|offset| 1 << offset).sum();
}
