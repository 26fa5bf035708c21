//! Smaller blocks that are as good as they were: a block row, a block, rows at the end or columns dropped, the vectors with them.

use super::{Block, listed, rows_of, width};
use crate::shrink::Drop;
use calls::{Blocks, Call};

pub fn blocks_in(call: &mut Call) -> Option<&mut Blocks> {
    use Call::*;
    match call {
        DenseBlockCheck(b) | DenseBlockFastBlockFraction(b) | DenseBlockApply(b, ..) => Some(b),
        _ => None,
    }
}

/// Block rows, columns and blocks; 0 where the lists don't lead to blocks that can be listed anew.
pub fn extent(b: &Blocks) -> (usize, usize, usize) {
    match rows_of(b) {
        Some(rows) => (rows.len(), b.ncols, b.col_idx.len()),
        None => (0, 0, 0),
    }
}

/// The rows that the last block row can lose and still be there.
pub fn last_rows(b: &Blocks) -> usize {
    match rows_of(b) {
        Some(_) => b.nrows.saturating_sub(1) % width(b.six),
        None => 0,
    }
}

/// Drops from blocks whose lists lead to them. `Row` is a block row, `Entry` a block, `One(n)` the last n + 1 rows.
pub fn drop_blocks(call: &mut Call, drop: Drop) {
    let Some(b) = blocks_in(call) else { return };
    let Some(rows) = rows_of(b) else { return };
    let before = (b.ncols, b.nrows);
    *b = dropped(b, rows, drop);
    let after = (b.ncols, b.nrows);
    if let Call::DenseBlockApply(_, x, y) = call {
        x.truncate((x.len() + after.0).saturating_sub(before.0));
        y.truncate((y.len() + after.1).saturating_sub(before.1));
    }
}

fn dropped(b: &Blocks, mut rows: Vec<Vec<Block>>, drop: Drop) -> Blocks {
    let w = width(b.six);
    let (mut nrows, mut ncols) = (b.nrows, b.ncols);
    match drop {
        Drop::Row(row) => {
            rows.remove(row);
            nrows -= if rows.is_empty() { nrows } else { w.min(nrows) };
        }
        Drop::Entry(n) => {
            let row = b.row_ptr.partition_point(|&p| p as usize <= n) - 1;
            rows[row].remove(n - b.row_ptr[row] as usize);
        }
        Drop::One(n) => nrows -= n + 1,
        Drop::ColumnsFrom(n) => {
            ncols = n;
            let inside = |block: &Block| (block.col as usize) < n.div_ceil(w);
            rows.iter_mut().for_each(|row| row.retain(inside));
        }
    }
    listed((nrows, ncols), b.six, &rows)
}
