//! Calls to blocks.

pub mod edge;
pub mod exhaustive;
pub mod random;
pub mod shrink;

use crate::make::Judge;
use crate::restricted::room;
use calls::{Blocks, Call, Csr};

pub fn width(six: bool) -> usize {
    if six { 6 } else { 3 }
}

/// The lengths that the lists of these blocks have.
pub fn lengths(b: &Blocks) -> [usize; 3] {
    [b.row_ptr.len(), b.col_idx.len(), b.values.len()]
}

/// The blocks of a plot list; None where the judge refuses it.
pub fn blocks_of(judge: Judge, c: &Csr, six: bool) -> Option<Blocks> {
    let w = width(six);
    let places = c.nrows.div_ceil(w).saturating_mul(c.ncols.div_ceil(w));
    let most = c.col_idx.len().min(places);
    let room = room([c.nrows.div_ceil(w) + 1, most, most * w * w]);
    let made = judge(&Call::DenseBlockFromCsr32(c.clone(), six, room));
    if made.number != 0 {
        return None;
    }
    let [count, slots] = [3, 4].map(|field| made.result[field] as usize);
    let narrow = |list: usize, n: usize| made.lists[list][..n].iter().map(|&v| v as u32).collect();
    let values = made.lists[2][..slots].iter();
    Some(Blocks {
        nrows: c.nrows,
        ncols: c.ncols,
        six,
        row_ptr: narrow(0, c.nrows.div_ceil(w) + 1),
        col_idx: narrow(1, count),
        values: values.map(|&v| f64::from_bits(v)).collect(),
    })
}

/// One block: its block column and its values, row after row.
#[derive(Clone)]
pub struct Block {
    pub col: u32,
    pub values: Vec<f64>,
}

impl Block {
    /// A block with these values at its first places and zeros after them.
    pub fn new(col: u32, six: bool, first: &[f64]) -> Block {
        let mut values = first.to_vec();
        values.resize(width(six) * width(six), 0.0);
        Block { col, values }
    }
}

/// The lists of these block rows.
pub fn listed(frame: (usize, usize), six: bool, rows: &[Vec<Block>]) -> Blocks {
    let mut b = Blocks {
        nrows: frame.0,
        ncols: frame.1,
        six,
        row_ptr: vec![0],
        col_idx: vec![],
        values: vec![],
    };
    for row in rows {
        for block in row {
            b.col_idx.push(block.col);
            b.values.extend(&block.values);
        }
        b.row_ptr.push(b.col_idx.len() as u32);
    }
    b
}

/// The blocks of each block row; None where the lists don't lead to them.
pub fn rows_of(b: &Blocks) -> Option<Vec<Vec<Block>>> {
    let (slots, n) = (width(b.six) * width(b.six), b.col_idx.len());
    let framed = b.row_ptr.len() == b.nrows.div_ceil(width(b.six)).checked_add(1)?
        && b.row_ptr.first() == Some(&0)
        && b.row_ptr.last().map(|&p| p as usize) == Some(n)
        && b.row_ptr.is_sorted()
        && n.checked_mul(slots) == Some(b.values.len());
    if !framed {
        return None;
    }
    let block = |place: usize| Block {
        col: b.col_idx[place],
        values: b.values[place * slots..(place + 1) * slots].to_vec(),
    };
    let ends = b.row_ptr.windows(2);
    let rows = ends.map(|ends| (ends[0] as usize..ends[1] as usize).map(block).collect());
    Some(rows.collect())
}
