//! Blocks: each block row is a map from block columns to blocks, each block a map from the places in it to their values.

use crate::answer::{
    BAD_STORE, Built, Checked, answer, build, bytes, change, count, list_bits, need, need_length,
    need_sizes, number, ratio, verdict,
};
use crate::csr32::{self, entries, part, pointers_hold};
use calls::{Blocks, Csr, CsrRoom, Outcome, bits};
use std::collections::{BTreeMap, BTreeSet};
use std::ops::Range;

fn width(six: bool) -> usize {
    if six { 6 } else { 3 }
}

/// The rows or columns of a block row or column, those outside the frame left out.
fn inside(number: usize, width: usize, frame: usize) -> Range<usize> {
    number * width..frame.min((number + 1) * width)
}

/// Refusal 1: how many values there are is 12's matter.
fn sizes(blocks: &Blocks) -> Checked {
    need_sizes(&[blocks.nrows, blocks.ncols], &[blocks.col_idx.len()])
}

/// Refusal 12.
fn rules(blocks: &Blocks) -> Checked {
    let (w, count) = (width(blocks.six), blocks.col_idx.len());
    let block_rows = blocks.nrows.div_ceil(w);
    let pointers = pointers_hold(&blocks.row_ptr, block_rows, count);
    need(pointers, BAD_STORE)?;
    let rising = (0..block_rows).all(|row| {
        let columns = &blocks.col_idx[part(&blocks.row_ptr, row)];
        columns.is_sorted_by(|a, b| a < b)
    });
    need(rising, BAD_STORE)?;
    let block_columns = blocks.ncols.div_ceil(w);
    let framed = blocks.col_idx.iter().all(|&c| (c as usize) < block_columns);
    need(framed, BAD_STORE)?;
    need(blocks.values.len() == count * w * w, BAD_STORE)
}

fn check(blocks: &Blocks) -> Checked {
    sizes(blocks)?;
    rules(blocks)
}

pub fn judge_check(blocks: &Blocks) -> Outcome {
    verdict(check(blocks))
}

/// The merged values of a block by row and column in it.
type Block = BTreeMap<(usize, usize), f64>;

/// The blocks of a block row by block column, copies added up from 0.0 in stored order.
fn merged(csr: &Csr, block_row: usize, w: usize) -> BTreeMap<usize, Block> {
    let mut blocks: BTreeMap<usize, Block> = BTreeMap::new();
    for row in inside(block_row, w, csr.nrows) {
        for (col, value) in entries(csr, row) {
            let block = blocks.entry(col / w).or_default();
            *block.entry((row % w, col % w)).or_insert(0.0) += value;
        }
    }
    blocks
}

pub fn judge_from_csr32(csr: &Csr, six: bool, room: &CsrRoom) -> Outcome {
    let lengths = [room.row_ptr.len(), room.col_idx.len(), room.values.len()];
    build(from_csr32(csr, width(six)), lengths)
}

fn from_csr32(csr: &Csr, w: usize) -> Checked<Built<7, 3>> {
    csr32::check(csr)?;
    let block_rows = csr.nrows.div_ceil(w);
    let (mut row_ptr, mut col_idx, mut values) = (vec![0], vec![], vec![]);
    let (mut structural, mut valid) = (0, 0);
    for block_row in 0..block_rows {
        for (block_col, block) in merged(csr, block_row, w) {
            structural += block.len();
            let rows = inside(block_row, w, csr.nrows).len();
            valid += rows * inside(block_col, w, csr.ncols).len();
            col_idx.push(block_col as u64);
            let places = (0..w).flat_map(|row| (0..w).map(move |col| (row, col)));
            values.extend(places.map(|place| block.get(&place).map_or(0, |v| bits(*v))));
        }
        row_ptr.push(col_idx.len() as u64);
    }
    let counts = [col_idx.len(), values.len(), structural, valid];
    let [blocks, slots, structural, valid] = counts;
    let result = [
        csr.nrows, csr.ncols, block_rows, blocks, slots, structural, valid,
    ];
    Ok(Built {
        result: result.map(|n| n as u64),
        used: [row_ptr, col_idx, values],
    })
}

/// The width; the blocks that a count of rows or columns takes, and the full ones among them; the block and the place of a column.
pub fn judge_size(six: bool, n: usize, col: usize) -> Outcome {
    let w = width(six);
    let numbers = [w, n.div_ceil(w), n / w, col / w, col % w];
    answer(Ok(numbers.map(|n| n as u64)))
}

pub fn judge_structural_slots(csr: &Csr) -> Outcome {
    count(csr32::check(csr).map(|()| {
        let columns = |row| entries(csr, row).map(|(col, _)| col);
        let distinct = |row| columns(row).collect::<BTreeSet<usize>>().len();
        (0..csr.nrows).map(distinct).sum()
    }))
}

/// The pointers and block columns of a build, and how many blocks there are.
pub fn judge_columns(csr: &Csr, six: bool, room: [usize; 2]) -> Outcome {
    let made = from_csr32(csr, width(six)).map(|built| {
        let [pointers, columns, _] = built.used;
        Built {
            result: [built.result[3]],
            used: [pointers, columns],
        }
    });
    build(made, room)
}

pub fn judge_apply(blocks: &Blocks, x: &[f64], y: &[f64]) -> Outcome {
    change(apply(blocks, x, y), list_bits(y))
}

fn apply(blocks: &Blocks, x: &[f64], y: &[f64]) -> Checked<Vec<u64>> {
    check(blocks)?;
    need_length(blocks.ncols, x.len())?;
    need_length(blocks.nrows, y.len())?;
    let rows = (0..blocks.nrows).map(|row| row_product(blocks, row, x));
    Ok(list_bits(&rows.collect::<Vec<f64>>()))
}

/// Whether the block row or column lies wholly in the frame.
fn full(number: usize, width: usize, frame: usize) -> bool {
    inside(number, width, frame).len() == width
}

/// In a full block row a full block adds the sum of its products, which begins with the first of them, and a column tail each
/// product on its own; in a partial last block row every block adds the sum of its products from 0.0.
fn row_product(blocks: &Blocks, row: usize, x: &[f64]) -> f64 {
    let w = width(blocks.six);
    let block_row = row / w;
    let mut sum = 0.0;
    for block in part(&blocks.row_ptr, block_row) {
        let number = blocks.col_idx[block] as usize;
        let values = &blocks.values[block * w * w + row % w * w..];
        let columns = inside(number, w, blocks.ncols);
        let terms = columns.zip(values).map(|(col, value)| value * x[col]);
        if !full(block_row, w, blocks.nrows) {
            sum += terms.fold(0.0, |own, term| own + term);
        } else if full(number, w, blocks.ncols) {
            sum += terms.reduce(|own, term| own + term).expect("a product");
        } else {
            sum = terms.fold(sum, |sum, term| sum + term);
        }
    }
    sum
}

pub fn judge_fast_block_fraction(blocks: &Blocks) -> Outcome {
    answer(check(blocks).map(|()| [bits(fast_block_fraction(blocks))]))
}

/// The blocks wholly inside the frame among all.
fn fast_block_fraction(blocks: &Blocks) -> f64 {
    let w = width(blocks.six);
    let full_in = |row: usize| {
        let columns = &blocks.col_idx[part(&blocks.row_ptr, row)];
        let whole = columns
            .iter()
            .filter(|&&c| full(c as usize, w, blocks.ncols));
        if full(row, w, blocks.nrows) {
            whole.count()
        } else {
            0
        }
    };
    let fast = (0..blocks.nrows.div_ceil(w)).map(full_in).sum();
    ratio(fast, blocks.col_idx.len())
}

/// The places with an entry among the places of the blocks inside the frame.
pub fn judge_block_fill(structural: usize, valid: usize) -> Outcome {
    number(ratio(structural, valid))
}

/// The values of the blocks for each place with an entry.
pub fn judge_value_padding_ratio(slots: usize, structural: usize) -> Outcome {
    number(ratio(slots, structural))
}

/// Four bytes for each pointer and block column.
pub fn judge_metadata_bytes(block_rows: usize, blocks: usize) -> Outcome {
    bytes(&[(4, block_rows), (4, 1), (4, blocks)])
}

/// Those, and eight for each value.
pub fn judge_storage_bytes(block_rows: usize, blocks: usize, slots: usize) -> Outcome {
    bytes(&[(4, block_rows), (4, 1), (4, blocks), (8, slots)])
}
