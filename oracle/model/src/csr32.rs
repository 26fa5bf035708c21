//! A plot list: each row is the list of its entries, in stored order.

use crate::answer::{
    BAD_FRAME, Checked, NOT_FINITE, OUTSIDE_COLUMN, change, count, list_bits, need, need_length,
    need_sizes, verdict,
};
use calls::{Csr, Outcome};
use std::ops::Range;

/// Refusal 1.
pub fn sizes(csr: &Csr) -> Checked {
    need_sizes(
        &[csr.nrows, csr.ncols],
        &[csr.col_idx.len(), csr.values.len()],
    )
}

/// Refusals 2, 3, 4.
pub fn rules(csr: &Csr) -> Checked {
    need(csr.col_idx.len() == csr.values.len(), BAD_FRAME)?;
    need(
        pointers_hold(&csr.row_ptr, csr.nrows, csr.col_idx.len()),
        BAD_FRAME,
    )?;
    let inside = csr.col_idx.iter().all(|&col| (col as usize) < csr.ncols);
    need(inside, OUTSIDE_COLUMN)?;
    need(csr.values.iter().all(|v| v.is_finite()), NOT_FINITE)
}

pub fn check(csr: &Csr) -> Checked {
    sizes(csr)?;
    rules(csr)
}

/// The pointer rules, which words and packed values follow too: one more than the rows, from 0 to the count without a fall.
pub fn pointers_hold(pointers: &[u32], nrows: usize, stored: usize) -> bool {
    pointers.len() == nrows + 1
        && pointers[0] == 0
        && pointers[nrows] as usize == stored
        && pointers.is_sorted()
}

/// The places of a row in the lists that good pointers divide.
pub fn part(pointers: &[u32], row: usize) -> Range<usize> {
    pointers[row] as usize..pointers[row + 1] as usize
}

/// The entries of a row.
pub fn entries(csr: &Csr, row: usize) -> impl Iterator<Item = (usize, f64)> {
    part(&csr.row_ptr, row).map(|place| (csr.col_idx[place] as usize, csr.values[place]))
}

/// The sum of value × x over the entries, from 0.0 in their order; each product and each sum is rounded.
pub fn product(entries: impl Iterator<Item = (usize, f64)>, x: &[f64]) -> f64 {
    entries.fold(0.0, |sum, (col, value)| {
        let term = value * x[col];
        sum + term
    })
}

pub fn judge_check(csr: &Csr) -> Outcome {
    verdict(check(csr))
}

pub fn judge_apply(csr: &Csr, x: &[f64], y: &[f64]) -> Outcome {
    change(apply(csr, x, y), list_bits(y))
}

fn apply(csr: &Csr, x: &[f64], y: &[f64]) -> Checked<Vec<u64>> {
    check(csr)?;
    need_length(csr.ncols, x.len())?;
    need_length(csr.nrows, y.len())?;
    let rows = (0..csr.nrows).map(|row| product(entries(csr, row), x));
    Ok(list_bits(&rows.collect::<Vec<f64>>()))
}

pub fn judge_metadata_bytes(csr: &Csr) -> Outcome {
    count(check(csr).map(|()| metadata_bytes(csr)))
}

/// The bytes of the pointers and columns, four each.
fn metadata_bytes(csr: &Csr) -> usize {
    4 * (csr.nrows + 1) + 4 * csr.col_idx.len()
}

pub fn judge_storage_bytes(csr: &Csr) -> Outcome {
    count(check(csr).map(|()| metadata_bytes(csr) + 8 * csr.values.len()))
}
