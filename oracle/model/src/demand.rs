//! Demand 3 in document 01's words: the number, the executed count and the active words of each matrix row.

use crate::csr32::{self, entries};
use crate::mask;
use crate::words::WIDTH;
use calls::{Csr, Mask, bits};
use std::collections::{BTreeMap, BTreeSet};

/// What demand 3 fixes of one row: the number by its bits, executed, active words.
pub type RowAnswer = (u64, usize, usize);

/// The answers of all rows of a good plot list under a valid mask, mask and vector as long as the columns.
pub fn answers(csr: &Csr, active: &Mask, x: &[f64]) -> Vec<RowAnswer> {
    (0..csr.nrows)
        .map(|row| {
            let merged = merged_active(csr, row, active);
            let words: BTreeSet<usize> = merged.keys().map(|col| col / WIDTH).collect();
            let executed = merged.len();
            let sum = csr32::product(merged.into_iter(), x);
            (bits(sum), executed, words.len())
        })
        .collect()
}

/// The active columns with an entry, with their merged values.
fn merged_active(csr: &Csr, row: usize, active: &Mask) -> BTreeMap<usize, f64> {
    let mut merged = BTreeMap::new();
    for (col, value) in entries(csr, row).filter(|&(col, _)| mask::holds(active, col)) {
        *merged.entry(col).or_insert(0.0) += value;
    }
    merged
}

/// Whether no stored or merged active value is zero, which the way through the tiles asks for.
pub fn no_active_zero(csr: &Csr, active: &Mask) -> bool {
    (0..csr.nrows).all(|row| {
        let mut stored = entries(csr, row).filter(|&(col, _)| mask::holds(active, col));
        stored.all(|(_, value)| value != 0.0)
            && merged_active(csr, row, active).values().all(|v| *v != 0.0)
    })
}
