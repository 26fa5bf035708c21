//! Calls to restricted and local lists.

pub mod edge;
pub mod exhaustive;
pub mod random;

use calls::{Csr, CsrRoom, Mask, Outcome};

/// Lent lists of these lengths, which hold something else: pointers, columns, values.
pub fn room([row_ptr, col_idx, values]: [usize; 3]) -> CsrRoom {
    CsrRoom {
        row_ptr: vec![7; row_ptr],
        col_idx: vec![7; col_idx],
        values: vec![7.0; values],
    }
}

/// The mask of this length with these members.
pub fn mask_of(len: usize, members: impl IntoIterator<Item = usize>) -> Mask {
    let mut words = vec![0; len.div_ceil(64)];
    for index in members {
        words[index / 64] |= 1 << (index % 64);
    }
    Mask { len, words }
}

/// The plot list that a restriction left in its lists; None where it was refused.
pub fn made(outcome: &Outcome) -> Option<Csr> {
    if outcome.number != 0 {
        return None;
    }
    let [nrows, ncols, _, kept] = [0, 1, 2, 3].map(|field| outcome.result[field] as usize);
    let narrow = |list: usize, n: usize| outcome.lists[list][..n].iter().map(|&v| v as u32);
    let values = outcome.lists[2][..kept].iter().map(|&v| f64::from_bits(v));
    Some(Csr {
        nrows,
        ncols,
        row_ptr: narrow(0, nrows + 1).collect(),
        col_idx: narrow(1, kept).collect(),
        values: values.collect(),
    })
}
