//! The library's side: its C calls, with output lists that are allocated before.

use crate::matrices::Csr;
use denimrasp::sys;

/// The lists that builds fill, and how much of them the last build used.
pub struct Lists {
    pub row_word_ptr: Vec<u32>,
    pub word_indices: Vec<u32>,
    pub masks: Vec<u64>,
    pub row_value_ptr: Vec<u32>,
    pub packed: Vec<f64>,
    pub words: usize,
    pub structural_nnz: usize,
}

impl Lists {
    pub fn new(nrows: usize, words: usize, values: usize) -> Self {
        Self {
            row_word_ptr: vec![0; nrows + 1],
            word_indices: vec![0; words],
            masks: vec![0; words],
            row_value_ptr: vec![0; nrows + 1],
            packed: vec![0.0; values],
            words: 0,
            structural_nnz: 0,
        }
    }

    fn note(&mut self, answer: sys::Topology) {
        assert_eq!(answer.number, 0);
        self.words = answer.words;
        self.structural_nnz = answer.structural_nnz;
    }
}

pub fn apply(m: &Csr, x: &[f64], y: &mut [f64]) {
    // SAFETY: every pointer and length is a list's, and `y` is borrowed alone.
    let answer = unsafe {
        sys::denimrasp_csr32_apply(
            m.nrows,
            m.ncols,
            m.row_ptr.as_ptr(),
            m.row_ptr.len(),
            m.col_idx.as_ptr(),
            m.col_idx.len(),
            m.values.as_ptr(),
            m.values.len(),
            x.as_ptr(),
            x.len(),
            y.as_mut_ptr(),
            y.len(),
        )
    };
    assert_eq!(answer.number, 0);
}

pub fn check(m: &Csr) -> u32 {
    // SAFETY: every pointer and length is a list's.
    let answer = unsafe {
        sys::denimrasp_csr32_check(
            m.nrows,
            m.ncols,
            m.row_ptr.as_ptr(),
            m.row_ptr.len(),
            m.col_idx.as_ptr(),
            m.col_idx.len(),
            m.values.as_ptr(),
            m.values.len(),
        )
    };
    answer.number
}

pub fn topology(m: &Csr, out: &mut Lists) {
    // SAFETY: every pointer and length is a list's, and `out` is borrowed alone.
    let answer = unsafe {
        sys::denimrasp_topology_from_csr32(
            m.nrows,
            m.ncols,
            m.row_ptr.as_ptr(),
            m.row_ptr.len(),
            m.col_idx.as_ptr(),
            m.col_idx.len(),
            m.values.as_ptr(),
            m.values.len(),
            out.row_word_ptr.as_mut_ptr(),
            out.row_word_ptr.len(),
            out.word_indices.as_mut_ptr(),
            out.word_indices.len(),
            out.masks.as_mut_ptr(),
            out.masks.len(),
        )
    };
    out.note(answer);
}

pub fn packing(m: &Csr, out: &mut Lists) {
    // SAFETY: every pointer and length is a list's, and `out` is borrowed alone.
    let answer = unsafe {
        sys::denimrasp_metadata_first_from_csr32(
            m.nrows,
            m.ncols,
            m.row_ptr.as_ptr(),
            m.row_ptr.len(),
            m.col_idx.as_ptr(),
            m.col_idx.len(),
            m.values.as_ptr(),
            m.values.len(),
            out.row_word_ptr.as_mut_ptr(),
            out.row_word_ptr.len(),
            out.word_indices.as_mut_ptr(),
            out.word_indices.len(),
            out.masks.as_mut_ptr(),
            out.masks.len(),
            out.row_value_ptr.as_mut_ptr(),
            out.row_value_ptr.len(),
            out.packed.as_mut_ptr(),
            out.packed.len(),
        )
    };
    out.note(answer);
}

pub fn check_words(ncols: usize, w: &Lists) -> u32 {
    // SAFETY: every pointer and length is a list's.
    let answer = unsafe {
        sys::denimrasp_topology_check(
            w.row_word_ptr.len() - 1,
            ncols,
            w.row_word_ptr.as_ptr(),
            w.row_word_ptr.len(),
            w.word_indices.as_ptr(),
            w.words,
            w.masks.as_ptr(),
            w.words,
            w.structural_nnz,
        )
    };
    answer.number
}

pub fn check_store(ncols: usize, s: &Lists) -> u32 {
    // SAFETY: every pointer and length is a list's.
    let answer = unsafe {
        sys::denimrasp_metadata_first_check(
            s.row_word_ptr.len() - 1,
            ncols,
            s.row_word_ptr.as_ptr(),
            s.row_word_ptr.len(),
            s.word_indices.as_ptr(),
            s.words,
            s.masks.as_ptr(),
            s.words,
            s.structural_nnz,
            s.row_value_ptr.as_ptr(),
            s.row_value_ptr.len(),
            s.packed.as_ptr(),
            s.structural_nnz,
        )
    };
    answer.number
}

#[derive(Clone, Copy, Debug)]
pub enum Operation {
    Union,
    Intersection,
    AndNot,
    Xor,
}

pub fn combine(operation: Operation, ncols: usize, a: &Lists, b: &Lists, out: &mut Lists) {
    let call = match operation {
        Operation::Union => sys::denimrasp_topology_union,
        Operation::Intersection => sys::denimrasp_topology_intersection,
        Operation::AndNot => sys::denimrasp_topology_and_not,
        Operation::Xor => sys::denimrasp_topology_xor,
    };
    // SAFETY: every pointer and length is a list's, and `out` is borrowed alone.
    let answer = unsafe {
        call(
            a.row_word_ptr.len() - 1,
            ncols,
            a.row_word_ptr.as_ptr(),
            a.row_word_ptr.len(),
            a.word_indices.as_ptr(),
            a.words,
            a.masks.as_ptr(),
            a.words,
            a.structural_nnz,
            b.row_word_ptr.len() - 1,
            ncols,
            b.row_word_ptr.as_ptr(),
            b.row_word_ptr.len(),
            b.word_indices.as_ptr(),
            b.words,
            b.masks.as_ptr(),
            b.words,
            b.structural_nnz,
            out.row_word_ptr.as_mut_ptr(),
            out.row_word_ptr.len(),
            out.word_indices.as_mut_ptr(),
            out.word_indices.len(),
            out.masks.as_mut_ptr(),
            out.masks.len(),
        )
    };
    out.note(answer);
}

pub fn dots(
    ncols: usize,
    s: &Lists,
    active: &[u64],
    x: &[f64],
    sums: &mut [f64],
    executed: &mut [u32],
) {
    // SAFETY: every pointer and length is a list's, and `sums` and `executed` are borrowed alone.
    let answer = unsafe {
        sys::denimrasp_metadata_first_sparse_dot_rows(
            s.row_word_ptr.len() - 1,
            ncols,
            s.row_word_ptr.as_ptr(),
            s.row_word_ptr.len(),
            s.word_indices.as_ptr(),
            s.words,
            s.masks.as_ptr(),
            s.words,
            s.structural_nnz,
            s.row_value_ptr.as_ptr(),
            s.row_value_ptr.len(),
            s.packed.as_ptr(),
            s.structural_nnz,
            ncols,
            active.as_ptr(),
            active.len(),
            x.as_ptr(),
            x.len(),
            sums.as_mut_ptr(),
            sums.len(),
            executed.as_mut_ptr(),
            executed.len(),
        )
    };
    assert_eq!(answer.number, 0);
}
