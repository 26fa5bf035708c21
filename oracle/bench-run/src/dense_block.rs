//! Blocks of both widths: the build and the product.

use crate::matrices::{Csr, Random};
use crate::timing::{Table, timed};
use crate::{Both, bits};
use denimrasp::{DenseBlockSize, sys};
use hybit_core::LinearOperator;
use hybit_matrix as rust;
use std::collections::hash_map::DefaultHasher;
use std::fmt::{self, Debug, Write};
use std::hash::Hasher;

/// The lists of blocks, of the length that they fill, and the last build's counts. Named and ordered as hybit's fields, which
/// only its form `{:?}` shows.
#[derive(Debug)]
struct DenseBlockCsrOperator {
    nrows: usize,
    ncols: usize,
    block_size: DenseBlockSize,
    row_ptr: Vec<u32>,
    col_idx: Vec<u32>,
    values: Vec<f64>,
    structural_slots: usize,
    valid_dense_slots: usize,
}

impl DenseBlockCsrOperator {
    fn new(m: &Csr, block_size: DenseBlockSize, blocks: usize) -> Self {
        let w = block_size.width();
        Self {
            nrows: m.nrows,
            ncols: m.ncols,
            block_size,
            row_ptr: vec![0; m.nrows.div_ceil(w) + 1],
            col_idx: vec![0; blocks],
            values: vec![0.0; blocks * w * w],
            structural_slots: 0,
            valid_dense_slots: 0,
        }
    }

    fn six(&self) -> bool {
        self.block_size == DenseBlockSize::B6
    }

    fn build(&mut self, m: &Csr) {
        // SAFETY: every pointer and length is a list's, and `self` is borrowed alone.
        let answer = unsafe {
            sys::denimrasp_dense_block_from_csr32(
                m.nrows,
                m.ncols,
                m.row_ptr.as_ptr(),
                m.row_ptr.len(),
                m.col_idx.as_ptr(),
                m.col_idx.len(),
                m.values.as_ptr(),
                m.values.len(),
                self.six(),
                self.row_ptr.as_mut_ptr(),
                self.row_ptr.len(),
                self.col_idx.as_mut_ptr(),
                self.col_idx.len(),
                self.values.as_mut_ptr(),
                self.values.len(),
            )
        };
        assert_eq!(
            (answer.number, answer.unique_blocks),
            (0, self.col_idx.len())
        );
        self.structural_slots = answer.structural_slots;
        self.valid_dense_slots = answer.valid_dense_slots;
    }

    fn apply(&self, x: &[f64], y: &mut [f64]) {
        // SAFETY: every pointer and length is a list's, and `y` is borrowed alone.
        let answer = unsafe {
            sys::denimrasp_dense_block_apply(
                self.nrows,
                self.ncols,
                self.six(),
                self.row_ptr.as_ptr(),
                self.row_ptr.len(),
                self.col_idx.as_ptr(),
                self.col_idx.len(),
                self.values.as_ptr(),
                self.values.len(),
                x.as_ptr(),
                x.len(),
                y.as_mut_ptr(),
                y.len(),
            )
        };
        assert_eq!(answer.number, 0);
    }
}

/// The hash of a form `{:?}`, which is not kept.
struct Hashed(DefaultHasher);

impl Write for Hashed {
    fn write_str(&mut self, text: &str) -> fmt::Result {
        self.0.write(text.as_bytes());
        Ok(())
    }
}

fn hashed(shown: &impl Debug) -> u64 {
    let mut hashed = Hashed(DefaultHasher::new());
    write!(hashed, "{shown:?}").expect("a form that is written");
    hashed.0.finish()
}

pub fn times(table: &Table, name: &str, m: &Both, random: &mut Random) {
    let sizes = [
        (DenseBlockSize::B3, rust::DenseBlockSize::B3),
        (DenseBlockSize::B6, rust::DenseBlockSize::B6),
    ];
    for (ours, theirs) in sizes {
        let made = rust::DenseBlockCsrOperator::from_csr32(&m.rust, theirs).unwrap();
        let w = ours.width();
        println!(
            "# blocks of {name}, width {w}: {}, {:.2} of their places with an entry",
            made.unique_blocks(),
            made.block_fill()
        );
        builds(table, name, m, (ours, theirs));
        product(table, name, m, (ours, &made), random);
    }
}

fn builds(
    table: &Table,
    name: &str,
    m: &Both,
    (size, theirs): (DenseBlockSize, rust::DenseBlockSize),
) {
    type Ours = denimrasp::DenseBlockCsrOperator;
    type Theirs = rust::DenseBlockCsrOperator;
    let build = || Theirs::from_csr32(&m.rust, theirs).unwrap();
    let made = build();
    let mut lists = DenseBlockCsrOperator::new(&m.csr, size, made.unique_blocks());
    lists.build(&m.csr);
    let shown = hashed(&made);
    assert_eq!(hashed(&lists), shown);
    assert_eq!(hashed(&Ours::from_csr32(&m.owned, size).unwrap()), shown);
    drop(made);
    let call = format!("block{}_build", size.width());
    table.line(
        (&call, name, "-"),
        || timed(|| lists.build(&m.csr)),
        || timed(build),
    );
    drop(lists);
    table.line(
        (&format!("{call}_owned"), name, "-"),
        || timed(|| Ours::from_csr32(&m.owned, size)),
        || timed(build),
    );
}

fn product(
    table: &Table,
    name: &str,
    m: &Both,
    (size, made): (DenseBlockSize, &rust::DenseBlockCsrOperator),
    random: &mut Random,
) {
    let x: Vec<f64> = (0..m.csr.ncols).map(|_| random.value()).collect();
    let (mut y, mut z) = (vec![0.0; m.csr.nrows], vec![1.0; m.csr.nrows]);
    let mut lists = DenseBlockCsrOperator::new(&m.csr, size, made.unique_blocks());
    lists.build(&m.csr);
    lists.apply(&x, &mut y);
    made.apply(&x, &mut z).unwrap();
    assert_eq!(bits(&y), bits(&z));
    table.line(
        (&format!("block{}_apply", size.width()), name, "-"),
        || timed(|| lists.apply(&x, &mut y)),
        || timed(|| made.apply(&x, &mut z)),
    );
}
