//! Faults that a port of blocks could have, each in the outcomes of one call.

use super::Named;
use super::named::changed;
use crate::blocks::width;
use calls::{Blocks, Call, Outcome, bits};

pub const ALL: [Named; 12] = [
    ("terms_one_by_one", "dense_block_apply", terms_one_by_one),
    ("tail_on_its_own", "dense_block_apply", tail_on_its_own),
    (
        "partial_row_by_terms",
        "dense_block_apply",
        partial_row_by_terms,
    ),
    ("zeros_skipped", "dense_block_apply", zeros_skipped),
    ("refused_product", "dense_block_apply", refused_product),
    (
        "copies_as_places",
        "dense_block_from_csr32",
        copies_as_places,
    ),
    ("places_outside", "dense_block_from_csr32", places_outside),
    (
        "zeros_without_a_place",
        "dense_block_from_csr32",
        zeros_without_a_place,
    ),
    ("copies_reversed", "dense_block_from_csr32", copies_reversed),
    (
        "partial_rows_as_fast",
        "dense_block_fast_block_fraction",
        partial_rows_as_fast,
    ),
    (
        "equal_block_columns",
        "dense_block_check",
        equal_block_columns,
    ),
    ("column_past_frame", "dense_block_check", column_past_frame),
];

/// One block's part of a row: whether its block row is full, whether its block column is, its values and those of x.
struct Part<'a> {
    full_row: bool,
    full_column: bool,
    values: &'a [f64],
    x: &'a [f64],
}

impl Part<'_> {
    fn terms(&self) -> impl Iterator<Item = f64> {
        self.values.iter().zip(self.x).map(|(value, x)| value * x)
    }

    fn each(&self, sum: f64) -> f64 {
        self.terms().fold(sum, |sum, term| sum + term)
    }

    /// As document 01 has it.
    fn good(&self, sum: f64) -> f64 {
        if self.full_row && !self.full_column {
            self.each(sum)
        } else {
            sum + self.each(0.0)
        }
    }
}

/// The products with another way to add a block's part to the row.
fn products(call: &Call, outcome: &mut Outcome, add: fn(&Part<'_>, f64) -> f64) {
    if let (Call::DenseBlockApply(b, x, _), 0) = (call, outcome.number) {
        let rows = (0..b.nrows).map(|row| bits(row_sum(b, row, x, add)));
        outcome.lists[0] = rows.collect();
    }
}

fn row_sum(b: &Blocks, row: usize, x: &[f64], add: fn(&Part<'_>, f64) -> f64) -> f64 {
    let w = width(b.six);
    let places = b.row_ptr[row / w] as usize..b.row_ptr[row / w + 1] as usize;
    places.fold(0.0, |sum, place| {
        let first = b.col_idx[place] as usize * w;
        let end = b.ncols.min(first + w);
        let part = Part {
            full_row: (row / w + 1) * w <= b.nrows,
            full_column: end - first == w,
            values: &b.values[(place * w + row % w) * w..],
            x: &x[first..end],
        };
        add(&part, sum)
    })
}

/// A full block adds term by term.
fn terms_one_by_one(call: &Call, outcome: &mut Outcome) {
    products(call, outcome, |part, sum| {
        if part.full_row {
            part.each(sum)
        } else {
            part.good(sum)
        }
    });
}

/// A column tail adds its sum.
fn tail_on_its_own(call: &Call, outcome: &mut Outcome) {
    products(call, outcome, |part, sum| sum + part.each(0.0));
}

/// A block of a partial last row adds term by term.
fn partial_row_by_terms(call: &Call, outcome: &mut Outcome) {
    products(call, outcome, |part, sum| {
        if part.full_row {
            part.good(sum)
        } else {
            part.each(sum)
        }
    });
}

/// Places that are 0.0 aren't multiplied.
fn zeros_skipped(call: &Call, outcome: &mut Outcome) {
    products(call, outcome, |part, sum| {
        let zero = part
            .values
            .iter()
            .zip(part.x)
            .any(|(v, x)| *v == 0.0 && !x.is_finite());
        if zero { sum } else { part.good(sum) }
    });
}

/// A refused product clears its target.
fn refused_product(call: &Call, outcome: &mut Outcome) {
    if let Call::DenseBlockApply(..) = call
        && outcome.number != 0
    {
        outcome.lists[0].fill(0);
    }
}

/// Every copy counts as a place with an entry.
fn copies_as_places(call: &Call, outcome: &mut Outcome) {
    if let (Call::DenseBlockFromCsr32(c, ..), 0) = (call, outcome.number) {
        outcome.result[5] = c.col_idx.len() as u64;
    }
}

/// Places outside the frame count as valid.
fn places_outside(call: &Call, outcome: &mut Outcome) {
    if let (Call::DenseBlockFromCsr32(..), 0) = (call, outcome.number) {
        outcome.result[6] = outcome.result[4];
    }
}

/// The outcome of building another plot list.
fn building(call: &Call, outcome: &mut Outcome, change: impl Fn(&mut Vec<(u32, f64)>)) {
    if let (Call::DenseBlockFromCsr32(c, six, room), 0) = (call, outcome.number) {
        let other = Call::DenseBlockFromCsr32(changed(c, change), *six, room.clone());
        *outcome = model::judge(&other);
    }
}

/// Entries that are zero have no place.
fn zeros_without_a_place(call: &Call, outcome: &mut Outcome) {
    building(call, outcome, |row| row.retain(|entry| entry.1 != 0.0));
}

/// Copies are merged from the last on.
fn copies_reversed(call: &Call, outcome: &mut Outcome) {
    building(call, outcome, |row| row.reverse());
}

/// Blocks of a partial last row count as wholly inside where their columns are.
fn partial_rows_as_fast(call: &Call, outcome: &mut Outcome) {
    if let (Call::DenseBlockFastBlockFraction(b), 0) = (call, outcome.number) {
        let full = Blocks {
            nrows: b.nrows.div_ceil(width(b.six)) * width(b.six),
            ..b.clone()
        };
        *outcome = model::judge(&Call::DenseBlockFastBlockFraction(full));
    }
}

/// The check of other blocks that are as bad but for one rule.
fn accepting(call: &Call, outcome: &mut Outcome, better: impl Fn(&mut Blocks)) {
    if let (Call::DenseBlockCheck(b), 12) = (call, outcome.number) {
        let mut other = b.clone();
        better(&mut other);
        *outcome = model::judge(&Call::DenseBlockCheck(other));
    }
}

/// A block column twice in a row is accepted.
fn equal_block_columns(call: &Call, outcome: &mut Outcome) {
    accepting(call, outcome, |b| {
        let pair = b.col_idx.windows(2).position(|two| two[0] == two[1]);
        if let Some(place) = pair {
            let slots = width(b.six) * width(b.six);
            b.col_idx.remove(place);
            b.values.drain(..slots.min(b.values.len()));
            let after = b.row_ptr.iter_mut().filter(|p| **p as usize > place);
            after.for_each(|p| *p -= 1);
        }
    });
}

/// A block column just past the frame is accepted.
fn column_past_frame(call: &Call, outcome: &mut Outcome) {
    accepting(call, outcome, |b| b.ncols += 1);
}
