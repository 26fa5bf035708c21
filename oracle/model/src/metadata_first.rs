//! The packed store: each row is a map from its present columns to their merged values.

use crate::answer::{
    BAD_STORE, Built, Checked, NO_SUCH_PLACE, NOT_FINITE, OVER_SIZE, answer, build, count,
    list_bits, need, need_length, need_sizes, number, ratio, verdict,
};
use crate::csr32::{self, entries, part, pointers_hold, product};
use crate::mask;
use crate::topology::{self, Made, columns, words_touched};
use calls::{Counts, Csr, Mask, Outcome, Store, StoreRoom, bits};
use std::collections::BTreeMap;

type Packed = BTreeMap<usize, f64>;

/// Refusal 1.
fn sizes(store: &Store) -> Checked {
    topology::sizes(&store.words)?;
    need_sizes(&[], &[store.values.len()])
}

/// Refusals 11 and 12.
fn rules(store: &Store) -> Checked {
    topology::rules(&store.words)?;
    let nrows = store.words.nrows;
    let pointers = pointers_hold(&store.row_value_ptr, nrows, store.values.len());
    need(pointers, BAD_STORE)?;
    let counts = (0..nrows)
        .all(|row| part(&store.row_value_ptr, row).len() == columns(&store.words, row).len());
    need(counts, BAD_STORE)?;
    need(store.values.iter().all(|v| v.is_finite()), BAD_STORE)
}

pub fn check(store: &Store) -> Checked {
    sizes(store)?;
    rules(store)
}

/// The row of a good store: the values stand in the order of their columns.
fn packed(store: &Store, row: usize) -> Packed {
    let values = &store.values[part(&store.row_value_ptr, row)];
    columns(&store.words, row)
        .into_iter()
        .zip(values.iter().copied())
        .collect()
}

/// The row of a plot list with the copies of a column added up from 0.0 in stored order.
fn merged(csr: &Csr, row: usize) -> Packed {
    let mut packed = Packed::new();
    for (col, value) in entries(csr, row) {
        *packed.entry(col).or_insert(0.0) += value;
    }
    packed
}

pub fn judge_check(store: &Store) -> Outcome {
    verdict(check(store))
}

/// The merged rows, or 4 where one of their values is infinite.
fn merged_rows(csr: &Csr) -> Checked<Vec<Packed>> {
    csr32::check(csr)?;
    let rows: Vec<Packed> = (0..csr.nrows).map(|row| merged(csr, row)).collect();
    let finite = rows.iter().all(|row| row.values().all(|v| v.is_finite()));
    need(finite, NOT_FINITE).map(|()| rows)
}

pub fn judge_check_merge(csr: &Csr) -> Outcome {
    verdict(merged_rows(csr).map(|_| ()))
}

pub fn judge_from_csr32(csr: &Csr, room: &StoreRoom) -> Outcome {
    let [pointers, numbers, masks] = topology::room_lengths(&room.words);
    let (value_pointers, values) = (room.row_value_ptr.len(), room.values.len());
    build(
        merged_rows(csr).map(|rows| pack(&rows)),
        [pointers, numbers, masks, value_pointers, values],
    )
}

fn pack(rows: &[Packed]) -> Built<2, 5> {
    let mut made = Made::new();
    let mut row_value_ptr = vec![0];
    let mut values = Vec::new();
    for row in rows {
        made.push_row(row.keys());
        values.extend(row.values().map(|&v| bits(v)));
        row_value_ptr.push(values.len() as u64);
    }
    let Built { result, used } = made.finish();
    let [row_word_ptr, word_indices, masks] = used;
    Built {
        result,
        used: [row_word_ptr, word_indices, masks, row_value_ptr, values],
    }
}

pub fn judge_row_values(store: &Store, row: usize) -> Outcome {
    answer(row_values(store, row))
}

fn row_values(store: &Store, row: usize) -> Checked<[u64; 2]> {
    check(store)?;
    need(row < store.words.nrows, NO_SUCH_PLACE)?;
    let places = part(&store.row_value_ptr, row);
    Ok([places.start as u64, places.end as u64])
}

pub fn judge_stats(store: &Store) -> Outcome {
    answer(check(store).map(|()| stats(store).map(|n| n as u64)))
}

fn stats(store: &Store) -> [usize; 6] {
    let words = &store.words;
    [
        words.nrows,
        words.ncols,
        words.structural_nnz,
        topology::metadata_bytes(words),
        4 * (words.nrows + 1),
        8 * store.values.len(),
    ]
}

/// The checks of a dot, the row's apart.
fn check_dot(store: &Store, mask: &Mask, x: &[f64]) -> Checked {
    sizes(store)?;
    mask::sizes(mask)?;
    rules(store)?;
    mask::rules(mask)?;
    need_length(store.words.ncols, mask.len)?;
    need_length(store.words.ncols, x.len())
}

/// The answer of a row dot.
struct Report {
    sum: f64,
    counts: Counts,
}

fn dot(store: &Store, row: usize, mask: &Mask, x: &[f64]) -> Report {
    let (active, inactive): (Packed, Packed) = packed(store, row)
        .into_iter()
        .partition(|&(col, _)| mask::holds(mask, col));
    let present = active.keys().chain(inactive.keys());
    let words = words_touched(present.clone());
    let active_words = words_touched(active.keys());
    let (executed, skipped) = (active.len(), inactive.len());
    Report {
        sum: product(active.into_iter(), x),
        counts: [executed + skipped, executed, skipped, words, active_words],
    }
}

pub fn judge_sparse_dot_row(store: &Store, row: usize, mask: &Mask, x: &[f64]) -> Outcome {
    answer(sparse_dot_row(store, row, mask, x))
}

fn sparse_dot_row(store: &Store, row: usize, mask: &Mask, x: &[f64]) -> Checked<[u64; 6]> {
    check_dot(store, mask, x)?;
    need(row < store.words.nrows, NO_SUCH_PLACE)?;
    let Report { sum, counts } = dot(store, row, mask, x);
    let [candidate, executed, skipped, words, active_words] = counts.map(|n| n as u64);
    Ok([bits(sum), candidate, executed, skipped, words, active_words])
}

pub fn judge_sparse_dot_rows(
    store: &Store,
    mask: &Mask,
    x: &[f64],
    sums: &[f64],
    executed: &[u32],
) -> Outcome {
    build(
        sparse_dot_rows(store, mask, x),
        [sums.len(), executed.len()],
    )
}

fn sparse_dot_rows(store: &Store, mask: &Mask, x: &[f64]) -> Checked<Built<0, 2>> {
    check_dot(store, mask, x)?;
    let reports: Vec<Report> = (0..store.words.nrows)
        .map(|row| dot(store, row, mask, x))
        .collect();
    let sums: Vec<f64> = reports.iter().map(|report| report.sum).collect();
    let executed = reports.iter().map(|report| report.counts[1] as u64);
    Ok(Built {
        result: [],
        used: [list_bits(&sums), executed.collect()],
    })
}

pub fn judge_pruning_ratio(skipped: usize, candidates: usize) -> Outcome {
    number(ratio(skipped, candidates))
}

/// Where more words are active than there are, none is empty.
pub fn judge_empty_word_ratio(words: usize, active: usize) -> Outcome {
    number(ratio(words.saturating_sub(active), words))
}

/// The sum of the three, at most the largest usize.
pub fn judge_total_estimated_bytes(words: usize, pointers: usize, values: usize) -> Outcome {
    count(Ok(words.saturating_add(pointers).saturating_add(values)))
}

pub fn judge_accumulate(a: &Counts, b: &Counts) -> Outcome {
    answer(accumulate(a, b))
}

fn accumulate(a: &Counts, b: &Counts) -> Checked<[u64; 5]> {
    let mut totals = [0; 5];
    for (place, total) in totals.iter_mut().enumerate() {
        let sum = a[place].checked_add(b[place]).ok_or(OVER_SIZE)?;
        *total = sum as u64;
    }
    Ok(totals)
}
