//! Words: each row is the set of its present columns.

use crate::answer::{
    BAD_WORDS, Built, Checked, FRAMES_DIFFER, MOST_STORED, NO_SUCH_PLACE, OVER_SIZE, answer, build,
    count, need, need_sizes, number, ratio, selection, truth, verdict,
};
use crate::csr32::{self, entries, part, pointers_hold};
use crate::words::{WIDTH, base_col, offsets};
use calls::{Csr, Outcome, Words, WordsRoom};
use std::collections::{BTreeMap, BTreeSet};
use std::ops::Range;

pub type Columns = BTreeSet<usize>;

/// Refusal 1.
pub fn sizes(words: &Words) -> Checked {
    need_sizes(
        &[words.nrows, words.ncols],
        &[words.word_indices.len(), words.masks.len()],
    )
}

/// Refusal 11.
pub fn rules(words: &Words) -> Checked {
    let listed = words.word_indices.len() == words.masks.len()
        && pointers_hold(&words.row_word_ptr, words.nrows, words.masks.len());
    need(listed, BAD_WORDS)?;
    let good = (0..words.nrows).all(|row| row_holds(words, part(&words.row_word_ptr, row)));
    need(good, BAD_WORDS)?;
    let total: usize = words.masks.iter().map(|m| m.count_ones() as usize).sum();
    need(words.structural_nnz == total, BAD_WORDS)
}

/// The rules of one row's words: the numbers strictly increase, each mask has a bit, and none is at or past the column count.
fn row_holds(words: &Words, mut places: Range<usize>) -> bool {
    let inside = |place: usize| {
        let highest = words.masks[place].checked_ilog2();
        highest
            .is_some_and(|bit| base_col(words.word_indices[place]) + (bit as usize) < words.ncols)
    };
    let numbers = &words.word_indices[places.clone()];
    numbers.is_sorted_by(|a, b| a < b) && places.all(inside)
}

pub fn check(words: &Words) -> Checked {
    sizes(words)?;
    rules(words)
}

/// The check that every question to a row makes.
pub fn check_row(words: &Words, row: usize) -> Checked {
    check(words)?;
    need(row < words.nrows, NO_SUCH_PLACE)
}

/// The present columns of a row.
pub fn columns(words: &Words, row: usize) -> Columns {
    let columns_of = |place: usize| {
        let base = base_col(words.word_indices[place]);
        offsets(words.masks[place]).map(move |offset| base + offset)
    };
    part(&words.row_word_ptr, row)
        .flat_map(columns_of)
        .collect()
}

/// How many words these columns lie in.
pub fn words_touched<'a>(columns: impl Iterator<Item = &'a usize>) -> usize {
    columns
        .map(|col| col / WIDTH)
        .collect::<BTreeSet<_>>()
        .len()
}

/// The lists of words in the making, row by row.
pub struct Made {
    row_word_ptr: Vec<u64>,
    word_indices: Vec<u64>,
    masks: Vec<u64>,
    ones: u64,
}

impl Made {
    pub fn new() -> Made {
        Made {
            row_word_ptr: vec![0],
            word_indices: Vec::new(),
            masks: Vec::new(),
            ones: 0,
        }
    }

    /// Adds a row with these columns.
    pub fn push_row<'a>(&mut self, columns: impl Iterator<Item = &'a usize>) {
        let mut row: BTreeMap<usize, u64> = BTreeMap::new();
        for col in columns {
            *row.entry(col / WIDTH).or_default() |= 1 << (col % WIDTH);
            self.ones += 1;
        }
        self.word_indices
            .extend(row.keys().map(|&word| word as u64));
        self.masks.extend(row.values());
        self.row_word_ptr.push(self.masks.len() as u64);
    }

    /// The answer of a build, words and ones, and the used parts of the three lists.
    pub fn finish(self) -> Built<2, 3> {
        Built {
            result: [self.masks.len() as u64, self.ones],
            used: [self.row_word_ptr, self.word_indices, self.masks],
        }
    }
}

/// The lengths of the lent lists.
pub fn room_lengths(room: &WordsRoom) -> [usize; 3] {
    [
        room.row_word_ptr.len(),
        room.word_indices.len(),
        room.masks.len(),
    ]
}

pub fn judge_check(words: &Words) -> Outcome {
    verdict(check(words))
}

pub fn judge_from_csr32(csr: &Csr, room: &WordsRoom) -> Outcome {
    build(from_csr32(csr), room_lengths(room))
}

fn from_csr32(csr: &Csr) -> Checked<Built<2, 3>> {
    csr32::check(csr)?;
    let mut made = Made::new();
    for row in 0..csr.nrows {
        let columns: Columns = entries(csr, row).map(|(col, _)| col).collect();
        made.push_row(columns.iter());
    }
    Ok(made.finish())
}

pub fn judge_row_words(words: &Words, row: usize) -> Outcome {
    answer(check_row(words, row).map(|()| {
        let places = part(&words.row_word_ptr, row);
        [places.start as u64, places.end as u64]
    }))
}

pub fn judge_row_nonempty_words(words: &Words, row: usize) -> Outcome {
    count(check_row(words, row).map(|()| words_touched(columns(words, row).iter())))
}

pub fn judge_row_popcount(words: &Words, row: usize) -> Outcome {
    count(check_row(words, row).map(|()| columns(words, row).len()))
}

pub fn judge_row_contains(words: &Words, row: usize, col: usize) -> Outcome {
    truth(check_row(words, row).map(|()| columns(words, row).contains(&col)))
}

pub fn judge_row_rank(words: &Words, row: usize, col: usize) -> Outcome {
    count(row_rank(words, row, col))
}

fn row_rank(words: &Words, row: usize, col: usize) -> Checked<usize> {
    check_row(words, row)?;
    need(col <= words.ncols, NO_SUCH_PLACE)?;
    Ok(columns(words, row).range(..col).count())
}

pub fn judge_row_select(words: &Words, row: usize, ordinal: usize) -> Outcome {
    selection(check_row(words, row).map(|()| columns(words, row).into_iter().nth(ordinal)))
}

/// The bytes of the pointers, four each, and of the words, four for the number and eight for the mask.
pub fn metadata_bytes(words: &Words) -> usize {
    4 * (words.nrows + 1) + 12 * words.masks.len()
}

pub fn judge_stats(words: &Words) -> Outcome {
    answer(check(words).map(|()| stats(words).map(|n| n as u64)))
}

fn stats(words: &Words) -> [usize; 5] {
    [
        words.nrows,
        words.ncols,
        words.structural_nnz,
        words.masks.len(),
        metadata_bytes(words),
    ]
}

#[derive(Clone, Copy)]
pub enum Operation {
    Union,
    Intersection,
    AndNot,
    Xor,
}

fn apply(operation: Operation, a: &Columns, b: &Columns) -> Columns {
    match operation {
        Operation::Union => a | b,
        Operation::Intersection => a & b,
        Operation::AndNot => a - b,
        Operation::Xor => a ^ b,
    }
}

pub fn judge_combine(operation: Operation, a: &Words, b: &Words, room: &WordsRoom) -> Outcome {
    build(combine(operation, a, b), room_lengths(room))
}

fn combine(operation: Operation, a: &Words, b: &Words) -> Checked<Built<2, 3>> {
    sizes(a)?;
    sizes(b)?;
    rules(a)?;
    rules(b)?;
    need((a.nrows, a.ncols) == (b.nrows, b.ncols), FRAMES_DIFFER)?;
    let mut made = Made::new();
    for row in 0..a.nrows {
        made.push_row(apply(operation, &columns(a, row), &columns(b, row)).iter());
    }
    need(made.masks.len() <= MOST_STORED, OVER_SIZE)?;
    Ok(made.finish())
}

pub fn judge_average_word_nnz(ones: usize, words: usize) -> Outcome {
    number(ratio(ones, words))
}

/// The average for each of a word's columns; a division by 64 is exact here.
pub fn judge_word_fill_ratio(ones: usize, words: usize) -> Outcome {
    number(ratio(ones, words) / WIDTH as f64)
}

pub fn judge_metadata_bytes_per_nnz(bytes: usize, ones: usize) -> Outcome {
    number(ratio(bytes, ones))
}
