//! A word by value: 64 columns, bit 0 the lowest.

use crate::answer::{Checked, NO_SUCH_PLACE, answer, count, need, selection, truth};
use calls::Outcome;

/// The columns of a word.
pub const WIDTH: usize = 64;

/// The set bits, ascending.
pub fn offsets(bits: u64) -> impl Iterator<Item = usize> {
    let lowest = bits.trailing_zeros() as usize;
    let past_highest = WIDTH - bits.leading_zeros() as usize;
    (lowest..past_highest).filter(move |&offset| bits >> offset & 1 == 1)
}

/// The first column of a word.
pub fn base_col(word: u32) -> usize {
    word as usize * WIDTH
}

pub fn judge_base_col(word: u32) -> Outcome {
    answer(Ok([base_col(word) as u64]))
}

pub fn judge_popcount(bits: u64) -> Outcome {
    answer(Ok([offsets(bits).count() as u64]))
}

pub fn judge_contains_offset(bits: u64, offset: usize) -> Outcome {
    truth(Ok(offsets(bits).any(|o| o == offset)))
}

pub fn judge_rank(bits: u64, offset: usize) -> Outcome {
    count(rank(bits, offset))
}

fn rank(bits: u64, offset: usize) -> Checked<usize> {
    need(offset <= WIDTH, NO_SUCH_PLACE)?;
    Ok(offsets(bits).filter(|&o| o < offset).count())
}

pub fn judge_select(bits: u64, ordinal: usize) -> Outcome {
    selection(Ok(offsets(bits).nth(ordinal)))
}
