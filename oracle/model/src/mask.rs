//! A mask as the set of its members.

use crate::answer::{
    BAD_MASK, Built, Checked, NO_SUCH_PLACE, build, change, count, need, need_length, need_sizes,
    truth, verdict,
};
use crate::words::{WIDTH, offsets};
use calls::{Mask, Outcome};
use std::collections::BTreeSet;

pub type Members = BTreeSet<usize>;

/// Refusal 1: the length alone; how many words there are is 5's matter.
pub fn sizes(mask: &Mask) -> Checked {
    need_sizes(&[mask.len], &[])
}

/// Refusal 5.
pub fn rules(mask: &Mask) -> Checked {
    need(mask.words.len() == word_count(mask.len), BAD_MASK)?;
    let past = mask.len..mask.words.len() * WIDTH;
    need(!past.into_iter().any(|place| bit(mask, place)), BAD_MASK)
}

fn check(mask: &Mask) -> Checked {
    sizes(mask)?;
    rules(mask)
}

fn word_count(len: usize) -> usize {
    len.div_ceil(WIDTH)
}

fn bit(mask: &Mask, place: usize) -> bool {
    mask.words[place / WIDTH] >> (place % WIDTH) & 1 == 1
}

/// Whether index is a member of a valid mask.
pub fn holds(mask: &Mask, index: usize) -> bool {
    index < mask.len && bit(mask, index)
}

pub fn members(mask: &Mask) -> Members {
    (0..mask.len).filter(|&index| bit(mask, index)).collect()
}

/// The words of the mask of that length with these members.
pub fn words_of(len: usize, members: &Members) -> Vec<u64> {
    let mut words = vec![0; word_count(len)];
    for index in members {
        words[index / WIDTH] |= 1 << (index % WIDTH);
    }
    words
}

pub fn judge_check(mask: &Mask) -> Outcome {
    verdict(check(mask))
}

pub fn judge_contains(mask: &Mask, index: usize) -> Outcome {
    truth(check(mask).map(|()| holds(mask, index)))
}

pub fn judge_count_ones(mask: &Mask) -> Outcome {
    count(check(mask).map(|()| members(mask).len()))
}

pub fn judge_is_empty(mask: &Mask) -> Outcome {
    truth(check(mask).map(|()| members(mask).is_empty()))
}

pub fn judge_new(len: usize, room: &[u64]) -> Outcome {
    build(from_indices(len, &[]), [room.len()])
}

pub fn judge_from_indices(len: usize, indices: &[usize], room: &[u64]) -> Outcome {
    build(from_indices(len, indices), [room.len()])
}

fn from_indices(len: usize, indices: &[usize]) -> Checked<Built<0, 1>> {
    need_sizes(&[len], &[])?;
    need(indices.iter().all(|&index| index < len), NO_SUCH_PLACE)?;
    let members = indices.iter().copied().collect();
    Ok(Built {
        result: [],
        used: [words_of(len, &members)],
    })
}

pub fn judge_set(mask: &Mask, index: usize, value: bool) -> Outcome {
    change(set(mask, index, value), mask.words.clone())
}

fn set(mask: &Mask, index: usize, value: bool) -> Checked<Vec<u64>> {
    check(mask)?;
    need(index < mask.len, NO_SUCH_PLACE)?;
    let mut members = members(mask);
    if value {
        members.insert(index);
    } else {
        members.remove(&index);
    }
    Ok(words_of(mask.len, &members))
}

pub fn judge_or_word(mask: &Mask, word: usize, bits: u64) -> Outcome {
    change(or_word(mask, word, bits), mask.words.clone())
}

fn or_word(mask: &Mask, word: usize, bits: u64) -> Checked<Vec<u64>> {
    check(mask)?;
    let mut members = members(mask);
    if word < mask.words.len() {
        let joined = offsets(bits).map(|offset| word * WIDTH + offset);
        members.extend(joined.filter(|&index| index < mask.len));
    }
    Ok(words_of(mask.len, &members))
}

pub fn judge_indices(mask: &Mask, room: &[usize]) -> Outcome {
    build(indices(mask), [room.len()])
}

fn indices(mask: &Mask) -> Checked<Built<1, 1>> {
    check(mask)?;
    let list: Vec<u64> = members(mask).iter().map(|&index| index as u64).collect();
    Ok(Built {
        result: [list.len() as u64],
        used: [list],
    })
}

/// A change of the first mask by an operation on the two sets.
pub fn judge_assign(
    mask: &Mask,
    other: &Mask,
    operation: impl Fn(&Members, &Members) -> Members,
) -> Outcome {
    let after = check_two(mask, other)
        .map(|()| words_of(mask.len, &operation(&members(mask), &members(other))));
    change(after, mask.words.clone())
}

pub fn judge_intersects(mask: &Mask, other: &Mask) -> Outcome {
    truth(check_two(mask, other).map(|()| !members(mask).is_disjoint(&members(other))))
}

fn check_two(mask: &Mask, other: &Mask) -> Checked {
    sizes(mask)?;
    sizes(other)?;
    rules(mask)?;
    rules(other)?;
    need_length(mask.len, other.len)
}
