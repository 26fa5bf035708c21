//! A word by value.

use super::accepted;
use super::faults::{Left, fault, in_order};
use calls::Call::*;

#[test]
fn base_col() {
    accepted(WordBaseCol(0), [0]);
    accepted(WordBaseCol(1), [64]);
    accepted(WordBaseCol(u32::MAX), [274_877_906_880]);
}

#[test]
fn popcount() {
    accepted(WordPopcount(0), [0]);
    accepted(WordPopcount(1 << 63 | 5), [3]);
    accepted(WordPopcount(u64::MAX), [64]);
}

#[test]
fn contains_offset() {
    let bits = 1 << 63 | 5;
    for (offset, is) in [(0, 1), (1, 0), (2, 1), (62, 0), (63, 1)] {
        accepted(WordContainsOffset(bits, offset), [is]);
    }
    for offset in [64, 65, 66, 127, 128, usize::MAX] {
        accepted(WordContainsOffset(u64::MAX, offset), [0]);
    }
}

#[test]
fn rank_runs_to_64() {
    let bits = 1 << 63 | 5;
    for (offset, ones) in [(0, 0), (1, 1), (2, 1), (3, 2), (63, 2), (64, 3)] {
        accepted(WordRank(bits, offset), [ones]);
    }
    accepted(WordRank(u64::MAX, 63), [63]);
    accepted(WordRank(u64::MAX, 64), [64]);
    accepted(WordRank(0, 64), [0]);
    let faults = [
        fault(7, |(_, offset)| *offset = 65),
        fault(7, |(_, offset)| *offset = usize::MAX),
    ];
    let call = |(bits, offset)| WordRank(bits, offset);
    in_order(&(5, 64), &faults, call, Left::Nothing);
}

#[test]
fn select() {
    let bits = 1 << 63 | 5;
    for (ordinal, column) in [(0, 0), (1, 2), (2, 63)] {
        accepted(WordSelect(bits, ordinal), [1, column]);
    }
    accepted(WordSelect(bits, 3), [0, 0]);
    accepted(WordSelect(bits, usize::MAX), [0, 0]);
    accepted(WordSelect(0, 0), [0, 0]);
    accepted(WordSelect(u64::MAX, 63), [1, 63]);
    accepted(WordSelect(u64::MAX, 64), [0, 0]);
}
