//! Words: the check, the build, the questions to a row, the figures.

use super::faults::{Fault, Left, csr_faults, fault, in_order, within, words_faults};
use super::{accepted, accepted_with, csr, good_csr, good_words, words, words_room};
use calls::Call::{self, *};
use calls::{Csr, Words, WordsRoom};

#[test]
fn check() {
    in_order(&good_words(), &words_faults(), TopologyCheck, Left::Nothing);
    accepted(TopologyCheck(words((0, 0), &[0], &[])), []);
    accepted(TopologyCheck(words((0, 70), &[0], &[])), []);
    accepted(TopologyCheck(words((2, 0), &[0, 0, 0], &[])), []);
    for (ncols, number, bit) in [(63, 0, 62), (64, 0, 63), (65, 1, 0)] {
        let last = words((1, ncols), &[0, 1], &[(number, 1 << bit)]);
        accepted(TopologyCheck(last.clone()), []);
        let past = [fault(11, |t: &mut Words| t.ncols -= 1)];
        in_order(&last, &past, TopologyCheck, Left::Nothing);
    }
}

#[test]
fn words_rise_within_a_row_only() {
    let falling = words((3, 200), &[0, 1, 1, 3], &[(2, 1), (0, 1), (2, 1)]);
    accepted(TopologyCheck(falling), []);
}

#[test]
fn a_total_is_of_all_rows() {
    let two = words((2, 64), &[0, 1, 2], &[(0, u64::MAX), (0, u64::MAX)]);
    let faults = [
        fault(11, |t: &mut Words| t.structural_nnz = 64),
        fault(11, |t: &mut Words| t.structural_nnz = 127),
        fault(11, |t: &mut Words| t.structural_nnz = 0),
    ];
    in_order(&two, &faults, TopologyCheck, Left::Nothing);
}

#[test]
fn from_csr32() {
    let exact = TopologyFromCsr32(good_csr(), words_room(3, 3, 3));
    accepted_with(exact, [3, 4], [&[0, 2, 3], &[0, 1, 0], &[8, 3, 1]]);
    let more = TopologyFromCsr32(good_csr(), words_room(5, 4, 6));
    let lists: [&[u64]; 3] = [&[0, 2, 3, 0, 0], &[0, 1, 0, 0], &[8, 3, 1, 0, 0, 0]];
    accepted_with(more, [3, 4], lists);
}

#[test]
fn zeros_and_cancelled_columns_are_present() {
    let entries = [(5, 1.0), (64, 0.0), (5, -1.0), (63, -0.0)];
    let list = csr((3, 65), &[0, 0, 4, 4], &entries);
    let call = TopologyFromCsr32(list, words_room(4, 2, 2));
    let lists: [&[u64]; 3] = [&[0, 0, 2, 2], &[0, 1], &[1 << 63 | 1 << 5, 1]];
    accepted_with(call, [2, 3], lists);
}

#[test]
fn words_of_empty_shapes() {
    let none = TopologyFromCsr32(csr((0, 0), &[0], &[]), words_room(1, 0, 0));
    accepted_with(none, [0, 0], [&[0], &[], &[]]);
    let no_columns = TopologyFromCsr32(csr((2, 0), &[0; 3], &[]), words_room(4, 1, 2));
    accepted_with(no_columns, [0, 0], [&[0; 4], &[0], &[0; 2]]);
}

#[test]
fn a_row_unsorted_over_many_words() {
    let entries: Vec<(u32, f64)> = (0..200).rev().step_by(66).map(|c| (c, 1.0)).collect();
    let list = csr((1, 200), &[0, 4], &entries);
    let call = TopologyFromCsr32(list, words_room(2, 4, 4));
    let masks = [1 << 1, 1 << 3, 1 << 5, 1 << 7];
    accepted_with(call, [4, 4], [&[0, 4], &[0, 1, 2, 3], &masks]);
}

#[test]
fn refusals_of_from_csr32() {
    type Input = (Csr, WordsRoom);
    let mut faults = within(csr_faults(), |(c, _): &mut Input| c);
    faults.extend([
        fault(13, |(_, room): &mut Input| *room = words_room(2, 3, 3)),
        fault(13, |(_, room): &mut Input| *room = words_room(3, 2, 3)),
        fault(13, |(_, room): &mut Input| *room = words_room(3, 3, 2)),
        fault(13, |(_, room): &mut Input| *room = words_room(0, 0, 0)),
        fault(13, |(_, room): &mut Input| *room = words_room(9, 9, 0)),
    ]);
    let left = Left::Zeros(|(_, room): &Input| room_lengths(room));
    let good = (good_csr(), words_room(3, 3, 3));
    in_order(&good, &faults, |(c, room)| TopologyFromCsr32(c, room), left);
}

pub fn room_lengths(room: &WordsRoom) -> Vec<usize> {
    vec![
        room.row_word_ptr.len(),
        room.word_indices.len(),
        room.masks.len(),
    ]
}

type Asked = (Words, usize, usize);

/// The refusals of a question to a row.
fn row_faults() -> Vec<Fault<Asked>> {
    let mut faults = within(words_faults(), |(t, ..): &mut Asked| t);
    faults.push(fault(7, |(_, row, _)| *row = 2));
    faults.push(fault(7, |(_, row, _)| *row = usize::MAX));
    faults
}

#[test]
fn refusals_of_questions_to_a_row() {
    let calls: [fn(Asked) -> Call; 6] = [
        |(t, row, _)| TopologyRowWords(t, row),
        |(t, row, _)| TopologyRowNonemptyWords(t, row),
        |(t, row, _)| TopologyRowPopcount(t, row),
        |(t, row, col)| TopologyRowContains(t, row, col),
        |(t, row, ordinal)| TopologyRowSelect(t, row, ordinal),
        |(t, row, col)| TopologyRowRank(t, row, col),
    ];
    for call in calls {
        in_order(&(good_words(), 1, 0), &row_faults(), call, Left::Nothing);
    }
}

#[test]
fn a_matrix_without_rows_has_no_row() {
    let faults = [fault(7, |(t, row): &mut (Words, usize)| {
        (*t, *row) = (words((0, 5), &[0], &[]), 0)
    })];
    let good = (words((1, 5), &[0, 0], &[]), 0);
    in_order(
        &good,
        &faults,
        |(t, row)| TopologyRowPopcount(t, row),
        Left::Nothing,
    );
    in_order(
        &good,
        &faults,
        |(t, row)| TopologyRowWords(t, row),
        Left::Nothing,
    );
}

#[test]
fn row_parts_and_counts() {
    for (row, part, nonempty, ones) in [(0, [0, 2], 2, 3), (1, [2, 3], 1, 1)] {
        accepted(TopologyRowWords(good_words(), row), part);
        accepted(TopologyRowNonemptyWords(good_words(), row), [nonempty]);
        accepted(TopologyRowPopcount(good_words(), row), [ones]);
    }
    let empty_row = words((3, 70), &[0, 1, 1, 2], &[(0, 1), (1, 32)]);
    accepted(TopologyRowWords(empty_row.clone(), 1), [1, 1]);
    accepted(TopologyRowNonemptyWords(empty_row.clone(), 1), [0]);
    accepted(TopologyRowPopcount(empty_row, 1), [0]);
}

#[test]
fn row_contains_is_false_from_the_column_count_on() {
    for (col, is) in [(2, 0), (3, 1), (63, 0), (64, 1), (65, 1), (66, 0), (69, 0)] {
        accepted(TopologyRowContains(good_words(), 0, col), [is]);
    }
    for col in [70, 71, 128, 131, usize::MAX] {
        accepted(TopologyRowContains(good_words(), 0, col), [0]);
    }
    accepted(TopologyRowContains(good_words(), 1, 3), [0]);
}

#[test]
fn row_rank_at_the_edges_of_words() {
    let full = words((1, 130), &[0, 3], &[(0, u64::MAX), (1, 1 << 63), (2, 3)]);
    let ranks = [
        (0, 0),
        (1, 1),
        (63, 63),
        (64, 64),
        (65, 64),
        (127, 64),
        (128, 65),
        (129, 66),
    ];
    for (col, rank) in ranks {
        accepted(TopologyRowRank(full.clone(), 0, col), [rank]);
    }
    accepted(TopologyRowRank(full, 0, 130), [67]);
    accepted(TopologyRowRank(words((1, 0), &[0, 0], &[]), 0, 0), [0]);
}

#[test]
fn refusals_of_rank() {
    let mut faults = row_faults();
    faults.push(fault(7, |(_, _, col)| *col = 71));
    faults.push(fault(7, |(_, _, col)| *col = usize::MAX));
    let call = |(t, row, col)| TopologyRowRank(t, row, col);
    in_order(&(good_words(), 0, 70), &faults, call, Left::Nothing);
}

#[test]
fn row_select() {
    let full = words((2, 130), &[0, 2, 3], &[(0, u64::MAX), (2, 3), (1, 1 << 63)]);
    for (ordinal, col) in [(0, 0), (63, 63), (64, 128), (65, 129)] {
        accepted(TopologyRowSelect(full.clone(), 0, ordinal), [1, col]);
    }
    accepted(TopologyRowSelect(full.clone(), 0, 66), [0, 0]);
    accepted(TopologyRowSelect(full.clone(), 0, usize::MAX), [0, 0]);
    accepted(TopologyRowSelect(full.clone(), 1, 0), [1, 127]);
    accepted(TopologyRowSelect(full, 1, 1), [0, 0]);
}

#[test]
fn stats() {
    accepted(TopologyStats(good_words()), [2, 70, 4, 3, 4 * 3 + 12 * 3]);
    accepted(TopologyStats(words((0, 9), &[0], &[])), [0, 9, 0, 0, 4]);
    in_order(&good_words(), &words_faults(), TopologyStats, Left::Nothing);
}
