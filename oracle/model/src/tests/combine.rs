//! Set operations on words.

use super::faults::{Fault, Left, alter, fault, in_order, shorten, within, words_faults};
use super::topology::room_lengths;
use super::{accepted_with, good_words, words, words_room};
use calls::Call::{self, *};
use calls::{Words, WordsRoom};

type Operands = (Words, Words, WordsRoom);

fn operations() -> [fn(Operands) -> Call; 4] {
    [
        |(a, b, room)| TopologyUnion(a, b, room),
        |(a, b, room)| TopologyIntersection(a, b, room),
        |(a, b, room)| TopologyAndNot(a, b, room),
        |(a, b, room)| TopologyXor(a, b, room),
    ]
}

/// The rows' words of one result: the pointers, and each word with its mask.
type Rows<'a> = (&'a [u64], &'a [(u64, u64)]);

/// The four results of a and b into lists that are one place too long.
fn combined(a: &Words, b: &Words, results: [Rows; 4]) {
    for (call, (pointers, made)) in operations().into_iter().zip(results) {
        let room = words_room(pointers.len() + 1, made.len() + 1, made.len() + 1);
        let ones = made
            .iter()
            .map(|(_, mask)| u64::from(mask.count_ones()))
            .sum();
        let numbers: Vec<u64> = made.iter().map(|(number, _)| *number).chain([0]).collect();
        let masks: Vec<u64> = made.iter().map(|(_, mask)| *mask).chain([0]).collect();
        let pointers: Vec<u64> = pointers.iter().copied().chain([0]).collect();
        let call = call((a.clone(), b.clone(), room));
        accepted_with(
            call,
            [made.len() as u64, ones],
            [&pointers, &numbers, &masks],
        );
    }
}

#[test]
fn one_word() {
    let (a, b) = (
        words((1, 3), &[0, 1], &[(0, 6)]),
        words((1, 3), &[0, 1], &[(0, 3)]),
    );
    let results: [Rows; 4] = [
        (&[0, 1], &[(0, 7)]),
        (&[0, 1], &[(0, 2)]),
        (&[0, 1], &[(0, 4)]),
        (&[0, 1], &[(0, 5)]),
    ];
    combined(&a, &b, results);
}

#[test]
fn with_itself() {
    let a = good_words();
    let same: Rows = (&[0, 2, 3], &[(0, 8), (1, 3), (0, 1)]);
    combined(&a, &a, [same, same, (&[0, 0, 0], &[]), (&[0, 0, 0], &[])]);
}

#[test]
fn rows_of_every_kind() {
    // Row 0 in both, row 1 in the second, row 2 in none, row 3 in the first; words apart and shared.
    let a = words((4, 200), &[0, 2, 2, 2, 3], &[(0, 1), (2, 6), (3, 128)]);
    let b = words((4, 200), &[0, 2, 3, 3, 3], &[(1, 1 << 63), (2, 3), (0, 5)]);
    let results: [Rows; 4] = [
        (
            &[0, 3, 4, 4, 5],
            &[(0, 1), (1, 1 << 63), (2, 7), (0, 5), (3, 128)],
        ),
        (&[0, 1, 1, 1, 1], &[(2, 2)]),
        (&[0, 2, 2, 2, 3], &[(0, 1), (2, 4), (3, 128)]),
        (
            &[0, 3, 4, 4, 5],
            &[(0, 1), (1, 1 << 63), (2, 5), (0, 5), (3, 128)],
        ),
    ];
    combined(&a, &b, results);
}

#[test]
fn empty_shapes() {
    let (none, flat) = (words((0, 0), &[0], &[]), words((2, 0), &[0; 3], &[]));
    combined(&none, &none, [(&[0], &[]); 4]);
    combined(&flat, &flat, [(&[0, 0, 0], &[]); 4]);
}

/// 1 of both, 11 of both, 8.
fn operand_faults() -> Vec<Fault<Operands>> {
    let mut faults = within(words_faults(), |(a, ..): &mut Operands| a);
    faults.extend(within(words_faults(), |(_, b, _): &mut Operands| b));
    faults.sort_by_key(Fault::number);
    faults.push(fault(8, |(_, b, _): &mut Operands| alter(&mut b.ncols, 69)));
    faults.push(fault(8, |(_, b, _): &mut Operands| add_row(b)));
    faults.push(fault(8, |(a, ..): &mut Operands| alter(&mut a.ncols, 69)));
    faults.push(fault(8, |(a, ..): &mut Operands| add_row(a)));
    faults
}

/// Adds an empty row.
fn add_row(words: &mut Words) {
    words.nrows = words.nrows.saturating_add(1);
    let last = words.row_word_ptr.last().copied().unwrap_or_default();
    words.row_word_ptr.push(last);
}

/// Words that have a row 0 with two words and a row 1 with one under every operation with `good_words`.
fn other_words() -> Words {
    words((2, 70), &[0, 2, 3], &[(0, 9), (1, 6), (0, 3)])
}

#[test]
fn refusals() {
    let mut faults = operand_faults();
    faults.extend([
        fault(13, |(_, _, room): &mut Operands| {
            *room = words_room(2, 3, 3)
        }),
        fault(13, |(_, _, room): &mut Operands| {
            *room = words_room(3, 0, 3)
        }),
        fault(13, |(_, _, room): &mut Operands| {
            *room = words_room(3, 3, 0)
        }),
        fault(13, |(_, _, room): &mut Operands| {
            *room = words_room(0, 0, 0)
        }),
    ]);
    let good = (good_words(), other_words(), words_room(3, 3, 3));
    for call in operations() {
        let left = Left::Zeros(|(_, _, room): &Operands| room_lengths(room));
        in_order(&good, &faults, call, left);
    }
}

#[test]
fn a_short_list_is_judged_by_the_result() {
    let a = words((1, 200), &[0, 3], &[(0, 1), (1, 3), (2, 1)]);
    let b = words((1, 200), &[0, 2], &[(1, 1), (3, 1)]);
    for (call, needed) in operations().into_iter().zip([4, 1, 3, 4]) {
        let good = (a.clone(), b.clone(), words_room(2, needed, needed));
        let faults = [
            fault(13, |(_, _, room): &mut Operands| {
                shorten(&mut room.word_indices)
            }),
            fault(13, |(_, _, room): &mut Operands| shorten(&mut room.masks)),
            fault(13, |(_, _, room): &mut Operands| {
                shorten(&mut room.row_word_ptr)
            }),
        ];
        let left = Left::Zeros(|(_, _, room): &Operands| room_lengths(room));
        in_order(&good, &faults, call, left);
    }
}
