//! Set operations on two records of words.

use super::{ONES, records, words, words_room, words_rooms};
use calls::{Call, Words, WordsRoom};

pub type Operation = fn(Words, Words, WordsRoom) -> Call;

pub const OPERATIONS: [Operation; 4] = [
    Call::TopologyUnion,
    Call::TopologyIntersection,
    Call::TopologyAndNot,
    Call::TopologyXor,
];

/// The result's words, as the model has them.
pub fn words_in(operation: Operation, a: &Words, b: &Words) -> usize {
    let most = a.masks.len() + b.masks.len();
    let room = words_room(a.nrows + 1, most, most);
    model::judge(&operation(a.clone(), b.clone(), room)).result[0] as usize
}

pub fn calls() -> Vec<Call> {
    let mut all = Vec::new();
    let groups = [one_row(), several_rows(), empty()];
    for (a, b) in groups.concat() {
        in_every_room(&mut all, &a, &b);
        in_every_room(&mut all, &b, &a);
    }
    for w in records::all() {
        beside(&mut all, &w);
    }
    all
}

/// Each operation into lists of each length.
fn in_every_room(all: &mut Vec<Call>, a: &Words, b: &Words) {
    for operation in OPERATIONS {
        for room in words_rooms(a.nrows + 1, words_in(operation, a, b)) {
            all.push(operation(a.clone(), b.clone(), room));
        }
    }
}

/// A record damaged or of another frame in either place, beside the good one and beside one with pointers that fall, with lists
/// and without: 1 of both, 11 of the first, 11 of the second, 8, 13.
fn beside(all: &mut Vec<Call>, w: &Words) {
    let good = records::good();
    for operation in OPERATIONS {
        all.push(operation(w.clone(), good.clone(), words_room(8, 14, 14)));
        all.push(operation(good.clone(), w.clone(), words_room(8, 14, 14)));
    }
    let falling = records::falling();
    all.push(Call::TopologyUnion(
        w.clone(),
        falling.clone(),
        words_room(8, 14, 14),
    ));
    all.push(Call::TopologyXor(falling, w.clone(), words_room(8, 14, 14)));
    all.push(Call::TopologyAndNot(
        w.clone(),
        good.clone(),
        words_room(0, 7, 0),
    ));
    all.push(Call::TopologyIntersection(
        good,
        w.clone(),
        words_room(0, 7, 0),
    ));
}

/// Document 01's masks 6 and 3; words with nothing in common; a full word; words of different numbers; a record with itself.
fn one_row() -> Vec<(Words, Words)> {
    let one = |number, mask| words(1, 70, &[0, 1], &[number], &[mask]);
    vec![
        (one(0, 6), one(0, 3)),
        (one(0, 6), one(0, 1)),
        (one(0, ONES), one(0, 6)),
        (one(0, ONES), one(1, 32)),
        (one(1, 32), one(1, 32)),
    ]
}

/// Words of one side only, before, between and after the other's; rows that are empty on one side, on both, on none.
fn several_rows() -> Vec<(Words, Words)> {
    let a = words(
        5,
        200,
        &[0, 2, 2, 3, 3, 4],
        &[1, 3, 2, 0],
        &[2, 0x80, 0x8000_0000_0000_0000, ONES],
    );
    let b = words(
        5,
        200,
        &[0, 3, 4, 4, 4, 5],
        &[0, 2, 3, 1, 0],
        &[1, 0xffff, 0x81, 5, 0x0123_4567_89ab_cdef],
    );
    let none = words(5, 200, &[0; 6], &[], &[]);
    vec![(a.clone(), b), (a.clone(), none), (a.clone(), a)]
}

/// No rows and columns, no rows, no columns.
fn empty() -> Vec<(Words, Words)> {
    [(0, 0), (0, 70), (2, 0)]
        .map(|(nrows, ncols)| words(nrows, ncols, &vec![0; nrows + 1], &[], &[]))
        .map(|w| (w.clone(), w))
        .to_vec()
}
