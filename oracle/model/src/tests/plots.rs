//! Document 01's worked plots, those that these calls compute.

use super::faults::{Left, fault, in_order};
use super::{accepted, accepted_with, csr, f, mask, store_room, words, words_room};
use calls::Call::*;
use calls::{Csr, Mask, Store, Words};

fn row() -> Csr {
    let entries = [(65, 2.0), (3, 1.0), (3, 0.5), (64, 4.0)];
    csr((1, 70), &[0, 4], &entries)
}

fn row_words() -> Words {
    words((1, 70), &[0, 2], &[(0, 8), (1, 3)])
}

fn row_store() -> Store {
    Store {
        words: row_words(),
        row_value_ptr: vec![0, 3],
        values: vec![1.5, 4.0, 2.0],
    }
}

#[test]
fn words_of_the_row() {
    let call = TopologyFromCsr32(row(), words_room(2, 2, 2));
    accepted_with(call, [2, 3], [&[0, 2], &[0, 1], &[8, 3]]);
}

#[test]
fn ranks() {
    for (col, rank) in [(0, 0), (4, 1), (64, 1), (65, 2), (70, 3)] {
        accepted(TopologyRowRank(row_words(), 0, col), [rank]);
    }
    let past = [fault(7, |col| *col = 71)];
    in_order(
        &70,
        &past,
        |col| TopologyRowRank(row_words(), 0, col),
        Left::Nothing,
    );
}

#[test]
fn selects() {
    for (ordinal, col) in [(0, 3), (1, 64), (2, 65)] {
        accepted(TopologyRowSelect(row_words(), 0, ordinal), [1, col]);
    }
    accepted(TopologyRowSelect(row_words(), 0, 3), [0, 0]);
}

#[test]
fn metadata_bytes() {
    accepted(TopologyStats(row_words()), [1, 70, 3, 2, 32]);
}

#[test]
fn packed() {
    let room = store_room(words_room(2, 2, 2), 2, 3);
    let values = [1.5, 4.0, 2.0].map(f);
    let lists: [&[u64]; 5] = [&[0, 2], &[0, 1], &[8, 3], &[0, 3], &values];
    accepted_with(MetadataFirstFromCsr32(row(), room), [2, 3], lists);
}

#[test]
fn dots() {
    let dot = |m: Mask| MetadataFirstSparseDotRow(row_store(), 0, m, vec![1.0; 70]);
    accepted(dot(mask(70, &[8, 2])), [f(3.5), 3, 2, 1, 2, 2]);
    accepted(dot(mask(70, &[8, 0])), [f(1.5), 3, 1, 2, 2, 1]);
}

#[test]
fn empty_row() {
    let store = Store {
        words: words((1, 70), &[0, 0], &[]),
        row_value_ptr: vec![0, 0],
        values: vec![],
    };
    let all = mask(70, &[u64::MAX, 63]);
    let call = MetadataFirstSparseDotRow(store, 0, all, vec![1.0; 70]);
    accepted(call, [0; 6]);
}

#[test]
fn masks_6_and_3() {
    let (a, b) = (mask(3, &[6]), mask(3, &[3]));
    accepted_with(MaskUnionAssign(a.clone(), b.clone()), [], [&[7]]);
    accepted_with(MaskIntersectAssign(a.clone(), b.clone()), [], [&[2]]);
    accepted_with(MaskAndNotAssign(a, b), [], [&[4]]);
    let (a, b) = (
        words((1, 3), &[0, 1], &[(0, 6)]),
        words((1, 3), &[0, 1], &[(0, 3)]),
    );
    let room = || words_room(2, 1, 1);
    let made = |mask: &'static [u64]| -> [&[u64]; 3] { [&[0, 1], &[0], mask] };
    accepted_with(
        TopologyUnion(a.clone(), b.clone(), room()),
        [1, 3],
        made(&[7]),
    );
    accepted_with(
        TopologyIntersection(a.clone(), b.clone(), room()),
        [1, 1],
        made(&[2]),
    );
    accepted_with(
        TopologyAndNot(a.clone(), b.clone(), room()),
        [1, 1],
        made(&[4]),
    );
    accepted_with(TopologyXor(a.clone(), b, room()), [1, 2], made(&[5]));
    let itself = TopologyXor(a.clone(), a, words_room(2, 0, 0));
    accepted_with(itself, [0, 0], [&[0, 0], &[], &[]]);
}

#[test]
fn a_cancelled_column() {
    let list = csr((1, 70), &[0, 2], &[(5, 1.0), (5, -1.0)]);
    let call = TopologyFromCsr32(list.clone(), words_room(2, 1, 1));
    accepted_with(call, [1, 1], [&[0, 1], &[0], &[32]]);
    let call = MetadataFirstFromCsr32(list, store_room(words_room(2, 1, 1), 2, 1));
    accepted_with(call, [1, 1], [&[0, 1], &[0], &[32], &[0, 1], &[0]]);
}

#[test]
fn the_largest_finite_value_twice() {
    let once = csr((1, 70), &[0, 1], &[(5, f64::MAX)]);
    let twice = |c: &mut Csr| *c = csr((1, 70), &[0, 2], &[(5, f64::MAX), (5, f64::MAX)]);
    let call = |c| MetadataFirstFromCsr32(c, store_room(words_room(2, 1, 1), 2, 1));
    let left = Left::Zeros(|_| vec![2, 1, 1, 2, 1]);
    in_order(&once, &[fault(4, twice)], call, left);
}
