//! The mask.

use super::faults::{
    Fault, Left, PLACES_OVER, alter, fault, fault_told, in_order, mask_faults, within,
};
use super::{accepted, accepted_with, good_mask, mask};
use calls::Call::{self, *};
use calls::Mask;

type Indexed = (Mask, usize);

fn indexed_faults() -> Vec<Fault<Indexed>> {
    within(mask_faults(), |(m, _): &mut Indexed| m)
}

#[test]
fn check() {
    in_order(&good_mask(), &mask_faults(), MaskCheck, Left::Nothing);
    for (len, count) in [(63, 1), (64, 1), (65, 2), (128, 2), (129, 3)] {
        let all = |last: u64| {
            let mut words = vec![u64::MAX; count];
            words[count - 1] = last;
            mask(len, &words)
        };
        let last = u64::MAX >> (64 * count - len);
        accepted(MaskCheck(all(last)), []);
    }
    accepted(MaskCheck(mask(0, &[])), []);
}

#[test]
fn an_empty_mask_has_no_word() {
    let faults = [
        fault(5, |m: &mut Mask| m.words.push(0)),
        fault(5, |m: &mut Mask| m.words.push(1)),
    ];
    in_order(&mask(0, &[]), &faults, MaskCheck, Left::Nothing);
}

#[test]
fn a_full_last_word_has_no_bit_past_the_length() {
    let faults = [
        fault(5, |m: &mut Mask| m.words.push(0)),
        fault(5, |m: &mut Mask| m.len = 63),
        fault(5, |m: &mut Mask| m.len = 65),
    ];
    in_order(&mask(64, &[u64::MAX]), &faults, MaskCheck, Left::Nothing);
}

#[test]
fn contains_is_false_past_the_length() {
    for (index, is) in [(0, 0), (3, 1), (64, 0), (65, 1), (69, 0)] {
        accepted(MaskContains(good_mask(), index), [is]);
    }
    for index in [70, 71, 127, 128, 129, usize::MAX] {
        accepted(MaskContains(good_mask(), index), [0]);
    }
    accepted(MaskContains(mask(0, &[]), 0), [0]);
    let call = |(m, index)| MaskContains(m, index);
    in_order(&(good_mask(), 3), &indexed_faults(), call, Left::Nothing);
}

#[test]
fn count_ones_and_is_empty() {
    accepted(MaskCountOnes(good_mask()), [2]);
    accepted(MaskCountOnes(mask(65, &[u64::MAX, 1])), [65]);
    accepted(MaskCountOnes(mask(0, &[])), [0]);
    accepted(MaskIsEmpty(good_mask()), [0]);
    accepted(MaskIsEmpty(mask(70, &[0, 0])), [1]);
    accepted(MaskIsEmpty(mask(70, &[0, 1 << 5])), [0]);
    accepted(MaskIsEmpty(mask(0, &[])), [1]);
    in_order(&good_mask(), &mask_faults(), MaskCountOnes, Left::Nothing);
    in_order(&good_mask(), &mask_faults(), MaskIsEmpty, Left::Nothing);
}

#[test]
fn new() {
    accepted_with(MaskNew(70, vec![7; 3]), [], [&[0, 0, 0]]);
    accepted_with(MaskNew(64, vec![7; 1]), [], [&[0]]);
    accepted_with(MaskNew(0, vec![]), [], [&[]]);
    accepted_with(MaskNew(0, vec![7]), [], [&[0]]);
    let faults = [
        fault(1, |(len, _): &mut (usize, Vec<u64>)| *len = PLACES_OVER),
        fault(1, |(len, _): &mut (usize, Vec<u64>)| *len = usize::MAX),
        fault(13, |(_, room): &mut (usize, Vec<u64>)| *room = vec![7; 1]),
        fault(13, |(_, room): &mut (usize, Vec<u64>)| room.clear()),
    ];
    let left = Left::Zeros(|(_, room): &(usize, Vec<u64>)| vec![room.len()]);
    in_order(
        &(65, vec![7; 2]),
        &faults,
        |(len, room)| MaskNew(len, room),
        left,
    );
}

#[test]
fn from_indices() {
    let made = |len, indices: &[usize], room| MaskFromIndices(len, indices.to_vec(), room);
    accepted_with(made(70, &[65, 3, 65, 0], vec![7; 3]), [], [&[9, 2, 0]]);
    accepted_with(made(65, &[63, 64], vec![7; 2]), [], [&[1 << 63, 1]]);
    accepted_with(made(70, &[], vec![7; 2]), [], [&[0, 0]]);
    accepted_with(made(0, &[], vec![7; 1]), [], [&[0]]);
    type Input = (usize, Vec<usize>, Vec<u64>);
    let faults = [
        fault(1, |(len, ..): &mut Input| *len = PLACES_OVER),
        fault(1, |(len, ..): &mut Input| *len = usize::MAX),
        fault(7, |(_, indices, _): &mut Input| indices[0] = 70),
        fault(7, |(_, indices, _): &mut Input| indices[2] = 71),
        fault(7, |(_, indices, _): &mut Input| indices[1] = usize::MAX),
        fault(13, |(_, _, room): &mut Input| *room = vec![7; 1]),
        fault(13, |(_, _, room): &mut Input| room.clear()),
    ];
    let good = (70, vec![1, 2, 69], vec![7; 2]);
    let left = Left::Zeros(|(_, _, room): &Input| vec![room.len()]);
    in_order(
        &good,
        &faults,
        |(len, i, room)| MaskFromIndices(len, i, room),
        left,
    );
    accepted_with(made(0, &[], vec![]), [], [&[]]);
}

#[test]
fn no_index_is_below_a_length_of_0() {
    let faults = [fault(7, |indices: &mut Vec<usize>| indices.push(0))];
    let call = |indices| MaskFromIndices(0, indices, vec![7]);
    in_order(&vec![], &faults, call, Left::Zeros(|_| vec![1]));
}

#[test]
fn set() {
    let after = |index, value, words: &[u64]| {
        accepted_with(MaskSet(good_mask(), index, value), [], [words]);
    };
    after(0, true, &[9, 2]);
    after(3, true, &[8, 2]);
    after(3, false, &[0, 2]);
    after(4, false, &[8, 2]);
    after(63, true, &[8 | 1 << 63, 2]);
    after(64, true, &[8, 3]);
    after(65, false, &[8, 0]);
    after(69, true, &[8, 2 | 1 << 5]);
    let mut faults = indexed_faults();
    faults.push(fault(7, |(_, index)| *index = 70));
    faults.push(fault(7, |(_, index)| *index = usize::MAX));
    for call in [
        (|(m, index)| MaskSet(m, index, true)) as fn(Indexed) -> Call,
        |(m, index)| MaskSet(m, index, false),
    ] {
        let left = Left::Untouched(|(m, _): &Indexed| m.words.clone());
        in_order(&(good_mask(), 3), &faults, call, left);
    }
}

#[test]
fn or_word_trims_the_last_word() {
    let after = |word, bits, words: &[u64]| {
        accepted_with(MaskOrWord(good_mask(), word, bits), [], [words]);
    };
    after(0, 5, &[13, 2]);
    after(0, u64::MAX, &[u64::MAX, 2]);
    after(1, u64::MAX, &[8, 63]);
    after(1, 1 << 6, &[8, 2]);
    after(2, u64::MAX, &[8, 2]);
    after(usize::MAX, u64::MAX, &[8, 2]);
    after(0, 0, &[8, 2]);
    let full = MaskOrWord(mask(64, &[0]), 0, u64::MAX);
    accepted_with(full, [], [&[u64::MAX]]);
    accepted_with(MaskOrWord(mask(0, &[]), 0, 1), [], [&[]]);
    let left = Left::Untouched(|(m, _): &Indexed| m.words.clone());
    let call = |(m, word)| MaskOrWord(m, word, u64::MAX);
    in_order(&(good_mask(), 1), &indexed_faults(), call, left);
}

#[test]
fn indices_ascending() {
    let m = mask(70, &[1 << 63 | 8, 3]);
    accepted_with(MaskIndices(m.clone(), vec![7; 4]), [4], [&[3, 63, 64, 65]]);
    accepted_with(MaskIndices(m, vec![7; 6]), [4], [&[3, 63, 64, 65, 0, 0]]);
    accepted_with(MaskIndices(mask(70, &[0, 0]), vec![7; 2]), [0], [&[0, 0]]);
    accepted_with(MaskIndices(mask(0, &[]), vec![]), [0], [&[]]);
    type Input = (Mask, Vec<usize>);
    let mut faults = within(mask_faults(), |(m, _): &mut Input| m);
    faults.push(fault(13, |(_, room)| *room = vec![7; 1]));
    faults.push(fault(13, |(_, room): &mut Input| room.clear()));
    let left = Left::Zeros(|(_, room): &Input| vec![room.len()]);
    let call = |(m, room)| MaskIndices(m, room);
    in_order(&(good_mask(), vec![7; 2]), &faults, call, left);
}

#[test]
fn assignments() {
    let (a, b) = (mask(70, &[6, 1 << 5]), mask(70, &[3, 1]));
    let union = MaskUnionAssign(a.clone(), b.clone());
    accepted_with(union, [], [&[7, 33]]);
    let intersection = MaskIntersectAssign(a.clone(), b.clone());
    accepted_with(intersection, [], [&[2, 0]]);
    let and_not = MaskAndNotAssign(a.clone(), b.clone());
    accepted_with(and_not, [], [&[4, 32]]);
    accepted(MaskIntersects(a.clone(), b), [1]);
    accepted(MaskIntersects(a.clone(), mask(70, &[9, 31])), [0]);
    accepted(MaskIntersects(a, mask(70, &[0, 0])), [0]);
    let none = mask(0, &[]);
    accepted_with(MaskUnionAssign(none.clone(), none.clone()), [], [&[]]);
    accepted(MaskIntersects(none.clone(), none), [0]);
}

type Pair = (Mask, Mask);

/// 1 of both, 5 of both, then 6.
fn pair_faults() -> Vec<Fault<Pair>> {
    let mut faults = within(mask_faults(), |(m, _): &mut Pair| m);
    faults.extend(within(mask_faults(), |(_, other): &mut Pair| other));
    faults.sort_by_key(Fault::number);
    let shorter = |(_, other): &mut Pair| alter(&mut other.len, 69);
    faults.push(fault_told((6, 70, 69), shorter));
    faults
}

#[test]
fn refusals_of_two_masks() {
    let good = (good_mask(), good_mask());
    let calls: [fn(Pair) -> Call; 3] = [
        |(m, other)| MaskUnionAssign(m, other),
        |(m, other)| MaskIntersectAssign(m, other),
        |(m, other)| MaskAndNotAssign(m, other),
    ];
    let faults = pair_faults();
    for call in calls {
        let left = Left::Untouched(|(m, _): &Pair| m.words.clone());
        in_order(&good, &faults, call, left);
    }
    in_order(
        &good,
        &faults,
        |(m, other)| MaskIntersects(m, other),
        Left::Nothing,
    );
}

#[test]
fn the_changed_mask_has_the_expected_length() {
    let faults = [
        fault_told((6, 69, 70), |(m, _): &mut Pair| m.len = 69),
        fault_told((6, 128, 70), |(m, _): &mut Pair| m.len = 128),
        fault_told((6, 70, 66), |(_, other): &mut Pair| other.len = 66),
        fault_told((6, 70, 0), |(_, other): &mut Pair| *other = mask(0, &[])),
    ];
    let good = (good_mask(), good_mask());
    for fault in faults {
        let left = Left::Untouched(|(m, _): &Pair| m.words.clone());
        let call = |(m, other)| MaskUnionAssign(m, other);
        in_order(&good, &[fault], call, left);
    }
}
