//! The packed store: the check, packing, parts, figures.

use super::faults::{Fault, Left, csr_faults, fault, in_order, store_faults, within};
use super::topology::room_lengths;
use super::{accepted, accepted_with, csr, f, good_csr, good_store, store_room, words, words_room};
use calls::Call::*;
use calls::{Csr, Store, StoreRoom};

#[test]
fn check() {
    in_order(
        &good_store(),
        &store_faults(),
        MetadataFirstCheck,
        Left::Nothing,
    );
}

#[test]
fn zeros_and_edges_of_finite_are_kept() {
    let store = Store {
        words: words((1, 64), &[0, 1], &[(0, 31)]),
        row_value_ptr: vec![0, 5],
        values: vec![0.0, -0.0, f64::from_bits(1), f64::MAX, f64::MIN],
    };
    accepted(MetadataFirstCheck(store), []);
}

fn empty_store(nrows: usize, ncols: usize) -> Store {
    let pointers = vec![0; nrows + 1];
    Store {
        words: words((nrows, ncols), &pointers, &[]),
        row_value_ptr: pointers,
        values: vec![],
    }
}

#[test]
fn empty_shapes() {
    for (nrows, ncols) in [(0, 0), (0, 70), (3, 0), (3, 70)] {
        let faults = [
            fault(12, |s: &mut Store| s.values.push(0.0)),
            fault(12, |s: &mut Store| s.row_value_ptr.push(0)),
            fault(12, |s: &mut Store| s.row_value_ptr.clear()),
        ];
        let good = empty_store(nrows, ncols);
        in_order(&good, &faults, MetadataFirstCheck, Left::Nothing);
    }
}

/// Packs one row of 65 columns into lists one place too long: the words as pairs, then the values.
fn packs_to(entries: &[(u32, f64)], made: &[(u64, u64)], values: &[f64]) {
    let list = csr((1, 65), &[0, entries.len() as u32], entries);
    let (n, ones) = (made.len(), values.len());
    let room = store_room(words_room(3, n + 1, n + 1), 3, ones + 1);
    let numbers: Vec<u64> = made.iter().map(|word| word.0).chain([0]).collect();
    let masks: Vec<u64> = made.iter().map(|word| word.1).chain([0]).collect();
    let packed: Vec<u64> = values.iter().map(|v| f(*v)).chain([0]).collect();
    let pointers = [0, n as u64, 0];
    let value_pointers = [0, ones as u64, 0];
    let lists: [&[u64]; 5] = [&pointers, &numbers, &masks, &value_pointers, &packed];
    accepted(MetadataFirstCheckMerge(list.clone()), []);
    accepted_with(
        MetadataFirstFromCsr32(list, room),
        [n as u64, ones as u64],
        lists,
    );
}

#[test]
fn packing_ascends() {
    let entries = [(64, 1.0), (63, 2.0), (0, 3.0), (62, 4.0)];
    let word = 1 << 63 | 1 << 62 | 1;
    packs_to(&entries, &[(0, word), (1, 1)], &[3.0, 4.0, 2.0, 1.0]);
    packs_to(&[], &[], &[]);
}

#[test]
fn copies_add_in_stored_order() {
    let e = f64::EPSILON / 2.0;
    packs_to(&[(5, 1.0), (5, e), (5, e)], &[(0, 32)], &[1.0]);
    packs_to(&[(5, e), (5, e), (5, 1.0)], &[(0, 32)], &[1.0 + 2.0 * e]);
    packs_to(
        &[(5, e), (4, 1.0), (5, 1.0), (5, e)],
        &[(0, 48)],
        &[1.0, 1.0],
    );
    packs_to(&[(5, 1e300), (5, 1.0), (5, -1e300)], &[(0, 32)], &[0.0]);
    packs_to(&[(5, 1e300), (5, -1e300), (5, 1.0)], &[(0, 32)], &[1.0]);
}

#[test]
fn merging_starts_at_positive_zero() {
    packs_to(&[(5, -0.0)], &[(0, 32)], &[0.0]);
    packs_to(&[(5, -0.0), (5, -0.0)], &[(0, 32)], &[0.0]);
    packs_to(&[(5, 1.0), (5, -1.0)], &[(0, 32)], &[0.0]);
    packs_to(&[(5, 0.0), (6, 0.0)], &[(0, 96)], &[0.0, 0.0]);
}

#[test]
fn subnormal_and_largest() {
    let least = f64::from_bits(1);
    packs_to(&[(0, least)], &[(0, 1)], &[least]);
    packs_to(&[(0, least), (0, least)], &[(0, 1)], &[f64::from_bits(2)]);
    packs_to(&[(0, f64::MAX)], &[(0, 1)], &[f64::MAX]);
    packs_to(
        &[(0, f64::MAX), (0, -f64::MAX), (0, f64::MAX)],
        &[(0, 1)],
        &[f64::MAX],
    );
    // Less than half of the last place is rounded off.
    packs_to(&[(0, f64::MAX), (0, 1e291)], &[(0, 1)], &[f64::MAX]);
}

/// The refusals of a plot list, then 4 of a merged value.
fn merge_faults() -> Vec<Fault<Csr>> {
    let mut faults = csr_faults();
    faults.push(fault(4, |c: &mut Csr| {
        (c.values[1], c.values[2]) = (f64::MAX, f64::MAX)
    }));
    faults.push(fault(4, |c: &mut Csr| {
        (c.values[1], c.values[2]) = (f64::MIN, f64::MIN)
    }));
    faults.push(fault(4, |c: &mut Csr| {
        (c.values[1], c.values[2]) = (f64::MAX, 1e292)
    }));
    faults
}

#[test]
fn check_merge() {
    in_order(
        &good_csr(),
        &merge_faults(),
        MetadataFirstCheckMerge,
        Left::Nothing,
    );
}

#[test]
fn an_infinite_sum_stays_infinite() {
    let faults = [fault(4, |c: &mut Csr| {
        let entries = [(5, f64::MAX), (5, f64::MAX), (5, -f64::MAX), (5, -f64::MAX)];
        *c = csr((2, 65), &[0, 0, 4], &entries);
    })];
    in_order(&good_csr(), &faults, MetadataFirstCheckMerge, Left::Nothing);
}

fn store_room_lengths(room: &StoreRoom) -> Vec<usize> {
    let mut lengths = room_lengths(&room.words);
    lengths.extend([room.row_value_ptr.len(), room.values.len()]);
    lengths
}

#[test]
fn packing_two_rows() {
    let room = store_room(words_room(3, 3, 3), 3, 4);
    let values = [1.5, 4.0, 2.0, 8.0].map(f);
    let lists: [&[u64]; 5] = [&[0, 2, 3], &[0, 1, 0], &[8, 3, 1], &[0, 3, 4], &values];
    accepted_with(MetadataFirstFromCsr32(good_csr(), room), [3, 4], lists);
}

#[test]
fn packing_empty_shapes() {
    let none = csr((0, 0), &[0], &[]);
    let call = MetadataFirstFromCsr32(none, store_room(words_room(1, 0, 0), 1, 0));
    accepted_with(call, [0, 0], [&[0], &[], &[], &[0], &[]]);
    let flat = csr((2, 0), &[0, 0, 0], &[]);
    let call = MetadataFirstFromCsr32(flat, store_room(words_room(3, 1, 1), 4, 1));
    accepted_with(call, [0, 0], [&[0; 3], &[0], &[0], &[0; 4], &[0]]);
}

#[test]
fn refusals_of_packing() {
    type Input = (Csr, StoreRoom);
    let mut faults = within(merge_faults(), |(c, _): &mut Input| c);
    let short = [
        [2, 3, 3, 3, 4],
        [3, 2, 3, 3, 4],
        [3, 3, 2, 3, 4],
        [3, 3, 3, 2, 4],
        [3, 3, 3, 3, 3],
    ];
    for [a, b, c, d, e] in short.into_iter().chain([[0; 5], [9, 9, 9, 9, 0]]) {
        faults.push(fault(13, move |(_, room): &mut Input| {
            *room = store_room(words_room(a, b, c), d, e);
        }));
    }
    let good = (good_csr(), store_room(words_room(3, 3, 3), 3, 4));
    let left = Left::Zeros(|(_, room): &Input| store_room_lengths(room));
    in_order(
        &good,
        &faults,
        |(c, room)| MetadataFirstFromCsr32(c, room),
        left,
    );
}

#[test]
fn row_values() {
    accepted(MetadataFirstRowValues(good_store(), 0), [0, 3]);
    accepted(MetadataFirstRowValues(good_store(), 1), [3, 4]);
    accepted(MetadataFirstRowValues(empty_store(2, 5), 1), [0, 0]);
    type Asked = (Store, usize);
    let mut faults = within(store_faults(), |(s, _): &mut Asked| s);
    faults.push(fault(7, |(_, row)| *row = 2));
    faults.push(fault(7, |(_, row)| *row = usize::MAX));
    let call = |(s, row)| MetadataFirstRowValues(s, row);
    in_order(&(good_store(), 1), &faults, call, Left::Nothing);
}

#[test]
fn stats() {
    let figures = [2, 70, 4, 4 * 3 + 12 * 3, 4 * 3, 8 * 4];
    accepted(MetadataFirstStats(good_store()), figures);
    accepted(MetadataFirstStats(empty_store(0, 9)), [0, 9, 0, 4, 4, 0]);
    in_order(
        &good_store(),
        &store_faults(),
        MetadataFirstStats,
        Left::Nothing,
    );
}
