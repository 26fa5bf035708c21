//! Restricted and local lists: what is kept, the counts, the members, the gathering, the figures, the refusals; and demand 3's words.

use super::faults::{
    Fault, Left, PLACES_OVER, alter, csr_faults, fault, fault_told, in_order, mask_faults, shorten,
    within,
};
use super::{
    accepted, accepted_with, csr, csr_room as room, f, good_csr, good_mask, good_tiles, mask,
};
use crate::demand;
use crate::judge;
use calls::Call::*;
use calls::{Csr, CsrRoom, Mask, Tiles, bits};

const INF: f64 = f64::INFINITY;

#[test]
fn entries_in_active_columns_are_kept_in_stored_order() {
    let call = RestrictedFromCsr32(good_csr(), good_mask(), room([4, 5, 4]));
    let values = [f(2.0), f(1.0), f(0.5), 0];
    let lists: [&[u64]; 3] = [&[0, 3, 3, 0], &[65, 3, 3, 0, 0], &values];
    accepted_with(call, [2, 70, 5, 3], lists);
    let zero = csr((1, 2), &[0, 2], &[(1, -0.0), (0, 0.0)]);
    let call = RestrictedFromCsr32(zero, mask(2, &[3]), room([2, 2, 2]));
    accepted_with(call, [1, 2, 2, 2], [&[0, 2], &[1, 0], &[f(-0.0), 0]]);
}

#[test]
fn tiles_are_restricted_ascending() {
    let active = mask(70, &[1 | 8, 2]);
    let call = RestrictedFromAbtm(good_tiles(), active, room([3, 3, 3]));
    let values = [f(1.5), f(2.0), f(8.0)];
    accepted_with(call, [2, 70, 5, 3], [&[0, 2, 3], &[3, 65, 0], &values]);
    let none = RestrictedFromAbtm(good_tiles(), mask(70, &[2, 0]), room([3, 0, 0]));
    accepted_with(none, [2, 70, 5, 0], [&[0, 0, 0], &[], &[]]);
}

/// Document 01's worked plot: with the largest value twice active 4, inactive accepted.
#[test]
fn an_infinite_value_is_refused_where_it_is_active() {
    let mut t = good_tiles();
    t.values[1] = INF;
    for (word, number) in [([0, 1], 4), ([8, 2], 0)] {
        let call = RestrictedFromAbtm(t.clone(), mask(70, &word), room([3, 3, 3]));
        assert_eq!(judge(&call).number, number);
    }
}

/// Rows 0, 2 and 3 of a square of 4, with entries in and out of the region {0, 2}.
fn square() -> Csr {
    let entries = [(3, 1.0), (2, 2.0), (2, 3.0), (0, 4.0), (2, 5.0), (0, 6.0)];
    csr((4, 4), &[0, 3, 3, 5, 6], &entries)
}

#[test]
fn a_region_has_numbers_of_its_own() {
    let call = LocalFromCsr32(square(), mask(4, &[5]), vec![9; 3], room([4, 4, 5]));
    let values = [f(2.0), f(3.0), f(4.0), f(5.0), 0];
    let lists: [&[u64]; 4] = [&[0, 2, 0], &[0, 2, 4, 0], &[1, 1, 0, 1], &values];
    accepted_with(call, [4, 2, 4, 5], lists);
    let call = LocalFromCsr32(square(), mask(4, &[0]), vec![], room([1, 0, 0]));
    accepted_with(call, [4, 0, 0, 0], [&[], &[0], &[], &[]]);
}

#[test]
fn members_rise_below_the_size() {
    for (size, members, number) in [
        (4, vec![0, 2, 3], 0),
        (4, vec![], 0),
        (0, vec![], 0),
        (4, vec![2, 0], 12),
        (4, vec![2, 2], 12),
        (4, vec![4], 12),
        (PLACES_OVER, vec![2, 2], 1),
    ] {
        assert_eq!(judge(&LocalCheck(size, members)).number, number);
    }
}

#[test]
fn gathering() {
    let global = vec![0.5, f64::NAN, -0.0, 7.0];
    let call = LocalGatherInput(4, vec![1, 2], global, vec![9.0; 2]);
    accepted_with(call, [], [&[bits(f64::NAN), f(-0.0)]]);
    type Input = (usize, Vec<u32>, Vec<f64>, Vec<f64>);
    let faults: Vec<Fault<Input>> = vec![
        fault(1, |input: &mut Input| input.0 = PLACES_OVER),
        fault(12, |input: &mut Input| input.1.swap(0, 1)),
        fault_told((6, 4, 3), |input: &mut Input| shorten(&mut input.2)),
        fault_told((6, 2, 1), |input: &mut Input| shorten(&mut input.3)),
    ];
    let good = (4, vec![1, 3], vec![0.5; 4], vec![9.0; 2]);
    let left = Left::Untouched(|input: &Input| input.3.iter().map(|&v| bits(v)).collect());
    let call = |(size, members, global, local)| LocalGatherInput(size, members, global, local);
    in_order(&good, &faults, call, left);
}

#[test]
fn figures() {
    accepted(RestrictedRetainedFraction(1, 3), [f(1.0 / 3.0)]);
    accepted(RestrictedRetainedFraction(3, 0), [0]);
    accepted(RestrictedStorageBytes(3, 65, 5), [16 + 60 + 16]);
    accepted(RestrictedStorageBytes(usize::MAX, 0, 0), [u64::MAX]);
    accepted(RestrictedStorageBytes(0, usize::MAX, 0), [4 + (1 << 61)]);
    accepted(LocalBoundaryPruningRatio(1, 3), [f(1.0 - 1.0 / 3.0)]);
    accepted(LocalBoundaryPruningRatio(3, 0), [0]);
    accepted(LocalBoundaryPruningRatio(3, 1), [f(-2.0)]);
    accepted(LocalStorageBytes(3, 5), [16 + 60 + 12]);
    accepted(LocalStorageBytes(1, usize::MAX), [u64::MAX]);
}

type FromCsr = (Csr, Mask, CsrRoom);

/// The faults of the mask that have this number, as faults of the whole.
fn of_mask<T: 'static>(number: u32, part: fn(&mut T) -> &mut Mask) -> Vec<Fault<T>> {
    let all = within(mask_faults(), part).into_iter();
    all.filter(|fault| fault.number() == number).collect()
}

#[test]
fn refusals_of_restricting() {
    let faults = |number: u32| -> Vec<Fault<FromCsr>> {
        let all = within(csr_faults(), |input: &mut FromCsr| &mut input.0);
        all.into_iter()
            .filter(|fault| fault.number() == number)
            .collect()
    };
    let mut all = faults(1);
    all.extend(of_mask(1, |input: &mut FromCsr| &mut input.1));
    all.extend([2, 3, 4].into_iter().flat_map(faults));
    all.extend(of_mask(5, |input: &mut FromCsr| &mut input.1));
    all.push(fault_told((6, 70, 66), |input: &mut FromCsr| {
        alter(&mut input.1.len, 66)
    }));
    all.push(fault(13, |input: &mut FromCsr| {
        shorten(&mut input.2.row_ptr)
    }));
    all.push(fault(13, |input: &mut FromCsr| {
        shorten(&mut input.2.col_idx)
    }));
    all.push(fault(13, |input: &mut FromCsr| {
        shorten(&mut input.2.values)
    }));
    let left = Left::Zeros(|input: &FromCsr| {
        let room = &input.2;
        vec![room.row_ptr.len(), room.col_idx.len(), room.values.len()]
    });
    let good = (good_csr(), good_mask(), room([3, 3, 3]));
    in_order(
        &good,
        &all,
        |(c, m, room)| RestrictedFromCsr32(c, m, room),
        left,
    );
}

#[test]
fn refusals_of_restricting_tiles() {
    type Input = (Tiles, Mask, CsrRoom);
    let mut all: Vec<Fault<Input>> = vec![fault(1, |input: &mut Input| {
        input.0.nrows = PLACES_OVER;
    })];
    all.extend(of_mask(1, |input: &mut Input| &mut input.1));
    all.push(fault(12, |input: &mut Input| input.0.matrix_nnz = 6));
    all.extend(of_mask(5, |input: &mut Input| &mut input.1));
    all.push(fault_told((6, 70, 66), |input: &mut Input| {
        alter(&mut input.1.len, 66)
    }));
    all.push(fault(4, |input: &mut Input| input.0.values[0] = -INF));
    all.push(fault(13, |input: &mut Input| shorten(&mut input.2.values)));
    let left = Left::Zeros(|input: &Input| {
        let room = &input.2;
        vec![room.row_ptr.len(), room.col_idx.len(), room.values.len()]
    });
    let good = (good_tiles(), good_mask(), room([3, 2, 2]));
    in_order(
        &good,
        &all,
        |(t, m, room)| RestrictedFromAbtm(t, m, room),
        left,
    );
}

#[test]
fn refusals_of_a_local_list() {
    type Input = (Csr, Mask, Vec<u32>, CsrRoom);
    let all: Vec<Fault<Input>> = vec![
        fault(1, |input: &mut Input| input.0.ncols = PLACES_OVER),
        fault(1, |input: &mut Input| input.1.len = PLACES_OVER),
        fault(2, |input: &mut Input| input.0.row_ptr[0] = 1),
        fault(3, |input: &mut Input| input.0.col_idx[0] = 99),
        fault(4, |input: &mut Input| input.0.values[0] = INF),
        fault(5, |input: &mut Input| input.1.words.push(0)),
        fault(10, |input: &mut Input| alter(&mut input.0.ncols, 5)),
        fault_told((6, 4, 3), |input: &mut Input| alter(&mut input.1.len, 3)),
        fault(13, |input: &mut Input| shorten(&mut input.2)),
        fault(13, |input: &mut Input| shorten(&mut input.3.row_ptr)),
        fault(13, |input: &mut Input| shorten(&mut input.3.values)),
    ];
    let left = Left::Zeros(|input: &Input| {
        let (members, room) = (&input.2, &input.3);
        let lists = [room.row_ptr.len(), room.col_idx.len(), room.values.len()];
        [vec![members.len()], lists.to_vec()].concat()
    });
    let good = (square(), mask(4, &[5]), vec![9; 2], room([3, 4, 4]));
    let call = |(c, m, members, room)| LocalFromCsr32(c, m, members, room);
    in_order(&good, &all, call, left);
}

/// Document 01's worked row with 3 and 65 active: 3.5, two executed, two active words.
#[test]
fn the_answers_of_demand_three() {
    let c = csr(
        (1, 70),
        &[0, 4],
        &[(65, 2.0), (3, 1.0), (3, 0.5), (64, 4.0)],
    );
    let answers = |word: [u64; 2]| demand::answers(&c, &mask(70, &word), &[1.0; 70]);
    assert_eq!(answers([8, 2]), [(f(3.5), 2, 2)]);
    assert_eq!(answers([8, 0]), [(f(1.5), 1, 1)]);
    assert_eq!(answers([0, 0]), [(0, 0, 0)]);
    let cancelling = csr((1, 2), &[0, 3], &[(0, 1.0), (1, 2.0), (0, -1.0)]);
    assert!(!demand::no_active_zero(&cancelling, &mask(2, &[1])));
    assert!(demand::no_active_zero(&cancelling, &mask(2, &[2])));
}
