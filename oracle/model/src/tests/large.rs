//! The edges of the domain.

use super::faults::{Left, fault, in_order};
use super::{accepted, accepted_with, csr, f, mask, store_room, words, words_room};
use crate::judge;
use calls::Call::*;
use calls::{Csr, Mask, Store, Words};

const PLACES: usize = 1 << 20;
const STORED: usize = 1 << 24;

#[test]
fn the_longest_mask() {
    let mut full = mask(PLACES, &vec![u64::MAX; PLACES / 64]);
    accepted(MaskCountOnes(full.clone()), [PLACES as u64]);
    full.words[0] = 0;
    let faults = [fault(1, |m: &mut Mask| {
        m.len += 1;
        m.words.push(0);
    })];
    in_order(&full, &faults, MaskCheck, Left::Nothing);
    accepted(MaskContains(full.clone(), 63), [0]);
    accepted(MaskContains(full, PLACES - 1), [1]);
}

#[test]
fn the_most_rows_and_columns() {
    let mut row_ptr = vec![0; PLACES + 1];
    row_ptr[PLACES] = 1;
    let list = csr((PLACES, PLACES), &row_ptr, &[(PLACES as u32 - 1, 1.0)]);
    let faults = [
        fault(1, |c: &mut Csr| c.ncols += 1),
        fault(1, |c: &mut Csr| {
            c.nrows += 1;
            c.row_ptr.push(1);
        }),
    ];
    in_order(&list, &faults, Csr32Check, Left::Nothing);
    let made = judge(&TopologyFromCsr32(list, words_room(PLACES + 1, 1, 1)));
    assert_eq!((made.number, made.result), (0, vec![1, 1]));
    assert_eq!(
        made.lists[1..],
        [vec![PLACES as u64 / 64 - 1], vec![1 << 63]]
    );
}

#[test]
fn the_most_entries() {
    let list = Csr {
        nrows: 1,
        ncols: 1,
        row_ptr: vec![0, STORED as u32],
        col_idx: vec![0; STORED],
        values: vec![1.0; STORED],
    };
    accepted(Csr32Check(list.clone()), []);
    let room = store_room(words_room(2, 1, 1), 2, 1);
    let sum = f(16_777_216.0);
    let lists: [&[u64]; 5] = [&[0, 1], &[0], &[1], &[0, 1], &[sum]];
    accepted_with(MetadataFirstFromCsr32(list, room), [1, 1], lists);
}

#[test]
fn entries_over_the_domain() {
    let good = csr((1, 1), &[0, 0], &[]);
    let faults = [
        fault(1, |c: &mut Csr| c.col_idx = vec![0; STORED + 1]),
        fault(1, |c: &mut Csr| c.values = vec![0.0; STORED + 1]),
        fault(2, |c: &mut Csr| c.col_idx = vec![0; STORED]),
        fault(2, |c: &mut Csr| c.values = vec![0.0; STORED]),
    ];
    for fault in faults {
        in_order(&good, &[fault], Csr32Check, Left::Nothing);
    }
}

#[test]
fn words_and_values_over_the_domain() {
    let good = Store {
        words: words((1, 1), &[0, 0], &[]),
        row_value_ptr: vec![0, 0],
        values: vec![],
    };
    let faults = [
        fault(1, |s: &mut Store| {
            s.words.word_indices = vec![0; STORED + 1]
        }),
        fault(1, |s: &mut Store| s.words.masks = vec![0; STORED + 1]),
        fault(1, |s: &mut Store| s.values = vec![0.0; STORED + 1]),
        fault(11, |s: &mut Store| s.words.word_indices = vec![0; STORED]),
        fault(11, |s: &mut Store| s.words.masks = vec![0; STORED]),
        fault(12, |s: &mut Store| s.values = vec![0.0; STORED]),
    ];
    for fault in faults {
        in_order(&good, &[fault], MetadataFirstCheck, Left::Nothing);
    }
}

/// Every second word of each row of 2^20 columns, from the first or the second on, with its lowest bit.
fn half_words(nrows: usize, first: u32) -> Words {
    let row = || (first..(PLACES / 64) as u32).step_by(2);
    let count = row().len();
    Words {
        nrows,
        ncols: PLACES,
        row_word_ptr: (0..=nrows).map(|r| (r * count) as u32).collect(),
        word_indices: (0..nrows).flat_map(|_| row()).collect(),
        masks: vec![1; nrows * count],
        structural_nnz: nrows * count,
    }
}

#[test]
#[cfg_attr(
    debug_assertions,
    ignore = "slow without optimisation: run with --release"
)]
fn a_union_of_more_words_than_the_domain() {
    // 1,024 rows of 16,384 words are 2^24 words; with one row more it is 1, before 13.
    for (nrows, number) in [(1024, 13), (1025, 1)] {
        let (even, odd) = (half_words(nrows, 0), half_words(nrows, 1));
        let outcome = judge(&TopologyUnion(even, odd, words_room(2, 1, 0)));
        assert_eq!((outcome.number, outcome.result), (number, vec![0, 0]));
        assert_eq!(outcome.lists, [vec![0; 2], vec![0], vec![]]);
    }
}
