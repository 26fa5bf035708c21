//! Words of a matrix: questions to good and damaged records, and builds from plot lists.

use super::{HUGE, INF, MOST, NAN, ONES, csr, records, words, words_room, words_rooms};
use crate::make::words_of;
use calls::{Call, Csr, Words, WordsRoom};

pub fn calls() -> Vec<Call> {
    let mut all = Vec::new();
    rows(&mut all, &records::good());
    for w in records::all() {
        handed(&mut all, &w);
    }
    every_place(&mut all);
    for c in good_lists() {
        builds(&mut all, &c);
    }
    for c in refused_lists() {
        refused(&mut all, &c);
    }
    all
}

/// The questions to a row, at columns around words and around the column count, and at ordinals around the number of ones.
fn row(all: &mut Vec<Call>, w: &Words, row: usize) {
    all.push(Call::TopologyRowWords(w.clone(), row));
    all.push(Call::TopologyRowNonemptyWords(w.clone(), row));
    all.push(Call::TopologyRowPopcount(w.clone(), row));
    let n = w.ncols;
    let ends = [n.saturating_sub(1), n, n.saturating_add(1), HUGE];
    for col in [0, 4, 63, 64, 65, 128].into_iter().chain(ends) {
        all.push(Call::TopologyRowContains(w.clone(), row, col));
        all.push(Call::TopologyRowRank(w.clone(), row, col));
    }
    for ordinal in [0, 1, 2, 3, 4, 5, 31, 63, 64, HUGE] {
        all.push(Call::TopologyRowSelect(w.clone(), row, ordinal));
    }
}

/// Every row of a record, and 7 for the rows past the last.
fn rows(all: &mut Vec<Call>, w: &Words) {
    all.push(Call::TopologyCheck(w.clone()));
    all.push(Call::TopologyStats(w.clone()));
    for at in (0..=w.nrows).chain([HUGE]) {
        row(all, w, at);
    }
}

/// Each call on a record that is handed in; 1 and 11 come before the 7 of a row or of a rank's column.
fn handed(all: &mut Vec<Call>, w: &Words) {
    all.push(Call::TopologyCheck(w.clone()));
    all.push(Call::TopologyStats(w.clone()));
    for row in [2, HUGE] {
        all.push(Call::TopologyRowWords(w.clone(), row));
        all.push(Call::TopologyRowNonemptyWords(w.clone(), row));
        all.push(Call::TopologyRowPopcount(w.clone(), row));
        all.push(Call::TopologyRowContains(w.clone(), row, 64));
        all.push(Call::TopologyRowRank(w.clone(), row, 150));
        all.push(Call::TopologyRowRank(w.clone(), row, HUGE));
        all.push(Call::TopologyRowSelect(w.clone(), row, 1));
    }
}

/// Three words of 130 columns, the last with two, in five rows: full, empty, alternating, the ends of words, mixed. Every column
/// up to one past the column count, which a rank refuses, and every ordinal up to as many.
fn every_place(all: &mut Vec<Call>) {
    let masks = [
        ONES,
        ONES,
        3,
        0xaaaa_aaaa_aaaa_aaaa,
        0x5555_5555_5555_5555,
        1,
        0x8000_0000_0000_0001,
        0x8000_0000_0000_0001,
        2,
        0x0123_4567_89ab_cdef,
        0x9e37_79b9_7f4a_7c15,
        2,
    ];
    let numbers = [0, 1, 2].repeat(4);
    let w = words(5, 130, &[0, 3, 3, 6, 9, 12], &numbers, &masks);
    all.push(Call::TopologyCheck(w.clone()));
    all.push(Call::TopologyStats(w.clone()));
    for row in 0..5 {
        for place in 0..132 {
            all.push(Call::TopologyRowContains(w.clone(), row, place));
            all.push(Call::TopologyRowRank(w.clone(), row, place));
            all.push(Call::TopologyRowSelect(w.clone(), row, place));
        }
    }
}

/// Document 01's row, its cancelling column and an empty row; rows unsorted, repeated and empty, zeros of both signs, columns at
/// the ends of words, in frames of three widths; no rows, columns or entries; one column; the first and the last column of all.
fn good_lists() -> Vec<Csr> {
    let values = [2.0, 1.0, 0.5, 4.0, 1.0, -1.0];
    let ptr = [0, 0, 5, 5, 9, 11];
    let cols = [199, 0, 63, 199, 64, 128, 127, 128, 192, 64, 64];
    let mixed = [
        0.0, -0.0, 1.0, 2.0, -3.0, 0.0, 0.0, 0.0, 5e-324, 1e308, -1e308,
    ];
    let far = [1_048_575, 0, 1_048_575];
    vec![
        csr(1, 70, &[0, 4], &[65, 3, 3, 64], &values[..4]),
        csr(3, 70, &[0, 4, 4, 6], &[65, 3, 3, 64, 5, 5], &values),
        csr(5, 200, &ptr, &cols, &mixed),
        csr(5, 256, &ptr, &cols, &mixed),
        csr(5, MOST, &ptr, &cols, &mixed),
        csr(0, 0, &[0], &[], &[]),
        csr(0, 70, &[0], &[], &[]),
        csr(3, 0, &[0; 4], &[], &[]),
        csr(3, 70, &[0; 4], &[], &[]),
        csr(1, 1, &[0, 3], &[0; 3], &[1.0; 3]),
        csr(1, MOST, &[0, 3], &far, &[1.0; 3]),
    ]
}

/// The build into lists of each length, and the questions to what it makes.
fn builds(all: &mut Vec<Call>, c: &Csr) {
    let w = words_of(model::judge, c).expect("a good plot list");
    for room in words_rooms(c.nrows + 1, w.masks.len()) {
        all.push(Call::TopologyFromCsr32(c.clone(), room));
    }
    rows(all, &w);
}

/// Lists long enough, no pointers, no words and masks: the refusals of the plot list come before 13.
fn refused(all: &mut Vec<Call>, c: &Csr) {
    let rooms: [WordsRoom; 3] = [
        words_room(8, 7, 6),
        words_room(0, 7, 6),
        words_room(8, 0, 0),
    ];
    all.extend(rooms.map(|room| Call::TopologyFromCsr32(c.clone(), room)));
}

/// Plot lists refused by 1, 2, 3 and 4, alone and together; the first is good.
fn refused_lists() -> Vec<Csr> {
    let (good, fall) = (&[0, 2, 2, 4][..], &[0, 2, 1, 4][..]);
    let list = |nrows, ncols, ptr: &[u32], place: usize, value: f64| {
        let mut c = csr(nrows, ncols, ptr, &[65, 3, 3, 64], &[2.0, 1.0, 0.5, 4.0]);
        c.values[place] = value;
        c
    };
    let mut outside = list(3, MOST + 1, fall, 2, INF);
    outside.col_idx[2] = 1_048_577;
    let mut unequal = list(3, 70, good, 0, 2.0);
    unequal.values.pop();
    vec![
        list(3, 70, good, 0, 2.0),
        list(MOST + 1, 70, good, 0, 2.0),
        list(HUGE, 70, good, 0, 2.0),
        list(3, MOST + 1, good, 0, 2.0),
        list(3, HUGE, good, 0, 2.0),
        outside,
        list(3, MOST + 1, good, 2, INF),
        list(3, 70, &[0, 2, 4], 0, 2.0),
        list(3, 70, &[0, 2, 2, 4, 4], 0, 2.0),
        list(3, 70, &[1, 2, 2, 4], 0, 2.0),
        list(3, 70, &[0, 2, 2, 3], 0, 2.0),
        list(3, 70, fall, 0, 2.0),
        unequal,
        list(3, 65, good, 0, 2.0),
        list(3, 70, good, 2, NAN),
        list(3, 70, good, 3, INF),
        list(3, 70, good, 0, -INF),
        list(3, 65, fall, 2, NAN),
        list(3, 70, fall, 2, NAN),
        list(3, 65, good, 2, NAN),
    ]
}
