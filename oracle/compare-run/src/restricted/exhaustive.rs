//! All inputs of restricted and local lists of tiny shapes.

use super::{mask_of, room};
use crate::Sink;
use crate::exhaustive::{COUNTS, Share, lists, patterns, tiny_masks};
use crate::make::Judge;
use crate::tiles::tiles_of;
use calls::{Call, Csr, Mask};

pub fn all(sink: &mut impl Sink, judge: Judge, share: &mut Share) {
    figures(sink, share);
    members(sink, share);
    small_patterns(sink, judge, share);
    rooms(sink, judge, share);
    entry_sequences(sink, judge, share);
    regions(sink, share);
}

fn figures(sink: &mut impl Sink, share: &mut Share) {
    let twelfths = COUNTS.map(|n| n / 12);
    let fourths = COUNTS.map(|n| n / 4);
    for a in COUNTS.into_iter().chain(fourths).chain(4..20) {
        for b in COUNTS.into_iter().chain(twelfths).chain(4..20) {
            if share.mine() {
                sink.call(&Call::RestrictedRetainedFraction(a, b));
                sink.call(&Call::LocalBoundaryPruningRatio(a, b));
                sink.call(&Call::LocalStorageBytes(a, b));
                for ncols in [0, 1, 63, 64, 65, 129, usize::MAX - 63, usize::MAX] {
                    sink.call(&Call::RestrictedStorageBytes(a, ncols, b));
                }
            }
        }
    }
}

/// Every list of up to 4 members among the first five numbers, for sizes up to 5, and what is gathered.
fn members(sink: &mut impl Sink, share: &mut Share) {
    for list in lists(&[0, 1, 2, 3, 4], 4)
        .into_iter()
        .filter(|_| share.mine())
    {
        for size in 0..=5 {
            sink.call(&Call::LocalCheck(size, list.clone()));
            for (more, room) in [(0, 0), (1, 0), (0, 1)] {
                let global = (0..size + more).map(|n| 0.1 + n as f64).collect();
                let local = vec![7.0; list.len() + room];
                sink.call(&Call::LocalGatherInput(size, list.clone(), global, local));
            }
        }
    }
}

/// Plot lists of up to 2 rows and 3 columns and their tiles, under all masks, those with a bit too many or another length among
/// them.
fn small_patterns(sink: &mut impl Sink, judge: Judge, share: &mut Share) {
    for c in patterns(&[1.0, -0.0]).filter(|_| share.mine()) {
        let tiles = [(1, 2), (2, 3)]
            .map(|thresholds| tiles_of(judge, &c, thresholds).expect("a good plot list"));
        for m in tiny_masks(3) {
            let room = room([c.nrows + 1, 6, 6]);
            let call = Call::RestrictedFromCsr32(c.clone(), m.clone(), room.clone());
            sink.call(&call);
            for t in &tiles {
                let call = Call::RestrictedFromAbtm(t.clone(), m.clone(), room.clone());
                sink.call(&call);
            }
            let call = Call::LocalFromCsr32(c.clone(), m, vec![7; 3], room);
            sink.call(&call);
        }
    }
}

/// Every list one short, exact and one longer, in all combinations.
fn rooms(sink: &mut impl Sink, judge: Judge, share: &mut Share) {
    let c = Csr {
        nrows: 66,
        ncols: 66,
        row_ptr: [0, 4].into_iter().chain([4; 64]).chain([6]).collect(),
        col_idx: vec![65, 3, 3, 64, 65, 0],
        values: vec![2.0, 1.0, -0.0, 4.0, 5.0, 6.0],
    };
    let t = tiles_of(judge, &c, (1, 2)).expect("a good plot list");
    let m = mask_of(66, [0, 3, 65]);
    for number in (0..81).filter(|_| share.mine()) {
        let length = |place: u32, needed: usize| needed + number / 3usize.pow(place) % 3 - 1;
        let exact = room([length(0, 67), length(1, 5), length(2, 5)]);
        sink.call(&Call::RestrictedFromCsr32(c.clone(), m.clone(), exact));
        let exact = room([length(0, 67), length(1, 4), length(2, 4)]);
        sink.call(&Call::RestrictedFromAbtm(t.clone(), m.clone(), exact));
        let exact = room([length(0, 4), length(1, 5), length(2, 5)]);
        let members = vec![7; length(3, 3)];
        sink.call(&Call::LocalFromCsr32(c.clone(), m.clone(), members, exact));
    }
}

/// One row of up to 3 entries in 3 columns, in every order and with every number of copies, under all masks; its tiles too, which
/// may hold an infinite value.
fn entry_sequences(sink: &mut impl Sink, judge: Judge, share: &mut Share) {
    let values = [1.0, -0.0, f64::MAX];
    let entries: Vec<(u32, f64)> = values
        .iter()
        .flat_map(|&v| [(0, v), (1, v), (2, v)])
        .collect();
    for list in lists(&entries, 3).into_iter().filter(|_| share.mine()) {
        let c = Csr {
            nrows: 1,
            ncols: 3,
            row_ptr: vec![0, list.len() as u32],
            col_idx: list.iter().map(|e| e.0).collect(),
            values: list.iter().map(|e| e.1).collect(),
        };
        let tiles = [(1, 2), (2, 3)]
            .map(|thresholds| tiles_of(judge, &c, thresholds).expect("a good plot list"));
        for word in 0..8 {
            let m = Mask {
                len: 3,
                words: vec![word],
            };
            let room = room([2, 3, 3]);
            let call = Call::RestrictedFromCsr32(c.clone(), m.clone(), room.clone());
            sink.call(&call);
            for t in &tiles {
                let call = Call::RestrictedFromAbtm(t.clone(), m.clone(), room.clone());
                sink.call(&call);
            }
        }
    }
}

/// Squares of 3 with nothing, one entry or two in a place, under all regions.
fn regions(sink: &mut impl Sink, share: &mut Share) {
    for number in (0..512u32).filter(|_| share.mine()) {
        let mut c = Csr {
            nrows: 3,
            ncols: 3,
            row_ptr: vec![0],
            col_idx: vec![],
            values: vec![],
        };
        for row in 0..3 {
            for col in (0..3)
                .rev()
                .filter(|col| number >> (row * 3 + col) & 1 == 1)
            {
                c.col_idx.push(col);
                c.values.push((10 * row + col) as f64 + 0.1);
            }
            c.row_ptr.push(c.col_idx.len() as u32);
        }
        for word in 0..8 {
            let m = Mask {
                len: 3,
                words: vec![word],
            };
            let call = Call::LocalFromCsr32(c.clone(), m, vec![7; 3], room([4, 9, 9]));
            sink.call(&call);
        }
    }
}
