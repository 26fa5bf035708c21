//! All inputs of tiles of tiny shapes.

use super::{BITMAP, DENSE, SPARSE, Tile, lengths, listed, room, tiles_of};
use crate::Sink;
use crate::exhaustive::{COUNTS, Share, lists, patterns};
use crate::make::Judge;
use calls::{Call, Csr, Mask, Tiles};

pub fn all(sink: &mut impl Sink, judge: Judge, share: &mut Share) {
    by_value(sink, share);
    figures(sink, share);
    counts(sink, share);
    rooms(sink, judge, share);
    entry_sequences(sink, share);
    small_patterns(sink, judge, share);
    two_tiles(sink, share);
    slots(sink, share);
}

fn by_value(sink: &mut impl Sink, share: &mut Share) {
    for sparse in (0..=66).chain([127, 128, 255]) {
        for dense in (0..=66).chain([127, 128, 255]) {
            if share.mine() {
                sink.call(&Call::AbtmValidate(sparse, dense));
            }
        }
    }
    let most = (1 << 30) - 1;
    for word in (0..300).chain([1 << 14, (1 << 26) - 1, 1 << 26, most - 1, most]) {
        for kind in (0..4).filter(|_| share.mine()) {
            let meta = word + (kind << 30);
            sink.call(&Call::AbtmTileKind(meta));
            sink.call(&Call::AbtmTileBaseCol(meta));
        }
    }
}

fn figures(sink: &mut impl Sink, share: &mut Share) {
    let eighths = COUNTS.map(|n| n / 8);
    for a in COUNTS.into_iter().chain(4..40) {
        for b in COUNTS.into_iter().chain(eighths).chain(4..40) {
            if share.mine() {
                sink.call(&Call::AbtmMetadataBytesPerNnz(a, b));
                sink.call(&Call::AbtmTotalEstimatedBytes(a, b));
            }
        }
    }
}

/// One row with so many entries in its first word, and one in the next.
fn counted(n: usize) -> Csr {
    let col_idx: Vec<u32> = (0..n as u32).chain([64]).collect();
    Csr {
        nrows: 1,
        ncols: 65,
        row_ptr: vec![0, col_idx.len() as u32],
        values: (1..=col_idx.len()).map(|v| v as f64).collect(),
        col_idx,
    }
}

/// Counts on both sides of each threshold, and all counts for some thresholds.
fn counts(sink: &mut impl Sink, share: &mut Share) {
    for sparse in 1..64 {
        for dense in sparse + 1..=64 {
            if !share.mine() {
                continue;
            }
            let some = [sparse - 1, sparse, sparse + 1, dense - 1, dense, dense + 1];
            let all = [(1, 2), (4, 32), (8, 40), (63, 64)].contains(&(sparse, dense));
            let counts = if all {
                (0..=64).collect()
            } else {
                some.to_vec()
            };
            for count in counts.into_iter().filter(|&n| n <= 64) {
                let room = room([2, 2, 2, 2, 129]);
                let call = Call::AbtmFromCsr32(counted(count), sparse as u8, dense as u8, room);
                sink.call(&call);
            }
        }
    }
}

/// Every list one short, exact and one longer, in all combinations.
fn rooms(sink: &mut impl Sink, judge: Judge, share: &mut Share) {
    for thresholds in [(1, 2), (2, 4), (4, 32)] {
        let c = counted(3);
        let needed = tiles_of(judge, &c, thresholds).map(|t| lengths(&t));
        let needed = needed.expect("a good plot list");
        for number in (0..243).filter(|_| share.mine()) {
            let length = |place: usize| needed[place] + number / 3usize.pow(place as u32) % 3 - 1;
            let room = room([0, 1, 2, 3, 4].map(length));
            let (sparse, dense) = thresholds;
            sink.call(&Call::AbtmFromCsr32(c.clone(), sparse, dense, room));
        }
    }
}

/// One row of up to 4 entries in 2 columns, in every order and with every number of copies.
fn entry_sequences(sink: &mut impl Sink, share: &mut Share) {
    let values = [1.0, -1.0, 0.1, -0.0, f64::MAX];
    let entries: Vec<(u32, f64)> = values.iter().flat_map(|&v| [(0, v), (1, v)]).collect();
    for list in lists(&entries, 4).into_iter().filter(|_| share.mine()) {
        let c = Csr {
            nrows: 1,
            ncols: 2,
            row_ptr: vec![0, list.len() as u32],
            col_idx: list.iter().map(|e| e.0).collect(),
            values: list.iter().map(|e| e.1).collect(),
        };
        sink.call(&Call::AbtmFromCsr32(c.clone(), 1, 3, room([2, 1, 1, 1, 2])));
        sink.call(&Call::AbtmFromCsr32(c, 1, 2, room([2, 1, 1, 1, 64])));
    }
}

const FINITE_X: [f64; 3] = [0.3, -2.0, 1e308];
const WILD_X: [f64; 3] = [f64::INFINITY, -0.0, f64::NAN];

/// Plot lists of up to 2 rows and 3 columns under thresholds that make all kinds of them.
fn small_patterns(sink: &mut impl Sink, judge: Judge, share: &mut Share) {
    for c in patterns(&[1.0, -1.0, -0.0]).filter(|_| share.mine()) {
        for thresholds in [(1, 2), (1, 3), (2, 3)] {
            let (sparse, dense) = thresholds;
            let room = room([c.nrows + 1, 2, 2, 2, 65]);
            sink.call(&Call::AbtmFromCsr32(c.clone(), sparse, dense, room));
            let t = tiles_of(judge, &c, thresholds).expect("a good plot list");
            sink.call(&Call::AbtmCheck(t.clone()));
            sink.call(&Call::AbtmStats(t.clone()));
            for row in (0..=t.nrows).chain([usize::MAX]) {
                sink.call(&Call::AbtmRowTiles(t.clone(), row));
            }
            for x in [FINITE_X, WILD_X] {
                let (x, y) = (x[..t.ncols].to_vec(), vec![7.0; t.nrows]);
                sink.call(&Call::AbtmApply(t.clone(), x, y));
            }
            expansions(sink, &t);
        }
    }
}

/// The expansions of every mask, and of one that is too short; 10 where the tiles aren't square.
fn expansions(sink: &mut impl Sink, t: &Tiles) {
    let words = t.nrows.div_ceil(64);
    for word in 0..1 << t.nrows {
        let m = Mask {
            len: t.nrows,
            words: vec![word; words],
        };
        for room in words.saturating_sub(1)..=words + 1 {
            let call = Call::AbtmExpandMaskOneHop(t.clone(), m.clone(), vec![7; room]);
            sink.call(&call);
        }
    }
    let other = Mask {
        len: t.nrows + 1,
        words: vec![1],
    };
    sink.call(&Call::AbtmExpandMaskOneHop(t.clone(), other, vec![7]));
}

/// Two tiles of any masks and metas, most of them bad, in one or two rows.
fn two_tiles(sink: &mut impl Sink, share: &mut Share) {
    let metas = [SPARSE, BITMAP, DENSE, 3 << 30].map(|kind| [kind, kind + 1]);
    let tiles: Vec<Tile> = metas
        .concat()
        .iter()
        .flat_map(|&meta| (0..4).map(move |mask| tile(meta, mask)))
        .collect();
    for first in &tiles {
        for second in tiles.iter().filter(|_| share.mine()) {
            for ncols in [1, 2, 64, 65, 66] {
                let together = vec![vec![first.clone(), second.clone()]];
                let apart = vec![vec![first.clone()], vec![], vec![second.clone()]];
                let (one, three) = (listed(ncols, &together), listed(ncols, &apart));
                sink.call(&Call::AbtmStats(three));
                sink.call(&Call::AbtmCheck(one.clone()));
                damaged_lists(sink, &one);
            }
        }
    }
}

fn tile(meta: u32, mask: u64) -> Tile {
    let ones = mask.count_ones() as usize;
    Tile {
        meta,
        mask,
        present: vec![1.0; ones],
    }
}

/// The same with a wrong total, a wrong pointer, a gap, an overlap, and too few or too many values.
fn damaged_lists(sink: &mut impl Sink, t: &Tiles) {
    let changes: [fn(&mut Tiles); 7] = [
        |t| t.matrix_nnz += 1,
        |t| t.row_tile_ptr[1] = 1,
        |t| t.value_offsets[1] += 1,
        |t| t.value_offsets[1] = t.value_offsets[1].wrapping_sub(1),
        |t| t.value_offsets[0] = 1,
        |t| t.values.push(1.0),
        |t| t.values.truncate(t.values.len().saturating_sub(1)),
    ];
    for change in changes {
        let mut bad = t.clone();
        change(&mut bad);
        sink.call(&Call::AbtmCheck(bad));
    }
}

/// One tile of each kind and mask of three columns with each of these values in each place, and a Dense one with one of them in
/// any place.
fn slots(sink: &mut impl Sink, share: &mut Share) {
    let values = [1.0, 0.0, -0.0, f64::NAN, f64::INFINITY, -1.0];
    let fillings = lists(&values, 3);
    for mask in 1..8u64 {
        for kind in [SPARSE, BITMAP, DENSE] {
            let count = mask.count_ones() as usize;
            for present in fillings.iter().filter(|list| list.len() == count) {
                if share.mine() {
                    let present = present.clone();
                    let tile = Tile {
                        meta: kind,
                        mask,
                        present,
                    };
                    one_tile(sink, &listed(3, &[vec![tile]]));
                }
            }
        }
        for (place, value) in (0..64).flat_map(|place| values.map(|value| (place, value))) {
            if share.mine() {
                let mut t = listed(3, &[vec![tile(DENSE, mask)]]);
                t.values[place] = value;
                one_tile(sink, &t);
            }
        }
    }
}

fn one_tile(sink: &mut impl Sink, t: &Tiles) {
    sink.call(&Call::AbtmCheck(t.clone()));
    for x in [FINITE_X, WILD_X] {
        sink.call(&Call::AbtmApply(t.clone(), x.to_vec(), vec![7.0]));
    }
}
