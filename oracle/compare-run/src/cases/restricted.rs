//! Plot lists restricted to active columns, from CSR and from tiles: what is kept, each refusal in each of its ways, refusals that
//! compete, rooms, figures.

use super::tile_stores::{damaged as damaged_tiles, trial};
use super::{HUGE, INF, MOST, NAN, ONES, csr, mask, store_room};
use crate::restricted::{mask_of, room};
use crate::tiles::{BITMAP, DENSE, SPARSE, Tile, listed, room as tiles_room, tiles_of};
use calls::{Call, Csr, Mask, Tiles};

pub fn calls() -> Vec<Call> {
    let mut all = Vec::new();
    worked_largest_value_twice(&mut all);
    kept_entries(&mut all);
    kept_values(&mut all);
    infinite_values(&mut all);
    rooms(&mut all);
    masks(&mut all);
    damaged_lists(&mut all);
    several_faults(&mut all);
    shapes(&mut all);
    figures(&mut all);
    all
}

/// Document 01's worked plot: the largest finite value twice in one column: packing 4, tiles accept, restricting with it active 4,
/// inactive accepted. Restricting from CSR keeps both entries.
fn worked_largest_value_twice(all: &mut Vec<Call>) {
    let c = csr(1, 6, &[0, 2], &[5, 5], &[f64::MAX, f64::MAX]);
    let room_for_store = store_room([2, 1, 1, 2, 1]);
    all.push(Call::MetadataFirstFromCsr32(c.clone(), room_for_store));
    let lists = tiles_room([2, 1, 1, 1, 1]);
    all.push(Call::AbtmFromCsr32(c.clone(), 8, 40, lists));
    let t = tiles_of(model::judge, &c, (8, 40)).expect("tiles accept it");
    for active in [mask(6, &[32]), mask(6, &[31])] {
        all.push(from_abtm(&t, &active, [2, 2, 2]));
        all.push(from_csr32(&c, &active, [2, 2, 2]));
    }
}

fn from_csr32(c: &Csr, m: &Mask, lengths: [usize; 3]) -> Call {
    Call::RestrictedFromCsr32(c.clone(), m.clone(), room(lengths))
}

fn from_abtm(t: &Tiles, m: &Mask, lengths: [usize; 3]) -> Call {
    Call::RestrictedFromAbtm(t.clone(), m.clone(), room(lengths))
}

/// Three rows of 130 columns, the second empty, unsorted, columns 63, 64 and 129 among them, 3 and 129 twice.
fn plot_list() -> Csr {
    let cols = [129, 3, 64, 3, 63, 128, 0, 129, 129, 65];
    let values = [9.0, 1.0, 4.0, 0.5, -0.0, 8.0, 2.0, 0.1, -0.1, 6.0];
    csr(3, 130, &[0, 5, 5, 10], &cols, &values)
}

/// Masks of 130 columns with nothing, one column, every second, half, all but one, all.
fn masks_of_130() -> Vec<Mask> {
    let every = |n: usize| mask_of(130, (0..130).step_by(n));
    let some = [3, 63, 64, 128, 129].map(|col| mask_of(130, [col]));
    let all_but = [3, 64, 129].map(|col| mask_of(130, (0..130).filter(|&c| c != col)));
    let more = [
        every(1),
        every(2),
        every(64),
        mask_of(130, []),
        mask_of(130, 0..65),
    ];
    [some.to_vec(), all_but.to_vec(), more.to_vec()].concat()
}

/// What is kept of a plot list and of its tiles under three thresholds, which make all kinds of them.
fn kept_entries(all: &mut Vec<Call>) {
    let c = plot_list();
    for m in masks_of_130() {
        all.push(from_csr32(&c, &m, [4, 10, 10]));
        for thresholds in [(1, 2), (1, 3), (8, 40)] {
            let t = tiles_of(model::judge, &c, thresholds).expect("a good plot list");
            all.push(from_abtm(&t, &m, [4, 8, 8]));
        }
    }
}

/// From CSR zeros of either sign, subnormals and cancelling pairs are kept as they are; from tiles in ascending order.
fn kept_values(all: &mut Vec<Call>) {
    let values = [-0.0, 0.0, 5e-324, -5e-324, f64::MAX, f64::MIN, 1.0, -1.0];
    let c = csr(1, 66, &[0, 8], &[65, 0, 65, 0, 1, 1, 65, 64], &values);
    for word in [[ONES, 3], [1, 0], [2, 0], [0, 2], [0, 1], [0, 0]] {
        let m = mask(66, &word);
        all.push(from_csr32(&c, &m, [2, 8, 8]));
        let t = tiles_of(model::judge, &c, (1, 2)).expect("a good plot list");
        all.push(from_abtm(&t, &m, [2, 8, 8]));
    }
}

/// Infinite values in each kind of tile: 4 exactly where one is active.
fn infinite_values(all: &mut Vec<Call>) {
    for kind in [SPARSE, BITMAP, DENSE] {
        for present in [[1.0, INF, 2.0], [-INF, 1.0, 2.0], [1.0, 2.0, INF]] {
            let tile = Tile {
                meta: kind + 1,
                mask: 1 << 63 | 5,
                present: present.to_vec(),
            };
            let t = listed(130, &[vec![], vec![tile]]);
            for cols in [
                vec![64],
                vec![66],
                vec![127],
                vec![64, 66, 127],
                vec![65, 128],
            ] {
                let m = mask_of(130, cols);
                all.push(from_abtm(&t, &m, [3, 3, 3]));
                all.push(from_abtm(&t, &m, [3, 0, 0]));
            }
        }
    }
}

/// Lists just long enough, each one place short, each one longer, all longer, none.
fn rooms(all: &mut Vec<Call>) {
    let c = plot_list();
    let m = mask_of(130, [3, 64, 129]);
    let t = tiles_of(model::judge, &c, (1, 2)).expect("a good plot list");
    let mut both = |list: [usize; 3], tiles: [usize; 3]| {
        all.push(from_csr32(&c, &m, list));
        all.push(from_abtm(&t, &m, tiles));
    };
    let (list, tiles) = ([4, 6, 6], [4, 3, 3]);
    both(list, tiles);
    for place in 0..3 {
        for change in [-1, 1] {
            let (mut list, mut tiles) = (list, tiles);
            list[place] = list[place].strict_add_signed(change);
            tiles[place] = tiles[place].strict_add_signed(change);
            both(list, tiles);
        }
    }
    both([7, 9, 10], [7, 9, 10]);
    both([0, 0, 0], [0, 0, 0]);
}

/// 1 and 5 of the mask in each way, then 6, each before 13.
fn bad_masks() -> Vec<Mask> {
    vec![
        mask(MOST + 1, &[0, 0, 0]),
        mask(HUGE, &[]),
        mask(130, &[0, 0]),
        mask(130, &[0, 0, 0, 0]),
        mask(130, &[0, 0, 4]),
        mask(130, &[]),
        mask(129, &[0, 0, 1]),
        mask(131, &[0, 0, 7]),
        mask(0, &[]),
        mask(64, &[ONES]),
    ]
}

fn masks(all: &mut Vec<Call>) {
    let (c, t) = (plot_list(), trial());
    for m in bad_masks() {
        for lengths in [[4, 10, 10], [3, 0, 0]] {
            all.push(from_csr32(&c, &m, lengths));
            all.push(from_abtm(&t, &m, lengths));
        }
    }
}

/// Each refusal of the plot list and of the tiles.
fn damaged_lists(all: &mut Vec<Call>) {
    let changes: [fn(&mut Csr); 14] = [
        |c| c.nrows = MOST + 1,
        |c| c.ncols = HUGE,
        |c| c.row_ptr.truncate(3),
        |c| c.row_ptr.push(10),
        |c| c.row_ptr.clear(),
        |c| c.row_ptr[0] = 1,
        |c| c.row_ptr[1] = 6,
        |c| c.row_ptr[3] = 9,
        |c| c.values.truncate(9),
        |c| c.col_idx.truncate(9),
        |c| c.col_idx[3] = 130,
        |c| c.col_idx[9] = u32::MAX,
        |c| c.values[3] = NAN,
        |c| c.values[9] = -INF,
    ];
    let m = mask_of(130, (0..130).step_by(2));
    for change in changes {
        let mut c = plot_list();
        change(&mut c);
        all.push(from_csr32(&c, &m, [4, 10, 10]));
    }
    for t in damaged_tiles() {
        all.push(from_abtm(&t, &m, [4, 8, 8]));
    }
}

/// 1 of the mask before 2, 3, 4 and 12; these before 5 and 6; 5 before 6; 6 before 4 of an active infinity; 4 before 13.
fn several_faults(all: &mut Vec<Call>) {
    let (over, bad, long) = (mask(MOST + 1, &[]), mask(130, &[0]), mask(131, &[0, 0, 7]));
    let changes: [fn(&mut Csr); 3] = [
        |c| c.row_ptr[0] = 1,
        |c| c.col_idx[0] = 130,
        |c| c.values[0] = NAN,
    ];
    for change in changes {
        let mut c = plot_list();
        change(&mut c);
        for m in [&over, &bad, &long] {
            all.push(from_csr32(&c, m, [0, 0, 0]));
        }
    }
    let mut t = trial();
    for m in [&over, &bad, &long, &mask(130, &[ONES, ONES, 3])] {
        all.push(from_abtm(&t, m, [0, 0, 0]));
    }
    t.matrix_nnz += 1;
    for m in [&over, &bad, &long, &mask(130, &[ONES, ONES, 3])] {
        all.push(from_abtm(&t, m, [0, 0, 0]));
    }
}

/// No rows, no columns, no entries; the most columns.
fn shapes(all: &mut Vec<Call>) {
    for (nrows, ncols) in [(0, 0), (0, 70), (2, 0), (2, 70)] {
        let c = csr(nrows, ncols, &vec![0; nrows + 1], &[], &[]);
        let t = listed(ncols, &vec![vec![]; nrows]);
        let m = mask_of(ncols, 0..ncols);
        for lengths in [[nrows + 1, 0, 0], [nrows + 2, 1, 1], [nrows, 0, 0]] {
            all.push(from_csr32(&c, &m, lengths));
            all.push(from_abtm(&t, &m, lengths));
        }
    }
    let c = csr(1, 4096, &[0, 3], &[4095, 0, 4032], &[1.0, 2.0, 3.0]);
    let t = tiles_of(model::judge, &c, (1, 2)).expect("a good plot list");
    for cols in [vec![4095], vec![0, 4032], vec![4094]] {
        let m = mask_of(4096, cols);
        all.push(from_csr32(&c, &m, [2, 3, 3]));
        all.push(from_abtm(&t, &m, [2, 3, 3]));
    }
}

/// Fractions of nothing, of thirds, of counts that an f64 rounds; bytes at and past the largest.
fn figures(all: &mut Vec<Call>) {
    let counts = [0, 1, 2, 3, 10, (1 << 53) + 1, HUGE - 1, HUGE];
    for a in counts {
        for b in counts {
            all.push(Call::RestrictedRetainedFraction(a, b));
        }
    }
    for n in [0, 1, 63, 64, 65, 129, MOST, HUGE - 63, HUGE - 62, HUGE] {
        all.push(Call::RestrictedStorageBytes(3, n, 5));
        all.push(Call::RestrictedStorageBytes(n, 130, 0));
        all.push(Call::RestrictedStorageBytes(0, 0, n));
    }
    for n in [HUGE / 4 - 1, HUGE / 4, HUGE / 4 + 1] {
        all.push(Call::RestrictedStorageBytes(n, 0, 0));
        all.push(Call::RestrictedStorageBytes(n, 1, 1));
    }
    for n in [HUGE / 12 - 1, HUGE / 12, HUGE / 12 + 1] {
        all.push(Call::RestrictedStorageBytes(0, 0, n));
        all.push(Call::RestrictedStorageBytes(1, 64, n));
    }
}
