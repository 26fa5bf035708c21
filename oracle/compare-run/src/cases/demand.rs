//! Demand 3 as recorded calls: for each matrix of some pairs the calls of all three routes, each handed the used part of what the
//! call before it left in its lists.

use crate::demand::{Pair, pair};
use crate::make::store_of;
use crate::restricted::{made, mask_of, room};
use crate::rng::Rng;
use crate::tiles::tiles_of;
use calls::{Call, Csr, Mask};

const PAIRS: u64 = 12;

pub fn calls() -> Vec<Call> {
    let mut all = Vec::new();
    for seed in 1..=PAIRS {
        let pair = pair(&mut Rng::new(seed));
        for n in 0..2 {
            routes(&mut all, &pair, n);
        }
    }
    all
}

/// The dots; the dots of the restricted list with every column active; the products of the list restricted from tiles.
fn routes(all: &mut Vec<Call>, pair: &Pair, n: usize) {
    let (c, x) = (&pair.matrices[n], &pair.vectors[n]);
    dots(all, c, &pair.active, x);
    let entries = c.col_idx.len();
    let lists = room([c.nrows + 1, entries, entries]);
    let cut = Call::RestrictedFromCsr32(c.clone(), pair.active.clone(), lists);
    let kept = made(&model::judge(&cut)).expect("a good plot list and mask");
    all.push(cut);
    let every = mask_of(c.ncols, 0..c.ncols);
    dots(all, &kept, &every, x);
    let tiles = tiles_of(model::judge, c, pair.thresholds).expect("a good plot list");
    let lists = room([c.nrows + 1, tiles.matrix_nnz, tiles.matrix_nnz]);
    let cut = Call::RestrictedFromAbtm(tiles, pair.active.clone(), lists);
    let kept = made(&model::judge(&cut)).expect("no active value is infinite");
    all.push(cut);
    all.push(Call::Csr32Apply(kept, x.clone(), vec![7.5; c.nrows]));
}

fn dots(all: &mut Vec<Call>, c: &Csr, active: &Mask, x: &[f64]) {
    let store = store_of(model::judge, c).expect("accepted for packing");
    for row in 0..c.nrows {
        let (active, x) = (active.clone(), x.to_vec());
        all.push(Call::MetadataFirstSparseDotRow(
            store.clone(),
            row,
            active,
            x,
        ));
    }
}
