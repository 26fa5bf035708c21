//! Calls to tiles.

pub mod edge;
pub mod exhaustive;
pub mod random;
pub mod shrink;

use calls::{Call, Csr, Tiles, TilesRoom};

use crate::make::Judge;

pub const SPARSE: u32 = 0;
pub const BITMAP: u32 = 1 << 30;
pub const DENSE: u32 = 2 << 30;

/// Lent lists of these lengths, which hold something else: pointers, masks, offsets, metas, values.
pub fn room(lengths: [usize; 5]) -> TilesRoom {
    let [row_tile_ptr, masks, value_offsets, metas, values] = lengths;
    TilesRoom {
        row_tile_ptr: vec![7; row_tile_ptr],
        masks: vec![7; masks],
        value_offsets: vec![7; value_offsets],
        metas: vec![7; metas],
        values: vec![7.0; values],
    }
}

/// The lengths that the lists of these tiles have.
pub fn lengths(t: &Tiles) -> [usize; 5] {
    let n = t.masks.len();
    [t.row_tile_ptr.len(), n, n, n, t.values.len()]
}

/// The tiles of a plot list; None where the judge refuses it.
pub fn tiles_of(judge: Judge, c: &Csr, (sparse, dense): (u8, u8)) -> Option<Tiles> {
    let n = c.col_idx.len();
    let words = n.min(c.nrows.saturating_mul(c.ncols.div_ceil(64)));
    // A Dense tile takes 64 places, of at least `dense` entries; any other tile takes a place for each entry.
    let slots = words.min(n / usize::from(dense.max(1))) * 64 + n;
    let room = room([c.row_ptr.len(), words, words, words, slots]);
    let made = judge(&Call::AbtmFromCsr32(c.clone(), sparse, dense, room));
    if made.number != 0 {
        return None;
    }
    let [tiles, slots, matrix_nnz] = [0, 1, 2].map(|field| made.result[field] as usize);
    let narrow = |list: usize, n: usize| made.lists[list][..n].iter().map(|&v| v as u32).collect();
    let values = made.lists[4][..slots].iter();
    Some(Tiles {
        nrows: c.nrows,
        ncols: c.ncols,
        row_tile_ptr: narrow(0, c.nrows + 1),
        masks: made.lists[1][..tiles].to_vec(),
        value_offsets: narrow(2, tiles),
        metas: narrow(3, tiles),
        values: values.map(|&v| f64::from_bits(v)).collect(),
        matrix_nnz,
    })
}

/// One tile: its meta, its mask, and the value of each present column, ascending.
#[derive(Clone)]
pub struct Tile {
    pub meta: u32,
    pub mask: u64,
    pub present: Vec<f64>,
}

impl Tile {
    fn offsets(&self) -> impl Iterator<Item = usize> {
        let mask = self.mask;
        (0..64).filter(move |offset| mask >> offset & 1 == 1)
    }

    /// The slots: 64 of a Dense tile, one for each present column of another.
    fn slots(&self) -> Vec<f64> {
        if self.meta >> 30 != 2 {
            return self.present.clone();
        }
        let mut slots = vec![0.0; 64];
        for (offset, &value) in self.offsets().zip(&self.present) {
            slots[offset] = value;
        }
        slots
    }
}

/// The lists of these rows of tiles, as the rules ask for them.
pub fn listed(ncols: usize, rows: &[Vec<Tile>]) -> Tiles {
    let mut t = Tiles {
        nrows: rows.len(),
        ncols,
        row_tile_ptr: vec![0],
        masks: vec![],
        value_offsets: vec![],
        metas: vec![],
        values: vec![],
        matrix_nnz: 0,
    };
    for row in rows {
        for tile in row {
            t.masks.push(tile.mask);
            t.metas.push(tile.meta);
            t.value_offsets.push(t.values.len() as u32);
            t.values.extend(tile.slots());
            t.matrix_nnz += tile.mask.count_ones() as usize;
        }
        t.row_tile_ptr.push(t.masks.len() as u32);
    }
    t
}

/// The tiles of each row; None where the lists don't lead to them.
pub fn rows_of(t: &Tiles) -> Option<Vec<Vec<Tile>>> {
    let n = t.masks.len();
    let framed = t.row_tile_ptr.len() == t.nrows.checked_add(1)?
        && t.row_tile_ptr.iter().all(|&p| p as usize <= n)
        && t.row_tile_ptr.is_sorted()
        && (t.metas.len(), t.value_offsets.len()) == (n, n);
    if !framed {
        return None;
    }
    let ends = t.row_tile_ptr.windows(2);
    ends.map(|ends| {
        let places = ends[0] as usize..ends[1] as usize;
        places.map(|place| tile_at(t, place)).collect()
    })
    .collect()
}

fn tile_at(t: &Tiles, place: usize) -> Option<Tile> {
    let mut tile = Tile {
        meta: t.metas[place],
        mask: t.masks[place],
        present: vec![],
    };
    let first = t.value_offsets[place] as usize;
    let dense = tile.meta >> 30 == 2;
    for (nth, offset) in tile.clone().offsets().enumerate() {
        let slot = if dense { offset } else { nth };
        tile.present.push(*t.values.get(first + slot)?);
    }
    Some(tile)
}
