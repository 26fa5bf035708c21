//! The Rust's tiles. Tiles that are handed in are made from a plot list with the same columns and values, under thresholds that
//! give the same kinds; the Rust's object must then show the same tiles.

use super::{
    Made, Reason, accepted, csr_of, csr_within, filled, mask_of, mask_within, numbers, ones,
    refused, restricted, same_bits, told, with_lists, within, zeros,
};
use calls::{Call, Csr, Mask, Outcome, Tiles, TilesRoom, bits};
use hybit_core::{HybitError, LinearOperator};
use hybit_matrix::{AbtmConfig, AbtmMatrix, AbtmStats, Csr32Matrix, TileDesc};
use std::cell::RefCell;
use std::rc::Rc;

/// What the Rust makes of a call to tiles.
pub fn judge(call: &Call) -> Result<Outcome, Reason> {
    use Call::*;
    match call {
        AbtmValidate(sparse, dense) => validate(*sparse, *dense),
        AbtmCheck(t) => {
            tiles_within(t)?;
            tiles_of(t).map(|_| accepted(vec![]))
        }
        AbtmFromCsr32(c, sparse, dense, room) => from_csr32(c, config(*sparse, *dense), room),
        AbtmTileKind(meta) => tile_kind(*meta),
        AbtmTileBaseCol(meta) => tile_base_col(*meta),
        AbtmRowTiles(t, row) => row_tiles(t, *row),
        AbtmStats(t) => stats(t),
        AbtmMetadataBytesPerNnz(bytes, nnz) => {
            let ratio = figures(*bytes, *nnz, 0).metadata_bytes_per_nnz();
            Ok(accepted(vec![bits(ratio)]))
        }
        AbtmTotalEstimatedBytes(bytes, slots) => total_estimated_bytes(*bytes, *slots),
        AbtmApply(t, x, y) => apply(t, x, y),
        AbtmExpandMaskOneHop(t, m, room) => expand_mask_one_hop(t, m, room.len()),
        _ => restricted::judge(call),
    }
}

fn config(sparse_max_nnz: u8, dense_min_nnz: u8) -> AbtmConfig {
    AbtmConfig {
        sparse_max_nnz,
        dense_min_nnz,
    }
}

pub fn tiles_within(t: &Tiles) -> Result<(), Reason> {
    let lists = [t.masks.len(), t.value_offsets.len(), t.metas.len()];
    within(&[t.nrows, t.ncols], &lists)
}

/// The Rust validates thresholds in a build alone: here of an empty plot list.
fn validate(sparse: u8, dense: u8) -> Result<Outcome, Reason> {
    let made = Csr32Matrix::new(0, 0, vec![0], vec![], vec![])
        .and_then(|csr| AbtmMatrix::from_csr32(&csr, config(sparse, dense)));
    Ok(told(made.map(|_| vec![]), 0))
}

/// The Rust's number of a tile's kind, and its meta by what it shows.
fn meta(tile: &TileDesc) -> u32 {
    (tile.base_col() / 64) as u32 | (tile.kind() as u32) << 30
}

/// The tiles' lists, from the rows, in the order of the C interface.
fn lists(m: &AbtmMatrix) -> [Vec<u64>; 5] {
    let mut ptr = vec![0];
    let (mut masks, mut offsets, mut metas) = (vec![], vec![], vec![]);
    for row in 0..m.rows() {
        for tile in m.row_tiles(row).expect("a row below the row count") {
            masks.push(tile.mask);
            offsets.push(tile.value_offset.into());
            metas.push(meta(tile).into());
        }
        ptr.push(masks.len() as u64);
    }
    [ptr, masks, offsets, metas, numbers(m.values())]
}

/// Whether the Rust's object has the same lists, the values by their bits.
fn shows(m: &AbtmMatrix, t: &Tiles) -> bool {
    let stats = m.stats();
    let figures = [stats.nrows, stats.ncols, stats.matrix_nnz, stats.tiles];
    figures == [t.nrows, t.ncols, t.matrix_nnz, t.masks.len()]
        && same_bits(m.values(), &t.values)
        && (0..t.nrows).all(|row| shows_row(m, t, row))
}

/// The row's tiles stand between its pointers, which `plot_list` has looked at.
fn shows_row(m: &AbtmMatrix, t: &Tiles, row: usize) -> bool {
    let places = t.row_tile_ptr[row] as usize..t.row_tile_ptr[row + 1] as usize;
    let tiles = m.row_tiles(row).expect("a row below the row count");
    let same = |(place, tile): (usize, &TileDesc)| {
        (tile.mask, tile.value_offset) == (t.masks[place], t.value_offsets[place])
            && meta(tile) == t.metas[place]
    };
    places.len() == tiles.len() && places.zip(tiles).all(same)
}

/// Thresholds under which each tile has its kind by its count.
fn thresholds(t: &Tiles) -> Option<AbtmConfig> {
    let of_kind = |kind: u32| {
        let tiles = t.metas.iter().zip(&t.masks);
        tiles
            .filter(move |(meta, _)| **meta >> 30 == kind)
            .map(|(_, mask)| mask.count_ones() as u8)
    };
    let sparse = of_kind(0).max().unwrap_or(0).max(1);
    let dense = of_kind(2).min().unwrap_or(64);
    let good = sparse < dense && of_kind(1).all(|count| sparse < count && count < dense);
    good.then_some(config(sparse, dense))
}

/// The plot list with the columns and values of these tiles. An infinite value stands as the largest finite one twice, which
/// the Rust merges to it.
fn plot_list(t: &Tiles) -> Option<Csr> {
    let n = t.masks.len();
    let framed = t.row_tile_ptr.len() == t.nrows + 1
        && t.row_tile_ptr.iter().all(|&p| p as usize <= n)
        && t.row_tile_ptr.is_sorted()
        && (t.value_offsets.len(), t.metas.len()) == (n, n);
    if !framed {
        return None;
    }
    let mut c = Csr {
        nrows: t.nrows,
        ncols: t.ncols,
        row_ptr: vec![0],
        col_idx: vec![],
        values: vec![],
    };
    for row in 0..t.nrows {
        for tile in t.row_tile_ptr[row] as usize..t.row_tile_ptr[row + 1] as usize {
            add_tile(t, tile, &mut c)?;
        }
        c.row_ptr.push(c.col_idx.len() as u32);
    }
    Some(c)
}

fn add_tile(t: &Tiles, tile: usize, c: &mut Csr) -> Option<()> {
    let base = (t.metas[tile] & ((1 << 30) - 1)).checked_mul(64)?;
    let dense = t.metas[tile] >> 30 == 2;
    let first = t.value_offsets[tile] as usize;
    for (place, bit) in ones(t.masks[tile]).enumerate() {
        let slot = if dense { bit as usize } else { place };
        let value = *t.values.get(first.checked_add(slot)?)?;
        let copies = if value.is_infinite() { 2 } else { 1 };
        for _ in 0..copies {
            c.col_idx.push(base + bit);
            c.values.push(value.clamp(f64::MIN, f64::MAX));
        }
    }
    Some(())
}

/// The Rust's tiles with these lists, where it can hold them.
fn make_tiles(t: &Tiles) -> Result<AbtmMatrix, Reason> {
    if t.metas.iter().any(|meta| meta >> 30 == 3) {
        return Err(Reason::BadTiles);
    }
    let c = plot_list(t).ok_or(Reason::BadTiles)?;
    let config = thresholds(t).ok_or(Reason::KindByCount)?;
    let made = csr_of(&c).and_then(|csr| AbtmMatrix::from_csr32(&csr, config));
    let made = made.map_err(|_| Reason::BadTiles)?;
    shows(&made, t).then_some(made).ok_or(Reason::BadTiles)
}

// Questions come in runs to the same record, so the last one made is kept.
thread_local! {
    static TILES: RefCell<Option<(Tiles, Made<AbtmMatrix>)>> = const { RefCell::new(None) };
}

/// Equal by the bits of the values, since 0.0 == -0.0 and no NaN equals another.
fn same_tiles(a: &Tiles, b: &Tiles) -> bool {
    (a.nrows, a.ncols, a.matrix_nnz) == (b.nrows, b.ncols, b.matrix_nnz)
        && a.row_tile_ptr == b.row_tile_ptr
        && a.masks == b.masks
        && a.value_offsets == b.value_offsets
        && a.metas == b.metas
        && same_bits(&a.values, &b.values)
}

pub fn tiles_of(t: &Tiles) -> Made<AbtmMatrix> {
    TILES.with_borrow_mut(|kept| {
        if let Some((key, made)) = kept
            && same_tiles(key, t)
        {
            return made.clone();
        }
        let made = make_tiles(t).map(Rc::new);
        *kept = Some((t.clone(), made.clone()));
        made
    })
}

fn from_csr32(c: &Csr, config: AbtmConfig, room: &TilesRoom) -> Result<Outcome, Reason> {
    csr_within(c)?;
    let rooms = [
        room.row_tile_ptr.len(),
        room.masks.len(),
        room.value_offsets.len(),
        room.metas.len(),
        room.values.len(),
    ];
    match csr_of(c).and_then(|csr| AbtmMatrix::from_csr32(&csr, config)) {
        Ok(made) => {
            let stats = made.stats();
            let answer = [stats.tiles, stats.value_slots, stats.matrix_nnz];
            let used = lists(&made).into_iter().zip(rooms);
            let lists: Result<Vec<_>, _> = used.map(|(list, room)| filled(list, room)).collect();
            let answer = accepted(answer.map(|n| n as u64).to_vec());
            Ok(with_lists(answer, lists?))
        }
        Err(error) => Ok(with_lists(refused(error, 3), zeros(&rooms))),
    }
}

/// A tile by value can only be had from a build: of one row, whose word has one column for a Sparse tile and two else.
fn tile(meta: u32) -> Result<TileDesc, Reason> {
    let (count, dense) = match meta >> 30 {
        0 => (1, 64),
        1 => (2, 64),
        2 => (2, 2),
        _ => return Err(Reason::KindThree),
    };
    let word = meta & ((1 << 30) - 1);
    let base = word.checked_mul(64).ok_or(Reason::FarWord)?;
    let cols: Vec<u32> = (0..count).map(|bit| base + bit).collect();
    let values = vec![1.0; count as usize];
    let made = Csr32Matrix::new(1, base as usize + 64, vec![0, count], cols, values)
        .and_then(|csr| AbtmMatrix::from_csr32(&csr, config(1, dense)))
        .expect("a good plot list");
    Ok(made.row_tiles(0).expect("the one row")[0])
}

/// Kind 3 is 12 here: the Rust stops at it.
fn tile_kind(meta: u32) -> Result<Outcome, Reason> {
    match tile(meta) {
        Ok(tile) => Ok(accepted(vec![tile.kind() as u64])),
        Err(Reason::KindThree) => Err(Reason::BadTiles),
        Err(reason) => Err(reason),
    }
}

fn tile_base_col(meta: u32) -> Result<Outcome, Reason> {
    Ok(accepted(vec![tile(meta)?.base_col() as u64]))
}

/// Where the row's tiles stand: after those of the rows before it.
fn row_tiles(t: &Tiles, row: usize) -> Result<Outcome, Reason> {
    tiles_within(t)?;
    let made = tiles_of(t)?;
    let answer = made.row_tiles(row).map(|asked| {
        let before = (0..row).map(|r| made.row_tiles(r).map_or(0, <[TileDesc]>::len));
        let start: usize = before.sum();
        vec![start as u64, (start + asked.len()) as u64]
    });
    Ok(told(answer, 2))
}

fn stats(t: &Tiles) -> Result<Outcome, Reason> {
    tiles_within(t)?;
    let s = tiles_of(t)?.stats();
    let fields = [
        s.nrows,
        s.ncols,
        s.matrix_nnz,
        s.tiles,
        s.sparse_tiles,
        s.bitmap_tiles,
        s.dense_tiles,
        s.value_slots,
        s.metadata_bytes,
    ];
    Ok(accepted(fields.map(|n| n as u64).to_vec()))
}

fn figures(metadata_bytes: usize, matrix_nnz: usize, value_slots: usize) -> AbtmStats {
    AbtmStats {
        metadata_bytes,
        matrix_nnz,
        value_slots,
        ..AbtmStats::default()
    }
}

fn total_estimated_bytes(bytes: usize, slots: usize) -> Result<Outcome, Reason> {
    let values = slots.checked_mul(8);
    if values.and_then(|n| n.checked_add(bytes)).is_none() {
        return Err(Reason::BytesOverflow);
    }
    let total = figures(bytes, 0, slots).total_estimated_bytes();
    Ok(accepted(vec![total as u64]))
}

fn apply(t: &Tiles, x: &[f64], y: &[f64]) -> Result<Outcome, Reason> {
    tiles_within(t)?;
    let mut y = y.to_vec();
    let answer = tiles_of(t)?.apply(x, &mut y).map(|()| vec![]);
    Ok(with_lists(told(answer, 0), vec![numbers(&y)]))
}

fn expand_mask_one_hop(t: &Tiles, m: &Mask, room: usize) -> Result<Outcome, Reason> {
    tiles_within(t)?;
    mask_within(m)?;
    let made = tiles_of(t)?;
    let expanded: Result<_, HybitError> = made.expand_mask_one_hop(&mask_of(m)?);
    match expanded {
        Ok(mask) => {
            let words = filled(mask.words().to_vec(), room)?;
            Ok(with_lists(accepted(vec![]), vec![words]))
        }
        Err(error) => Ok(with_lists(refused(error, 0), zeros(&[room]))),
    }
}
