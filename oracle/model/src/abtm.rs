//! Tiles: each tile is a word of 64 columns with its kind and its slots, and each slot stands for one of the 64.

use crate::answer::{
    BAD_STORE, BAD_THRESHOLDS, Built, Checked, NO_SUCH_PLACE, NOT_SQUARE, answer, build, change,
    count, list_bits, need, need_length, need_sizes, number, ratio, verdict,
};
use crate::csr32::{self, entries, part, pointers_hold};
use crate::mask::{self, Members};
use crate::words::{WIDTH, base_col, offsets};
use calls::{Csr, Mask, Outcome, Tiles, TilesRoom, bits};
use std::collections::BTreeMap;
use std::ops::Range;

#[derive(Clone, Copy, PartialEq)]
enum Kind {
    Sparse,
    Bitmap,
    Dense,
}

impl Kind {
    /// The kind stands above the word number, which has bits 0 to 29.
    fn of_meta(meta: u32) -> Option<Kind> {
        match meta >> 30 {
            0 => Some(Kind::Sparse),
            1 => Some(Kind::Bitmap),
            2 => Some(Kind::Dense),
            _ => None,
        }
    }

    fn meta(self, word: usize) -> u64 {
        ((self as u64) << 30) + word as u64
    }

    /// The offsets that the slots of a tile stand for.
    fn slots(self, mask: u64) -> Vec<usize> {
        if self == Kind::Dense {
            (0..WIDTH).collect()
        } else {
            offsets(mask).collect()
        }
    }
}

fn word_number(meta: u32) -> u32 {
    meta % (1 << 30)
}

/// Refusal 1: how many slots there are is 12's matter.
pub fn sizes(tiles: &Tiles) -> Checked {
    need_sizes(
        &[tiles.nrows, tiles.ncols],
        &[
            tiles.masks.len(),
            tiles.value_offsets.len(),
            tiles.metas.len(),
        ],
    )
}

/// Refusal 12.
pub fn rules(tiles: &Tiles) -> Checked {
    let count = tiles.masks.len();
    let equal = tiles.value_offsets.len() == count && tiles.metas.len() == count;
    need(equal, BAD_STORE)?;
    let pointers = pointers_hold(&tiles.row_tile_ptr, tiles.nrows, count);
    need(pointers, BAD_STORE)?;
    let ones: usize = tiles.masks.iter().map(|m| m.count_ones() as usize).sum();
    need(tiles.matrix_nnz == ones, BAD_STORE)?;
    let rows = (0..tiles.nrows).all(|row| row_holds(tiles, part(&tiles.row_tile_ptr, row)));
    need(rows, BAD_STORE)?;
    let mut next = 0;
    for tile in 0..count {
        need(tiles.value_offsets[tile] as usize == next, BAD_STORE)?;
        let kind = Kind::of_meta(tiles.metas[tile]).ok_or(BAD_STORE)?;
        for offset in kind.slots(tiles.masks[tile]) {
            let value = *tiles.values.get(next).ok_or(BAD_STORE)?;
            let present = tiles.masks[tile] >> offset & 1 == 1;
            need(value_holds(value, present), BAD_STORE)?;
            next += 1;
        }
    }
    need(next == tiles.values.len(), BAD_STORE)
}

/// The rules of the words of one row's tiles: the numbers rise, each mask has a bit, none is past the last column.
fn row_holds(tiles: &Tiles, mut places: Range<usize>) -> bool {
    let numbers = places.clone().map(|tile| word_number(tiles.metas[tile]));
    let inside = |tile: usize| {
        let base = base_col(word_number(tiles.metas[tile]));
        let highest = offsets(tiles.masks[tile]).last();
        highest.is_some_and(|offset| base + offset < tiles.ncols)
    };
    numbers.is_sorted_by(|a, b| a < b) && places.all(inside)
}

/// A present value is no zero and no NaN, an absent one is +0.0.
fn value_holds(value: f64, present: bool) -> bool {
    if present {
        value != 0.0 && !value.is_nan()
    } else {
        value.to_bits() == 0
    }
}

fn check(tiles: &Tiles) -> Checked {
    sizes(tiles)?;
    rules(tiles)
}

/// The kind of a tile of good tiles.
fn kind_of(tiles: &Tiles, tile: usize) -> Kind {
    Kind::of_meta(tiles.metas[tile]).expect("kind 3 is refused")
}

/// The columns and values of the slots of a tile of good tiles, those past the last column left out.
fn slots_inside(tiles: &Tiles, tile: usize) -> impl Iterator<Item = (usize, f64)> {
    let base = base_col(word_number(tiles.metas[tile]));
    let columns = kind_of(tiles, tile).slots(tiles.masks[tile]);
    let columns = columns.into_iter().map(move |offset| base + offset);
    let values = &tiles.values[tiles.value_offsets[tile] as usize..];
    columns
        .zip(values.iter().copied())
        .filter(|&(col, _)| col < tiles.ncols)
}

/// The present columns of a row of good tiles with their values, ascending.
pub fn present(tiles: &Tiles, row: usize) -> impl Iterator<Item = (usize, f64)> {
    part(&tiles.row_tile_ptr, row).flat_map(|tile| {
        let mask = tiles.masks[tile];
        let slots = slots_inside(tiles, tile);
        slots.filter(move |(col, _)| mask >> (col % WIDTH) & 1 == 1)
    })
}

pub fn judge_validate(sparse: u8, dense: u8) -> Outcome {
    verdict(validate(sparse, dense))
}

fn validate(sparse: u8, dense: u8) -> Checked {
    let good = sparse >= 1 && dense <= 64 && sparse < dense;
    need(good, BAD_THRESHOLDS)
}

pub fn judge_check(tiles: &Tiles) -> Outcome {
    verdict(check(tiles))
}

/// The row of a plot list without stored zeros, merged from 0.0 in stored order, without merged zeros.
fn merged(csr: &Csr, row: usize) -> BTreeMap<usize, f64> {
    let mut sums = BTreeMap::new();
    for (col, value) in entries(csr, row).filter(|entry| entry.1 != 0.0) {
        *sums.entry(col).or_insert(0.0) += value;
    }
    sums.retain(|_, sum| *sum != 0.0);
    sums
}

/// The values of a row by word and offset.
fn by_word(row: BTreeMap<usize, f64>) -> BTreeMap<usize, BTreeMap<usize, f64>> {
    let mut words: BTreeMap<usize, BTreeMap<usize, f64>> = BTreeMap::new();
    for (col, value) in row {
        let word = words.entry(col / WIDTH).or_default();
        word.insert(col % WIDTH, value);
    }
    words
}

fn kind_by_count(count: usize, sparse: u8, dense: u8) -> Kind {
    if count <= sparse.into() {
        Kind::Sparse
    } else if count >= dense.into() {
        Kind::Dense
    } else {
        Kind::Bitmap
    }
}

pub fn judge_from_csr32(csr: &Csr, sparse: u8, dense: u8, room: &TilesRoom) -> Outcome {
    let lengths = [
        room.row_tile_ptr.len(),
        room.masks.len(),
        room.value_offsets.len(),
        room.metas.len(),
        room.values.len(),
    ];
    build(from_csr32(csr, sparse, dense), lengths)
}

fn from_csr32(csr: &Csr, sparse: u8, dense: u8) -> Checked<Built<3, 5>> {
    csr32::check(csr)?;
    validate(sparse, dense)?;
    let (mut row_tile_ptr, mut nnz) = (vec![0], 0);
    let (mut masks, mut value_offsets, mut metas) = (vec![], vec![], vec![]);
    let mut values: Vec<u64> = Vec::new();
    for row in 0..csr.nrows {
        for (word, present) in by_word(merged(csr, row)) {
            let kind = kind_by_count(present.len(), sparse, dense);
            let mask = present.keys().map(|offset| 1 << offset).sum();
            masks.push(mask);
            value_offsets.push(values.len() as u64);
            metas.push(kind.meta(word));
            let slots = kind.slots(mask).into_iter();
            values.extend(slots.map(|offset| present.get(&offset).map_or(0, |v| bits(*v))));
            nnz += present.len() as u64;
        }
        row_tile_ptr.push(masks.len() as u64);
    }
    Ok(Built {
        result: [masks.len() as u64, values.len() as u64, nnz],
        used: [row_tile_ptr, masks, value_offsets, metas, values],
    })
}

pub fn judge_tile_kind(meta: u32) -> Outcome {
    let kind = Kind::of_meta(meta).ok_or(BAD_STORE);
    count(kind.map(|kind| kind as usize))
}

pub fn judge_tile_base_col(meta: u32) -> Outcome {
    count(Ok(base_col(word_number(meta))))
}

/// The word number and the kind of a meta, the slots of its tile, the kind of a count; and the thresholds that the Rust takes
/// where none are given, which document 01 doesn't name.
pub fn judge_value(meta: u32, mask: u64, [sparse, dense]: [u8; 2], count: usize) -> Outcome {
    let slots = Kind::of_meta(meta).map_or(0, |kind| kind.slots(mask).len());
    answer(Ok([
        word_number(meta).into(),
        (meta >> 30).into(),
        slots as u64,
        kind_by_count(count, sparse, dense) as u64,
        8,
        40,
    ]))
}

pub fn judge_row_tiles(tiles: &Tiles, row: usize) -> Outcome {
    answer(row_tiles(tiles, row))
}

/// The check that every question to a row makes.
pub fn check_row(tiles: &Tiles, row: usize) -> Checked {
    check(tiles)?;
    need(row < tiles.nrows, NO_SUCH_PLACE)
}

fn row_tiles(tiles: &Tiles, row: usize) -> Checked<[u64; 2]> {
    check_row(tiles, row)?;
    let places = part(&tiles.row_tile_ptr, row);
    Ok([places.start as u64, places.end as u64])
}

pub fn judge_stats(tiles: &Tiles) -> Outcome {
    answer(check(tiles).map(|()| stats(tiles).map(|n| n as u64)))
}

/// Tiles and each kind of them are counted; the bytes are four for each pointer and 16 for each tile.
fn stats(tiles: &Tiles) -> [usize; 9] {
    let count = tiles.masks.len();
    let of_kind = |kind: Kind| {
        (0..count)
            .filter(|&tile| kind_of(tiles, tile) == kind)
            .count()
    };
    [
        tiles.nrows,
        tiles.ncols,
        tiles.matrix_nnz,
        count,
        of_kind(Kind::Sparse),
        of_kind(Kind::Bitmap),
        of_kind(Kind::Dense),
        tiles.values.len(),
        4 * (tiles.nrows + 1) + 16 * count,
    ]
}

pub fn judge_metadata_bytes_per_nnz(bytes: usize, ones: usize) -> Outcome {
    number(ratio(bytes, ones))
}

/// The bytes and eight for each slot, at most the largest usize.
pub fn judge_total_estimated_bytes(bytes: usize, slots: usize) -> Outcome {
    count(Ok(bytes.saturating_add(slots.saturating_mul(8))))
}

pub fn judge_apply(tiles: &Tiles, x: &[f64], y: &[f64]) -> Outcome {
    change(apply(tiles, x, y), list_bits(y))
}

fn apply(tiles: &Tiles, x: &[f64], y: &[f64]) -> Checked<Vec<u64>> {
    check(tiles)?;
    need_length(tiles.ncols, x.len())?;
    need_length(tiles.nrows, y.len())?;
    let rows = (0..tiles.nrows).map(|row| row_product(tiles, row, x));
    Ok(list_bits(&rows.collect::<Vec<f64>>()))
}

/// A Dense tile adds each of its products to the row, another tile their sum from 0.0.
fn row_product(tiles: &Tiles, row: usize, x: &[f64]) -> f64 {
    let mut sum = 0.0;
    for tile in part(&tiles.row_tile_ptr, row) {
        let terms = slots_inside(tiles, tile).map(|(col, value)| value * x[col]);
        if kind_of(tiles, tile) == Kind::Dense {
            for term in terms {
                sum += term;
            }
        } else {
            sum += terms.fold(0.0, |own, term| own + term);
        }
    }
    sum
}

pub fn judge_expand_mask_one_hop(tiles: &Tiles, mask: &Mask, room: &[u64]) -> Outcome {
    build(expand_mask_one_hop(tiles, mask), [room.len()])
}

fn expand_mask_one_hop(tiles: &Tiles, mask: &Mask) -> Checked<Built<0, 1>> {
    sizes(tiles)?;
    mask::sizes(mask)?;
    rules(tiles)?;
    mask::rules(mask)?;
    need(tiles.nrows == tiles.ncols, NOT_SQUARE)?;
    need_length(tiles.nrows, mask.len)?;
    let before = mask::members(mask);
    let mut after = before.clone();
    for &row in &before {
        after.extend(columns(tiles, row));
    }
    Ok(Built {
        result: [],
        used: [mask::words_of(mask.len, &after)],
    })
}

/// The columns in the masks of a row's tiles.
fn columns(tiles: &Tiles, row: usize) -> Members {
    let columns_of = |tile: usize| {
        let base = base_col(word_number(tiles.metas[tile]));
        offsets(tiles.masks[tile]).map(move |offset| base + offset)
    };
    part(&tiles.row_tile_ptr, row)
        .flat_map(columns_of)
        .collect()
}
