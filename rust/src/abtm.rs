//! `AbtmMatrix`: the nonzero values of a matrix in tiles of 64 columns, packed by how many a tile has.

use std::fmt::{Debug, Formatter};
use std::sync::OnceLock;

use crate::calls::{self, TileRoom, Tiles};
use crate::error::{NOT_SQUARE, Refusal, SHORT_LIST, THRESHOLDS, TILE_ROW, accepted};
use crate::topology::most_words;
use crate::{Csr32Matrix, DofMask, HybitError};

/// How many columns a tile stands for.
pub const TILE_WIDTH: usize = 64;

/// The bits of a tile's `meta` that hold the number of its word.
const WORD_BITS: u32 = (1 << 30) - 1;

/// How the values of a tile are stored.
#[repr(u8)]
#[derive(Clone, Copy, Debug, PartialEq, Eq)]
pub enum TileKind {
    /// A few values, one for each present column.
    Sparse = 0,
    /// The same, of a fuller tile.
    Bitmap = 1,
    /// 64 values, 0.0 at absent columns.
    Dense = 2,
}

/// One tile of a row.
#[repr(C)]
#[derive(Clone, Copy, Debug)]
pub struct TileDesc {
    /// A bit for each of the 64 columns, set where a value is present.
    pub mask: u64,
    /// Where the tile's values start.
    pub value_offset: u32,
    meta: u32,
}

impl TileDesc {
    /// The tile's kind.
    pub fn kind(&self) -> TileKind {
        match accepted(calls::abtm_tile_kind(self.meta)) {
            0 => TileKind::Sparse,
            1 => TileKind::Bitmap,
            _ => TileKind::Dense,
        }
    }

    /// The tile's first column.
    pub fn base_col(&self) -> usize {
        calls::abtm_tile_base_col(self.meta)
    }
}

/// From how many values on a tile is Bitmap, and from how many on Dense.
#[derive(Clone, Copy, Debug)]
pub struct AbtmConfig {
    /// The most values of a Sparse tile; at least 1.
    pub sparse_max_nnz: u8,
    /// The fewest values of a Dense tile; at most 64, and more than the other.
    pub dense_min_nnz: u8,
}

impl Default for AbtmConfig {
    fn default() -> Self {
        Self {
            sparse_max_nnz: 8,
            dense_min_nnz: 40,
        }
    }
}

/// The figures of tiles.
#[derive(Clone, Debug, Default)]
pub struct AbtmStats {
    /// Rows.
    pub nrows: usize,
    /// Columns.
    pub ncols: usize,
    /// Present values of all rows.
    pub matrix_nnz: usize,
    /// Tiles of all rows.
    pub tiles: usize,
    /// Sparse tiles.
    pub sparse_tiles: usize,
    /// Bitmap tiles.
    pub bitmap_tiles: usize,
    /// Dense tiles.
    pub dense_tiles: usize,
    /// Stored values, those of absent columns of Dense tiles among them.
    pub value_slots: usize,
    /// The bytes of the pointers and tiles.
    pub metadata_bytes: usize,
}

impl AbtmStats {
    /// Bytes for each present value; 0.0 without values.
    pub fn metadata_bytes_per_nnz(&self) -> f64 {
        calls::abtm_metadata_bytes_per_nnz(self.metadata_bytes, self.matrix_nnz)
    }

    /// The bytes of the metadata and of the stored values, at most `usize::MAX`.
    pub fn total_estimated_bytes(&self) -> usize {
        calls::abtm_total_estimated_bytes(self.metadata_bytes, self.value_slots)
    }
}

/// For each row the tiles with a present value, ascending. Stored zeros are skipped, copies of a column are added in stored
/// order, and a column whose values add up to zero is absent.
#[derive(Clone)]
pub struct AbtmMatrix {
    nrows: usize,
    ncols: usize,
    row_tile_ptr: Vec<u32>,
    masks: Vec<u64>,
    value_offsets: Vec<u32>,
    metas: Vec<u32>,
    values: Vec<f64>,
    matrix_nnz: usize,
    /// The three lists of the tiles as one, made when a row's tiles are first asked for.
    tiles: OnceLock<Vec<TileDesc>>,
}

impl AbtmMatrix {
    /// The tiles of a matrix; refused where the thresholds are out of range.
    pub fn from_csr32(csr: &Csr32Matrix, config: AbtmConfig) -> Result<Self, HybitError> {
        let (usual, most) = slots(csr, config);
        match Self::built(csr, config, usual) {
            Err(refusal) if refusal.number == SHORT_LIST => Self::built(csr, config, most),
            result => result,
        }
        .map_err(|refusal| refusal.named(THRESHOLDS))
    }

    /// Lends lists for any number of tiles and for so many values to a build, and keeps the parts that it used.
    fn built(csr: &Csr32Matrix, config: AbtmConfig, slots: usize) -> Result<Self, Refusal> {
        let most = most_words(csr);
        let mut matrix = Self {
            nrows: csr.nrows(),
            ncols: csr.ncols(),
            row_tile_ptr: vec![0; csr.nrows() + 1],
            masks: vec![0; most],
            value_offsets: vec![0; most],
            metas: vec![0; most],
            values: vec![0.0; slots],
            matrix_nnz: 0,
            tiles: OnceLock::new(),
        };
        let room = TileRoom {
            row_tile_ptr: &mut matrix.row_tile_ptr,
            masks: &mut matrix.masks,
            value_offsets: &mut matrix.value_offsets,
            metas: &mut matrix.metas,
            values: &mut matrix.values,
        };
        let thresholds = (config.sparse_max_nnz, config.dense_min_nnz);
        let used = calls::abtm_from_csr32(csr.view(), thresholds, room)?;
        cut(&mut matrix.masks, used.tiles);
        cut(&mut matrix.value_offsets, used.tiles);
        cut(&mut matrix.metas, used.tiles);
        cut(&mut matrix.values, used.value_slots);
        matrix.matrix_nnz = used.matrix_nnz;
        Ok(matrix)
    }

    /// The mask joined with the columns that its rows hold; the matrix must be square.
    pub fn expand_mask_one_hop(&self, mask: &DofMask) -> Result<DofMask, HybitError> {
        DofMask::built(mask.len(), |out| {
            calls::abtm_expand_mask_one_hop(self.view(), mask.view(), out)
        })
        .map_err(|refusal| refusal.named(NOT_SQUARE))
    }

    /// The tiles of a row.
    pub fn row_tiles(&self, row: usize) -> Result<&[TileDesc], HybitError> {
        if row >= self.nrows {
            return Err(HybitError::InvalidArgument(TILE_ROW));
        }
        let start = self.row_tile_ptr[row] as usize;
        Ok(&self.tiles()[start..self.row_tile_ptr[row + 1] as usize])
    }

    /// The values of all tiles.
    pub fn values(&self) -> &[f64] {
        &self.values
    }

    /// The figures.
    pub fn stats(&self) -> AbtmStats {
        let stats = accepted(calls::abtm_stats(self.view()));
        AbtmStats {
            nrows: stats.nrows,
            ncols: stats.ncols,
            matrix_nnz: stats.matrix_nnz,
            tiles: stats.tiles,
            sparse_tiles: stats.sparse_tiles,
            bitmap_tiles: stats.bitmap_tiles,
            dense_tiles: stats.dense_tiles,
            value_slots: stats.value_slots,
            metadata_bytes: stats.metadata_bytes,
        }
    }

    /// The number of rows. In hybit, as the next two, a method of the trait `LinearOperator`.
    pub fn rows(&self) -> usize {
        self.nrows
    }

    /// The number of columns.
    pub fn cols(&self) -> usize {
        self.ncols
    }

    /// The row products, into `y`; a refused call leaves `y` as it was.
    pub fn apply(&self, x: &[f64], y: &mut [f64]) -> Result<(), HybitError> {
        calls::abtm_apply(self.view(), x, y).map_err(|refusal| refusal.plain())
    }

    fn tiles(&self) -> &[TileDesc] {
        self.tiles.get_or_init(|| {
            let numbers = self.value_offsets.iter().zip(&self.metas);
            let tiles = self.masks.iter().zip(numbers);
            tiles
                .map(|(&mask, (&value_offset, &meta))| TileDesc {
                    mask,
                    value_offset,
                    meta,
                })
                .collect()
        })
    }

    /// How many values stand in the mask's columns: the places that a restriction needs. Any number where a tile is past the
    /// mask's end, since the restriction is then refused.
    pub(crate) fn values_in(&self, mask: &DofMask) -> usize {
        let kept = |(&tile, &meta): (&u64, &u32)| {
            let word = (meta & WORD_BITS) as usize;
            let active = mask.words().get(word).copied().unwrap_or(0);
            (tile & active).count_ones() as usize
        };
        self.masks.iter().zip(&self.metas).map(kept).sum()
    }

    pub(crate) fn view(&self) -> Tiles<'_> {
        Tiles {
            nrows: self.nrows,
            ncols: self.ncols,
            row_tile_ptr: &self.row_tile_ptr,
            masks: &self.masks,
            value_offsets: &self.value_offsets,
            metas: &self.metas,
            values: &self.values,
            matrix_nnz: self.matrix_nnz,
        }
    }
}

/// As hybit's, where the tiles are one list.
impl Debug for AbtmMatrix {
    fn fmt(&self, f: &mut Formatter<'_>) -> std::fmt::Result {
        f.debug_struct("AbtmMatrix")
            .field("nrows", &self.nrows)
            .field("ncols", &self.ncols)
            .field("row_tile_ptr", &self.row_tile_ptr)
            .field("tiles", &self.tiles())
            .field("values", &self.values)
            .field("matrix_nnz", &self.matrix_nnz)
            .finish()
    }
}

/// For how many values a build is lent a list first, and how many there can be. A Dense tile has 64 for at least `dense_min_nnz`
/// entries, any other tile one for each; so with a threshold of 32 or more the most is at most twice the entries, and is lent at
/// once. Below that it is up to 32 times the entries, while few matrices need more than one for each: only where that is too
/// short is the build repeated with a list that can't be.
fn slots(csr: &Csr32Matrix, config: AbtmConfig) -> (usize, usize) {
    let entries = csr.nnz();
    let by_entries = TILE_WIDTH * entries / usize::from(config.dense_min_nnz.max(1));
    let most = by_entries.min(TILE_WIDTH * most_words(csr)).max(entries);
    let usual = if most <= 2 * entries { most } else { entries };
    (usual, most)
}

/// Keeps the first places of a list.
fn cut<T>(list: &mut Vec<T>, places: usize) {
    list.truncate(places);
    list.shrink_to_fit();
}
