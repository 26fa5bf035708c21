//! One call of the library with its whole input, and what a judge says comes of it. Three judges answer the same `Call`: the
//! library through its C interface, hybit's Rust, and the model written from document 01.

mod below;

pub use below::{Below, WordCall};

#[derive(Clone, Debug, PartialEq)]
pub struct Mask {
    pub len: usize,
    pub words: Vec<u64>,
}

#[derive(Clone, Debug, PartialEq)]
pub struct Csr {
    pub nrows: usize,
    pub ncols: usize,
    pub row_ptr: Vec<u32>,
    pub col_idx: Vec<u32>,
    pub values: Vec<f64>,
}

#[derive(Clone, Debug, PartialEq)]
pub struct Words {
    pub nrows: usize,
    pub ncols: usize,
    pub row_word_ptr: Vec<u32>,
    pub word_indices: Vec<u32>,
    pub masks: Vec<u64>,
    pub structural_nnz: usize,
}

#[derive(Clone, Debug, PartialEq)]
pub struct Store {
    pub words: Words,
    pub row_value_ptr: Vec<u32>,
    pub values: Vec<f64>,
}

/// The lists that a build of words is lent, with what they hold before.
#[derive(Clone, Debug, PartialEq)]
pub struct WordsRoom {
    pub row_word_ptr: Vec<u32>,
    pub word_indices: Vec<u32>,
    pub masks: Vec<u64>,
}

/// The lists that packing is lent.
#[derive(Clone, Debug, PartialEq)]
pub struct StoreRoom {
    pub words: WordsRoom,
    pub row_value_ptr: Vec<u32>,
    pub values: Vec<f64>,
}

/// Tiles: three lists with a place for each tile, and the values of all.
#[derive(Clone, Debug, PartialEq)]
pub struct Tiles {
    pub nrows: usize,
    pub ncols: usize,
    pub row_tile_ptr: Vec<u32>,
    pub masks: Vec<u64>,
    pub value_offsets: Vec<u32>,
    pub metas: Vec<u32>,
    pub values: Vec<f64>,
    pub matrix_nnz: usize,
}

/// The lists that a build of tiles is lent.
#[derive(Clone, Debug, PartialEq)]
pub struct TilesRoom {
    pub row_tile_ptr: Vec<u32>,
    pub masks: Vec<u64>,
    pub value_offsets: Vec<u32>,
    pub metas: Vec<u32>,
    pub values: Vec<f64>,
}

/// The lists that a build of a plot list or of blocks is lent.
#[derive(Clone, Debug, PartialEq)]
pub struct CsrRoom {
    pub row_ptr: Vec<u32>,
    pub col_idx: Vec<u32>,
    pub values: Vec<f64>,
}

/// Blocks of width 6 or, where `six` is false, 3: pointers of the block rows, block columns, the values of each block row after row.
#[derive(Clone, Debug, PartialEq)]
pub struct Blocks {
    pub nrows: usize,
    pub ncols: usize,
    pub six: bool,
    pub row_ptr: Vec<u32>,
    pub col_idx: Vec<u32>,
    pub values: Vec<f64>,
}

/// The five counts of a report, in the order of the Rust's fields: candidate, executed, skipped, topology words, active words.
pub type Counts = [usize; 5];

/// A call of the C interface under the same name, less `denimrasp_`.
#[derive(Clone, Debug, PartialEq)]
pub enum Call {
    MaskCheck(Mask),
    MaskContains(Mask, usize),
    MaskCountOnes(Mask),
    MaskIsEmpty(Mask),
    /// The length, and the lent words.
    MaskNew(usize, Vec<u64>),
    /// The length, the members, the lent words.
    MaskFromIndices(usize, Vec<usize>, Vec<u64>),
    MaskSet(Mask, usize, bool),
    /// The number of the word, and its bits.
    MaskOrWord(Mask, usize, u64),
    /// The lent list.
    MaskIndices(Mask, Vec<usize>),
    MaskUnionAssign(Mask, Mask),
    MaskIntersectAssign(Mask, Mask),
    MaskAndNotAssign(Mask, Mask),
    MaskIntersects(Mask, Mask),
    Csr32Check(Csr),
    /// x, y.
    Csr32Apply(Csr, Vec<f64>, Vec<f64>),
    Csr32MetadataBytes(Csr),
    Csr32StorageBytes(Csr),
    TopologyCheck(Words),
    TopologyFromCsr32(Csr, WordsRoom),
    TopologyRowWords(Words, usize),
    TopologyRowNonemptyWords(Words, usize),
    TopologyRowPopcount(Words, usize),
    /// The row, the column.
    TopologyRowContains(Words, usize, usize),
    /// The row, the column.
    TopologyRowRank(Words, usize, usize),
    /// The row, the ordinal.
    TopologyRowSelect(Words, usize, usize),
    TopologyStats(Words),
    TopologyUnion(Words, Words, WordsRoom),
    TopologyIntersection(Words, Words, WordsRoom),
    TopologyAndNot(Words, Words, WordsRoom),
    TopologyXor(Words, Words, WordsRoom),
    MetadataFirstCheck(Store),
    MetadataFirstCheckMerge(Csr),
    MetadataFirstFromCsr32(Csr, StoreRoom),
    MetadataFirstRowValues(Store, usize),
    MetadataFirstStats(Store),
    /// The row, the mask, x.
    MetadataFirstSparseDotRow(Store, usize, Mask, Vec<f64>),
    /// The mask, x, and the lent sums and executed counts.
    MetadataFirstSparseDotRows(Store, Mask, Vec<f64>, Vec<f64>, Vec<u32>),
    WordBaseCol(u32),
    WordPopcount(u64),
    WordContainsOffset(u64, usize),
    WordRank(u64, usize),
    WordSelect(u64, usize),
    /// The ones, the words.
    TopologyAverageWordNnz(usize, usize),
    TopologyWordFillRatio(usize, usize),
    /// The bytes, the ones.
    TopologyMetadataBytesPerNnz(usize, usize),
    /// Skipped, candidates.
    MetadataFirstPruningRatio(usize, usize),
    /// Words, active words.
    MetadataFirstEmptyWordRatio(usize, usize),
    /// The bytes of the words, of the value pointers, of the values.
    MetadataFirstTotalEstimatedBytes(usize, usize, usize),
    MetadataFirstAccumulate(Counts, Counts),
    /// The most entries of a Sparse tile, the least of a Dense one.
    AbtmValidate(u8, u8),
    AbtmCheck(Tiles),
    /// The two thresholds, and the lent lists.
    AbtmFromCsr32(Csr, u8, u8, TilesRoom),
    AbtmTileKind(u32),
    AbtmTileBaseCol(u32),
    AbtmRowTiles(Tiles, usize),
    AbtmStats(Tiles),
    /// The bytes, the ones.
    AbtmMetadataBytesPerNnz(usize, usize),
    /// The bytes beside the values, the value slots.
    AbtmTotalEstimatedBytes(usize, usize),
    /// x, y.
    AbtmApply(Tiles, Vec<f64>, Vec<f64>),
    /// The mask, and the lent words.
    AbtmExpandMaskOneHop(Tiles, Mask, Vec<u64>),
    /// The mask of the active columns, and the lent lists.
    RestrictedFromCsr32(Csr, Mask, CsrRoom),
    RestrictedFromAbtm(Tiles, Mask, CsrRoom),
    /// Entries that are kept, entries of the source.
    RestrictedRetainedFraction(usize, usize),
    /// Rows, columns, entries that are kept.
    RestrictedStorageBytes(usize, usize, usize),
    /// The mask of the region, the lent members, and the lent lists.
    LocalFromCsr32(Csr, Mask, Vec<u32>, CsrRoom),
    /// The global size, the members.
    LocalCheck(usize, Vec<u32>),
    /// The global size, the members, the global vector, and the lent local one.
    LocalGatherInput(usize, Vec<u32>, Vec<f64>, Vec<f64>),
    /// Entries that are kept, source entries of the region's rows.
    LocalBoundaryPruningRatio(usize, usize),
    /// Members, entries that are kept.
    LocalStorageBytes(usize, usize),
    /// Whether the width is 6, and the lent lists.
    DenseBlockFromCsr32(Csr, bool, CsrRoom),
    DenseBlockCheck(Blocks),
    /// x, y.
    DenseBlockApply(Blocks, Vec<f64>, Vec<f64>),
    DenseBlockFastBlockFraction(Blocks),
    /// Places with an entry, places of the blocks inside the frame.
    DenseBlockBlockFill(usize, usize),
    /// Values of the blocks, places with an entry.
    DenseBlockValuePaddingRatio(usize, usize),
    /// Block rows, blocks.
    DenseBlockMetadataBytes(usize, usize),
    /// Block rows, blocks, values of the blocks.
    DenseBlockStorageBytes(usize, usize, usize),
}

/// What comes of a call. `result` has the answer's fields after the refusal, in the order of the C struct, each as a number: a
/// usize as it is, a bool as 0 or 1, an f64 by its bits (`bits`), all 0 where the call is refused. `lists` has every list that
/// the call was lent to write, in the order of the parameters, whole, as it stands after the call.
#[derive(Clone, Debug, Default, PartialEq, Eq)]
pub struct Outcome {
    pub number: u32,
    pub expected: usize,
    pub actual: usize,
    pub result: Vec<u64>,
    pub lists: Vec<Vec<u64>>,
}

/// The bits of an f64, any NaN as one and the same.
pub fn bits(x: f64) -> u64 {
    if x.is_nan() {
        f64::NAN.to_bits() & !(1 << 63)
    } else {
        x.to_bits()
    }
}

impl Call {
    /// The name of the call in the C interface, less `denimrasp_`.
    pub fn name(&self) -> &'static str {
        use Call::*;
        match self {
            MaskCheck(..) => "mask_check",
            MaskContains(..) => "mask_contains",
            MaskCountOnes(..) => "mask_count_ones",
            MaskIsEmpty(..) => "mask_is_empty",
            MaskNew(..) => "mask_new",
            MaskFromIndices(..) => "mask_from_indices",
            MaskSet(..) => "mask_set",
            MaskOrWord(..) => "mask_or_word",
            MaskIndices(..) => "mask_indices",
            MaskUnionAssign(..) => "mask_union_assign",
            MaskIntersectAssign(..) => "mask_intersect_assign",
            MaskAndNotAssign(..) => "mask_and_not_assign",
            MaskIntersects(..) => "mask_intersects",
            Csr32Check(..) => "csr32_check",
            Csr32Apply(..) => "csr32_apply",
            Csr32MetadataBytes(..) => "csr32_metadata_bytes",
            Csr32StorageBytes(..) => "csr32_storage_bytes",
            TopologyCheck(..) => "topology_check",
            TopologyFromCsr32(..) => "topology_from_csr32",
            TopologyRowWords(..) => "topology_row_words",
            TopologyRowNonemptyWords(..) => "topology_row_nonempty_words",
            TopologyRowPopcount(..) => "topology_row_popcount",
            TopologyRowContains(..) => "topology_row_contains",
            TopologyRowRank(..) => "topology_row_rank",
            TopologyRowSelect(..) => "topology_row_select",
            TopologyStats(..) => "topology_stats",
            TopologyUnion(..) => "topology_union",
            TopologyIntersection(..) => "topology_intersection",
            TopologyAndNot(..) => "topology_and_not",
            TopologyXor(..) => "topology_xor",
            MetadataFirstCheck(..) => "metadata_first_check",
            MetadataFirstCheckMerge(..) => "metadata_first_check_merge",
            MetadataFirstFromCsr32(..) => "metadata_first_from_csr32",
            MetadataFirstRowValues(..) => "metadata_first_row_values",
            MetadataFirstStats(..) => "metadata_first_stats",
            MetadataFirstSparseDotRow(..) => "metadata_first_sparse_dot_row",
            MetadataFirstSparseDotRows(..) => "metadata_first_sparse_dot_rows",
            WordBaseCol(..) => "word_base_col",
            WordPopcount(..) => "word_popcount",
            WordContainsOffset(..) => "word_contains_offset",
            WordRank(..) => "word_rank",
            WordSelect(..) => "word_select",
            TopologyAverageWordNnz(..) => "topology_average_word_nnz",
            TopologyWordFillRatio(..) => "topology_word_fill_ratio",
            TopologyMetadataBytesPerNnz(..) => "topology_metadata_bytes_per_nnz",
            MetadataFirstPruningRatio(..) => "metadata_first_pruning_ratio",
            MetadataFirstEmptyWordRatio(..) => "metadata_first_empty_word_ratio",
            MetadataFirstTotalEstimatedBytes(..) => "metadata_first_total_estimated_bytes",
            MetadataFirstAccumulate(..) => "metadata_first_accumulate",
            AbtmValidate(..) => "abtm_validate",
            AbtmCheck(..) => "abtm_check",
            AbtmFromCsr32(..) => "abtm_from_csr32",
            AbtmTileKind(..) => "abtm_tile_kind",
            AbtmTileBaseCol(..) => "abtm_tile_base_col",
            AbtmRowTiles(..) => "abtm_row_tiles",
            AbtmStats(..) => "abtm_stats",
            AbtmMetadataBytesPerNnz(..) => "abtm_metadata_bytes_per_nnz",
            AbtmTotalEstimatedBytes(..) => "abtm_total_estimated_bytes",
            AbtmApply(..) => "abtm_apply",
            AbtmExpandMaskOneHop(..) => "abtm_expand_mask_one_hop",
            RestrictedFromCsr32(..) => "restricted_from_csr32",
            RestrictedFromAbtm(..) => "restricted_from_abtm",
            RestrictedRetainedFraction(..) => "restricted_retained_fraction",
            RestrictedStorageBytes(..) => "restricted_storage_bytes",
            LocalFromCsr32(..) => "local_from_csr32",
            LocalCheck(..) => "local_check",
            LocalGatherInput(..) => "local_gather_input",
            LocalBoundaryPruningRatio(..) => "local_boundary_pruning_ratio",
            LocalStorageBytes(..) => "local_storage_bytes",
            DenseBlockFromCsr32(..) => "dense_block_from_csr32",
            DenseBlockCheck(..) => "dense_block_check",
            DenseBlockApply(..) => "dense_block_apply",
            DenseBlockFastBlockFraction(..) => "dense_block_fast_block_fraction",
            DenseBlockBlockFill(..) => "dense_block_block_fill",
            DenseBlockValuePaddingRatio(..) => "dense_block_value_padding_ratio",
            DenseBlockMetadataBytes(..) => "dense_block_metadata_bytes",
            DenseBlockStorageBytes(..) => "dense_block_storage_bytes",
        }
    }
}
