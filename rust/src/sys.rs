//! The C interface as it is: `crates/denimrasp/denimrasp.h` in Rust. Each list is a pointer and a length.
//!
//! # Safety
//!
//! What the header says: pointers that are not null and aligned, lengths that are right, no list that is written to overlapping
//! another. Nothing else is asked of a caller.
#![allow(missing_docs, clippy::too_many_arguments)]

#[repr(C)]
#[derive(Clone, Copy, Debug, PartialEq)]
pub struct Verdict {
    pub number: u32,
    pub expected: usize,
    pub actual: usize,
}

#[repr(C)]
#[derive(Clone, Copy, Debug, PartialEq)]
pub struct Count {
    pub number: u32,
    pub expected: usize,
    pub actual: usize,
    pub count: usize,
}

#[repr(C)]
#[derive(Clone, Copy, Debug, PartialEq)]
pub struct Bool {
    pub number: u32,
    pub expected: usize,
    pub actual: usize,
    pub is: bool,
}

#[repr(C)]
#[derive(Clone, Copy, Debug, PartialEq)]
pub struct Select {
    pub number: u32,
    pub expected: usize,
    pub actual: usize,
    pub found: bool,
    pub column: usize,
}

#[repr(C)]
#[derive(Clone, Copy, Debug, PartialEq)]
pub struct Part {
    pub number: u32,
    pub expected: usize,
    pub actual: usize,
    pub start: usize,
    pub end: usize,
}

#[repr(C)]
#[derive(Clone, Copy, Debug, PartialEq)]
pub struct Topology {
    pub number: u32,
    pub expected: usize,
    pub actual: usize,
    pub words: usize,
    pub structural_nnz: usize,
}

#[repr(C)]
#[derive(Clone, Copy, Debug, PartialEq)]
pub struct TopologyStats {
    pub number: u32,
    pub expected: usize,
    pub actual: usize,
    pub nrows: usize,
    pub ncols: usize,
    pub structural_nnz: usize,
    pub nonempty_words: usize,
    pub metadata_bytes: usize,
}

#[repr(C)]
#[derive(Clone, Copy, Debug, PartialEq)]
pub struct StoreStats {
    pub number: u32,
    pub expected: usize,
    pub actual: usize,
    pub nrows: usize,
    pub ncols: usize,
    pub structural_nnz: usize,
    pub topology_metadata_bytes: usize,
    pub value_row_ptr_bytes: usize,
    pub packed_value_bytes: usize,
}

#[repr(C)]
#[derive(Clone, Copy, Debug, PartialEq)]
pub struct Dot {
    pub number: u32,
    pub expected: usize,
    pub actual: usize,
    pub sum: f64,
    pub candidate_products: usize,
    pub executed_products: usize,
    pub skipped_products: usize,
    pub topology_words: usize,
    pub active_words: usize,
}

#[repr(C)]
#[derive(Clone, Copy, Debug, PartialEq)]
pub struct Totals {
    pub number: u32,
    pub expected: usize,
    pub actual: usize,
    pub candidate_products: usize,
    pub executed_products: usize,
    pub skipped_products: usize,
    pub topology_words: usize,
    pub active_words: usize,
}

#[repr(C)]
#[derive(Clone, Copy, Debug, PartialEq)]
pub struct Tiles {
    pub number: u32,
    pub expected: usize,
    pub actual: usize,
    pub tiles: usize,
    pub value_slots: usize,
    pub matrix_nnz: usize,
}

#[repr(C)]
#[derive(Clone, Copy, Debug, PartialEq)]
pub struct TileStats {
    pub number: u32,
    pub expected: usize,
    pub actual: usize,
    pub nrows: usize,
    pub ncols: usize,
    pub matrix_nnz: usize,
    pub tiles: usize,
    pub sparse_tiles: usize,
    pub bitmap_tiles: usize,
    pub dense_tiles: usize,
    pub value_slots: usize,
    pub metadata_bytes: usize,
}

#[repr(C)]
#[derive(Clone, Copy, Debug, PartialEq)]
pub struct Restriction {
    pub number: u32,
    pub expected: usize,
    pub actual: usize,
    pub nrows: usize,
    pub ncols: usize,
    pub source_nnz: usize,
    pub retained_nnz: usize,
}

#[repr(C)]
#[derive(Clone, Copy, Debug, PartialEq)]
pub struct Region {
    pub number: u32,
    pub expected: usize,
    pub actual: usize,
    pub global_size: usize,
    pub local_nodes: usize,
    pub local_nnz: usize,
    pub source_row_nnz: usize,
}

#[repr(C)]
#[derive(Clone, Copy, Debug, PartialEq)]
pub struct Blocks {
    pub number: u32,
    pub expected: usize,
    pub actual: usize,
    pub nrows: usize,
    pub ncols: usize,
    pub block_rows: usize,
    pub unique_blocks: usize,
    pub dense_value_slots: usize,
    pub structural_slots: usize,
    pub valid_dense_slots: usize,
}

#[repr(C)]
#[derive(Clone, Copy, Debug, PartialEq)]
pub struct Ratio {
    pub number: u32,
    pub expected: usize,
    pub actual: usize,
    pub ratio: f64,
}

unsafe extern "C" {
    pub fn denimrasp_mask_check(len: usize, words: *const u64, words_len: usize) -> Verdict;
    pub fn denimrasp_mask_contains(
        len: usize,
        words: *const u64,
        words_len: usize,
        index: usize,
    ) -> Bool;
    pub fn denimrasp_mask_count_ones(len: usize, words: *const u64, words_len: usize) -> Count;
    pub fn denimrasp_mask_is_empty(len: usize, words: *const u64, words_len: usize) -> Bool;
    pub fn denimrasp_mask_new(len: usize, words: *mut u64, words_len: usize) -> Verdict;
    pub fn denimrasp_mask_from_indices(
        len: usize,
        indices: *const usize,
        indices_len: usize,
        words: *mut u64,
        words_len: usize,
    ) -> Verdict;
    pub fn denimrasp_mask_set(
        len: usize,
        words: *mut u64,
        words_len: usize,
        index: usize,
        value: bool,
    ) -> Verdict;
    pub fn denimrasp_mask_or_word(
        len: usize,
        words: *mut u64,
        words_len: usize,
        word_index: usize,
        bits: u64,
    ) -> Verdict;
    pub fn denimrasp_mask_indices(
        len: usize,
        words: *const u64,
        words_len: usize,
        out: *mut usize,
        out_len: usize,
    ) -> Count;
    pub fn denimrasp_mask_union_assign(
        len: usize,
        words: *mut u64,
        words_len: usize,
        other_len: usize,
        other: *const u64,
        other_count: usize,
    ) -> Verdict;
    pub fn denimrasp_mask_intersect_assign(
        len: usize,
        words: *mut u64,
        words_len: usize,
        other_len: usize,
        other: *const u64,
        other_count: usize,
    ) -> Verdict;
    pub fn denimrasp_mask_and_not_assign(
        len: usize,
        words: *mut u64,
        words_len: usize,
        other_len: usize,
        other: *const u64,
        other_count: usize,
    ) -> Verdict;
    pub fn denimrasp_mask_intersects(
        len: usize,
        words: *const u64,
        words_len: usize,
        other_len: usize,
        other: *const u64,
        other_count: usize,
    ) -> Bool;
    pub fn denimrasp_csr32_check(
        nrows: usize,
        ncols: usize,
        row_ptr: *const u32,
        row_ptr_len: usize,
        col_idx: *const u32,
        col_idx_len: usize,
        values: *const f64,
        values_len: usize,
    ) -> Verdict;
    pub fn denimrasp_csr32_apply(
        nrows: usize,
        ncols: usize,
        row_ptr: *const u32,
        row_ptr_len: usize,
        col_idx: *const u32,
        col_idx_len: usize,
        values: *const f64,
        values_len: usize,
        x: *const f64,
        x_len: usize,
        y: *mut f64,
        y_len: usize,
    ) -> Verdict;
    pub fn denimrasp_csr32_metadata_bytes(
        nrows: usize,
        ncols: usize,
        row_ptr: *const u32,
        row_ptr_len: usize,
        col_idx: *const u32,
        col_idx_len: usize,
        values: *const f64,
        values_len: usize,
    ) -> Count;
    pub fn denimrasp_csr32_storage_bytes(
        nrows: usize,
        ncols: usize,
        row_ptr: *const u32,
        row_ptr_len: usize,
        col_idx: *const u32,
        col_idx_len: usize,
        values: *const f64,
        values_len: usize,
    ) -> Count;
    pub fn denimrasp_topology_check(
        nrows: usize,
        ncols: usize,
        row_word_ptr: *const u32,
        row_word_ptr_len: usize,
        word_indices: *const u32,
        word_indices_len: usize,
        masks: *const u64,
        masks_len: usize,
        structural_nnz: usize,
    ) -> Verdict;
    pub fn denimrasp_topology_from_csr32(
        nrows: usize,
        ncols: usize,
        row_ptr: *const u32,
        row_ptr_len: usize,
        col_idx: *const u32,
        col_idx_len: usize,
        values: *const f64,
        values_len: usize,
        row_word_ptr: *mut u32,
        row_word_ptr_len: usize,
        word_indices: *mut u32,
        word_indices_len: usize,
        masks: *mut u64,
        masks_len: usize,
    ) -> Topology;
    pub fn denimrasp_topology_row_words(
        nrows: usize,
        ncols: usize,
        row_word_ptr: *const u32,
        row_word_ptr_len: usize,
        word_indices: *const u32,
        word_indices_len: usize,
        masks: *const u64,
        masks_len: usize,
        structural_nnz: usize,
        row: usize,
    ) -> Part;
    pub fn denimrasp_topology_row_nonempty_words(
        nrows: usize,
        ncols: usize,
        row_word_ptr: *const u32,
        row_word_ptr_len: usize,
        word_indices: *const u32,
        word_indices_len: usize,
        masks: *const u64,
        masks_len: usize,
        structural_nnz: usize,
        row: usize,
    ) -> Count;
    pub fn denimrasp_topology_row_popcount(
        nrows: usize,
        ncols: usize,
        row_word_ptr: *const u32,
        row_word_ptr_len: usize,
        word_indices: *const u32,
        word_indices_len: usize,
        masks: *const u64,
        masks_len: usize,
        structural_nnz: usize,
        row: usize,
    ) -> Count;
    pub fn denimrasp_topology_row_contains(
        nrows: usize,
        ncols: usize,
        row_word_ptr: *const u32,
        row_word_ptr_len: usize,
        word_indices: *const u32,
        word_indices_len: usize,
        masks: *const u64,
        masks_len: usize,
        structural_nnz: usize,
        row: usize,
        col: usize,
    ) -> Bool;
    pub fn denimrasp_topology_row_rank(
        nrows: usize,
        ncols: usize,
        row_word_ptr: *const u32,
        row_word_ptr_len: usize,
        word_indices: *const u32,
        word_indices_len: usize,
        masks: *const u64,
        masks_len: usize,
        structural_nnz: usize,
        row: usize,
        col: usize,
    ) -> Count;
    pub fn denimrasp_topology_row_select(
        nrows: usize,
        ncols: usize,
        row_word_ptr: *const u32,
        row_word_ptr_len: usize,
        word_indices: *const u32,
        word_indices_len: usize,
        masks: *const u64,
        masks_len: usize,
        structural_nnz: usize,
        row: usize,
        ordinal: usize,
    ) -> Select;
    pub fn denimrasp_topology_stats(
        nrows: usize,
        ncols: usize,
        row_word_ptr: *const u32,
        row_word_ptr_len: usize,
        word_indices: *const u32,
        word_indices_len: usize,
        masks: *const u64,
        masks_len: usize,
        structural_nnz: usize,
    ) -> TopologyStats;
    pub fn denimrasp_topology_union(
        nrows: usize,
        ncols: usize,
        row_word_ptr: *const u32,
        row_word_ptr_len: usize,
        word_indices: *const u32,
        word_indices_len: usize,
        masks: *const u64,
        masks_len: usize,
        structural_nnz: usize,
        other_nrows: usize,
        other_ncols: usize,
        other_row_word_ptr: *const u32,
        other_row_word_ptr_len: usize,
        other_word_indices: *const u32,
        other_word_indices_len: usize,
        other_masks: *const u64,
        other_masks_len: usize,
        other_structural_nnz: usize,
        out_ptr: *mut u32,
        out_ptr_len: usize,
        out_words: *mut u32,
        out_words_len: usize,
        out_masks: *mut u64,
        out_masks_len: usize,
    ) -> Topology;
    pub fn denimrasp_topology_intersection(
        nrows: usize,
        ncols: usize,
        row_word_ptr: *const u32,
        row_word_ptr_len: usize,
        word_indices: *const u32,
        word_indices_len: usize,
        masks: *const u64,
        masks_len: usize,
        structural_nnz: usize,
        other_nrows: usize,
        other_ncols: usize,
        other_row_word_ptr: *const u32,
        other_row_word_ptr_len: usize,
        other_word_indices: *const u32,
        other_word_indices_len: usize,
        other_masks: *const u64,
        other_masks_len: usize,
        other_structural_nnz: usize,
        out_ptr: *mut u32,
        out_ptr_len: usize,
        out_words: *mut u32,
        out_words_len: usize,
        out_masks: *mut u64,
        out_masks_len: usize,
    ) -> Topology;
    pub fn denimrasp_topology_and_not(
        nrows: usize,
        ncols: usize,
        row_word_ptr: *const u32,
        row_word_ptr_len: usize,
        word_indices: *const u32,
        word_indices_len: usize,
        masks: *const u64,
        masks_len: usize,
        structural_nnz: usize,
        other_nrows: usize,
        other_ncols: usize,
        other_row_word_ptr: *const u32,
        other_row_word_ptr_len: usize,
        other_word_indices: *const u32,
        other_word_indices_len: usize,
        other_masks: *const u64,
        other_masks_len: usize,
        other_structural_nnz: usize,
        out_ptr: *mut u32,
        out_ptr_len: usize,
        out_words: *mut u32,
        out_words_len: usize,
        out_masks: *mut u64,
        out_masks_len: usize,
    ) -> Topology;
    pub fn denimrasp_topology_xor(
        nrows: usize,
        ncols: usize,
        row_word_ptr: *const u32,
        row_word_ptr_len: usize,
        word_indices: *const u32,
        word_indices_len: usize,
        masks: *const u64,
        masks_len: usize,
        structural_nnz: usize,
        other_nrows: usize,
        other_ncols: usize,
        other_row_word_ptr: *const u32,
        other_row_word_ptr_len: usize,
        other_word_indices: *const u32,
        other_word_indices_len: usize,
        other_masks: *const u64,
        other_masks_len: usize,
        other_structural_nnz: usize,
        out_ptr: *mut u32,
        out_ptr_len: usize,
        out_words: *mut u32,
        out_words_len: usize,
        out_masks: *mut u64,
        out_masks_len: usize,
    ) -> Topology;
    pub fn denimrasp_metadata_first_check(
        nrows: usize,
        ncols: usize,
        row_word_ptr: *const u32,
        row_word_ptr_len: usize,
        word_indices: *const u32,
        word_indices_len: usize,
        masks: *const u64,
        masks_len: usize,
        structural_nnz: usize,
        row_value_ptr: *const u32,
        row_value_ptr_len: usize,
        values: *const f64,
        values_len: usize,
    ) -> Verdict;
    pub fn denimrasp_metadata_first_check_merge(
        nrows: usize,
        ncols: usize,
        row_ptr: *const u32,
        row_ptr_len: usize,
        col_idx: *const u32,
        col_idx_len: usize,
        values: *const f64,
        values_len: usize,
    ) -> Verdict;
    pub fn denimrasp_metadata_first_from_csr32(
        nrows: usize,
        ncols: usize,
        row_ptr: *const u32,
        row_ptr_len: usize,
        col_idx: *const u32,
        col_idx_len: usize,
        values: *const f64,
        values_len: usize,
        row_word_ptr: *mut u32,
        row_word_ptr_len: usize,
        word_indices: *mut u32,
        word_indices_len: usize,
        masks: *mut u64,
        masks_len: usize,
        row_value_ptr: *mut u32,
        row_value_ptr_len: usize,
        packed: *mut f64,
        packed_len: usize,
    ) -> Topology;
    pub fn denimrasp_metadata_first_row_values(
        nrows: usize,
        ncols: usize,
        row_word_ptr: *const u32,
        row_word_ptr_len: usize,
        word_indices: *const u32,
        word_indices_len: usize,
        masks: *const u64,
        masks_len: usize,
        structural_nnz: usize,
        row_value_ptr: *const u32,
        row_value_ptr_len: usize,
        values: *const f64,
        values_len: usize,
        row: usize,
    ) -> Part;
    pub fn denimrasp_metadata_first_stats(
        nrows: usize,
        ncols: usize,
        row_word_ptr: *const u32,
        row_word_ptr_len: usize,
        word_indices: *const u32,
        word_indices_len: usize,
        masks: *const u64,
        masks_len: usize,
        structural_nnz: usize,
        row_value_ptr: *const u32,
        row_value_ptr_len: usize,
        values: *const f64,
        values_len: usize,
    ) -> StoreStats;
    pub fn denimrasp_metadata_first_sparse_dot_row(
        nrows: usize,
        ncols: usize,
        row_word_ptr: *const u32,
        row_word_ptr_len: usize,
        word_indices: *const u32,
        word_indices_len: usize,
        masks: *const u64,
        masks_len: usize,
        structural_nnz: usize,
        row_value_ptr: *const u32,
        row_value_ptr_len: usize,
        values: *const f64,
        values_len: usize,
        row: usize,
        mask_len: usize,
        mask: *const u64,
        mask_count: usize,
        x: *const f64,
        x_len: usize,
    ) -> Dot;
    pub fn denimrasp_metadata_first_sparse_dot_rows(
        nrows: usize,
        ncols: usize,
        row_word_ptr: *const u32,
        row_word_ptr_len: usize,
        word_indices: *const u32,
        word_indices_len: usize,
        masks: *const u64,
        masks_len: usize,
        structural_nnz: usize,
        row_value_ptr: *const u32,
        row_value_ptr_len: usize,
        values: *const f64,
        values_len: usize,
        mask_len: usize,
        mask: *const u64,
        mask_count: usize,
        x: *const f64,
        x_len: usize,
        sums: *mut f64,
        sums_len: usize,
        executed: *mut u32,
        executed_len: usize,
    ) -> Verdict;
    pub fn denimrasp_word_base_col(word_index: u32) -> usize;
    pub fn denimrasp_word_popcount(mask: u64) -> usize;
    pub fn denimrasp_word_contains_offset(mask: u64, offset: usize) -> bool;
    pub fn denimrasp_word_rank(mask: u64, offset: usize) -> Count;
    pub fn denimrasp_word_select(mask: u64, ordinal: usize) -> Select;
    pub fn denimrasp_topology_average_word_nnz(structural_nnz: usize, nonempty_words: usize)
    -> f64;
    pub fn denimrasp_topology_word_fill_ratio(structural_nnz: usize, nonempty_words: usize) -> f64;
    pub fn denimrasp_topology_metadata_bytes_per_nnz(
        metadata_bytes: usize,
        structural_nnz: usize,
    ) -> f64;
    pub fn denimrasp_metadata_first_pruning_ratio(
        skipped_products: usize,
        candidate_products: usize,
    ) -> f64;
    pub fn denimrasp_metadata_first_empty_word_ratio(
        topology_words: usize,
        active_words: usize,
    ) -> f64;
    pub fn denimrasp_metadata_first_total_estimated_bytes(
        topology_metadata_bytes: usize,
        value_row_ptr_bytes: usize,
        packed_value_bytes: usize,
    ) -> usize;
    pub fn denimrasp_metadata_first_accumulate(
        candidate_products: usize,
        executed_products: usize,
        skipped_products: usize,
        topology_words: usize,
        active_words: usize,
        other_candidate_products: usize,
        other_executed_products: usize,
        other_skipped_products: usize,
        other_topology_words: usize,
        other_active_words: usize,
    ) -> Totals;
    pub fn denimrasp_abtm_validate(sparse_max_nnz: u8, dense_min_nnz: u8) -> Verdict;
    pub fn denimrasp_abtm_check(
        nrows: usize,
        ncols: usize,
        row_tile_ptr: *const u32,
        row_tile_ptr_len: usize,
        masks: *const u64,
        masks_len: usize,
        value_offsets: *const u32,
        value_offsets_len: usize,
        metas: *const u32,
        metas_len: usize,
        values: *const f64,
        values_len: usize,
        matrix_nnz: usize,
    ) -> Verdict;
    pub fn denimrasp_abtm_from_csr32(
        nrows: usize,
        ncols: usize,
        row_ptr: *const u32,
        row_ptr_len: usize,
        col_idx: *const u32,
        col_idx_len: usize,
        values: *const f64,
        values_len: usize,
        sparse_max_nnz: u8,
        dense_min_nnz: u8,
        row_tile_ptr: *mut u32,
        row_tile_ptr_len: usize,
        masks: *mut u64,
        masks_len: usize,
        value_offsets: *mut u32,
        value_offsets_len: usize,
        metas: *mut u32,
        metas_len: usize,
        tile_values: *mut f64,
        tile_values_len: usize,
    ) -> Tiles;
    pub fn denimrasp_abtm_tile_kind(meta: u32) -> Count;
    pub fn denimrasp_abtm_tile_base_col(meta: u32) -> usize;
    pub fn denimrasp_abtm_row_tiles(
        nrows: usize,
        ncols: usize,
        row_tile_ptr: *const u32,
        row_tile_ptr_len: usize,
        masks: *const u64,
        masks_len: usize,
        value_offsets: *const u32,
        value_offsets_len: usize,
        metas: *const u32,
        metas_len: usize,
        values: *const f64,
        values_len: usize,
        matrix_nnz: usize,
        row: usize,
    ) -> Part;
    pub fn denimrasp_abtm_stats(
        nrows: usize,
        ncols: usize,
        row_tile_ptr: *const u32,
        row_tile_ptr_len: usize,
        masks: *const u64,
        masks_len: usize,
        value_offsets: *const u32,
        value_offsets_len: usize,
        metas: *const u32,
        metas_len: usize,
        values: *const f64,
        values_len: usize,
        matrix_nnz: usize,
    ) -> TileStats;
    pub fn denimrasp_abtm_metadata_bytes_per_nnz(metadata_bytes: usize, matrix_nnz: usize) -> f64;
    pub fn denimrasp_abtm_total_estimated_bytes(metadata_bytes: usize, value_slots: usize)
    -> usize;
    pub fn denimrasp_abtm_apply(
        nrows: usize,
        ncols: usize,
        row_tile_ptr: *const u32,
        row_tile_ptr_len: usize,
        masks: *const u64,
        masks_len: usize,
        value_offsets: *const u32,
        value_offsets_len: usize,
        metas: *const u32,
        metas_len: usize,
        values: *const f64,
        values_len: usize,
        matrix_nnz: usize,
        x: *const f64,
        x_len: usize,
        y: *mut f64,
        y_len: usize,
    ) -> Verdict;
    pub fn denimrasp_abtm_expand_mask_one_hop(
        nrows: usize,
        ncols: usize,
        row_tile_ptr: *const u32,
        row_tile_ptr_len: usize,
        masks: *const u64,
        masks_len: usize,
        value_offsets: *const u32,
        value_offsets_len: usize,
        metas: *const u32,
        metas_len: usize,
        values: *const f64,
        values_len: usize,
        matrix_nnz: usize,
        mask_len: usize,
        mask: *const u64,
        mask_count: usize,
        out: *mut u64,
        out_len: usize,
    ) -> Verdict;
    pub fn denimrasp_restricted_from_csr32(
        nrows: usize,
        ncols: usize,
        row_ptr: *const u32,
        row_ptr_len: usize,
        col_idx: *const u32,
        col_idx_len: usize,
        values: *const f64,
        values_len: usize,
        mask_len: usize,
        mask: *const u64,
        mask_count: usize,
        out_row_ptr: *mut u32,
        out_row_ptr_len: usize,
        out_col_idx: *mut u32,
        out_col_idx_len: usize,
        out_values: *mut f64,
        out_values_len: usize,
    ) -> Restriction;
    pub fn denimrasp_restricted_from_abtm(
        nrows: usize,
        ncols: usize,
        row_tile_ptr: *const u32,
        row_tile_ptr_len: usize,
        masks: *const u64,
        masks_len: usize,
        value_offsets: *const u32,
        value_offsets_len: usize,
        metas: *const u32,
        metas_len: usize,
        values: *const f64,
        values_len: usize,
        matrix_nnz: usize,
        mask_len: usize,
        mask: *const u64,
        mask_count: usize,
        out_row_ptr: *mut u32,
        out_row_ptr_len: usize,
        out_col_idx: *mut u32,
        out_col_idx_len: usize,
        out_values: *mut f64,
        out_values_len: usize,
    ) -> Restriction;
    pub fn denimrasp_restricted_retained_fraction(retained_nnz: usize, source_nnz: usize) -> f64;
    pub fn denimrasp_restricted_storage_bytes(
        nrows: usize,
        ncols: usize,
        retained_nnz: usize,
    ) -> usize;
    pub fn denimrasp_local_from_csr32(
        nrows: usize,
        ncols: usize,
        row_ptr: *const u32,
        row_ptr_len: usize,
        col_idx: *const u32,
        col_idx_len: usize,
        values: *const f64,
        values_len: usize,
        region_len: usize,
        region: *const u64,
        region_count: usize,
        members: *mut u32,
        members_len: usize,
        out_row_ptr: *mut u32,
        out_row_ptr_len: usize,
        out_col_idx: *mut u32,
        out_col_idx_len: usize,
        out_values: *mut f64,
        out_values_len: usize,
    ) -> Region;
    pub fn denimrasp_local_check(
        global_size: usize,
        members: *const u32,
        members_len: usize,
    ) -> Verdict;
    pub fn denimrasp_local_gather_input(
        global_size: usize,
        members: *const u32,
        members_len: usize,
        global: *const f64,
        global_len: usize,
        local: *mut f64,
        local_len: usize,
    ) -> Verdict;
    pub fn denimrasp_local_boundary_pruning_ratio(local_nnz: usize, source_row_nnz: usize) -> f64;
    pub fn denimrasp_local_storage_bytes(local_nodes: usize, local_nnz: usize) -> usize;
    pub fn denimrasp_dense_block_from_csr32(
        nrows: usize,
        ncols: usize,
        row_ptr: *const u32,
        row_ptr_len: usize,
        col_idx: *const u32,
        col_idx_len: usize,
        values: *const f64,
        values_len: usize,
        six: bool,
        out_row_ptr: *mut u32,
        out_row_ptr_len: usize,
        out_col_idx: *mut u32,
        out_col_idx_len: usize,
        out_values: *mut f64,
        out_values_len: usize,
    ) -> Blocks;
    pub fn denimrasp_dense_block_check(
        nrows: usize,
        ncols: usize,
        six: bool,
        row_ptr: *const u32,
        row_ptr_len: usize,
        col_idx: *const u32,
        col_idx_len: usize,
        values: *const f64,
        values_len: usize,
    ) -> Verdict;
    pub fn denimrasp_dense_block_apply(
        nrows: usize,
        ncols: usize,
        six: bool,
        row_ptr: *const u32,
        row_ptr_len: usize,
        col_idx: *const u32,
        col_idx_len: usize,
        values: *const f64,
        values_len: usize,
        x: *const f64,
        x_len: usize,
        y: *mut f64,
        y_len: usize,
    ) -> Verdict;
    pub fn denimrasp_dense_block_fast_block_fraction(
        nrows: usize,
        ncols: usize,
        six: bool,
        row_ptr: *const u32,
        row_ptr_len: usize,
        col_idx: *const u32,
        col_idx_len: usize,
        values: *const f64,
        values_len: usize,
    ) -> Ratio;
    pub fn denimrasp_dense_block_block_fill(
        structural_slots: usize,
        valid_dense_slots: usize,
    ) -> f64;
    pub fn denimrasp_dense_block_value_padding_ratio(
        dense_value_slots: usize,
        structural_slots: usize,
    ) -> f64;
    pub fn denimrasp_dense_block_metadata_bytes(block_rows: usize, unique_blocks: usize) -> usize;
    pub fn denimrasp_dense_block_storage_bytes(
        block_rows: usize,
        unique_blocks: usize,
        dense_value_slots: usize,
    ) -> usize;
}
