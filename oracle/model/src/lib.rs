//! The model: what document 01 says comes of a call. It is written from document 01 alone, with sets and maps, so that it shares
//! no method with the library or with hybit's Rust.
//!
//! Each module has the records of one part: `sizes` is refusal 1 of a record, `rules` the refusals of its own, and each call's
//! checks stand in the order in which document 01 has them.

mod abtm;
mod answer;
mod below;
mod csr32;
pub mod demand;
mod dense_block;
mod mask;
mod metadata_first;
mod restricted;
mod topology;
mod words;

#[cfg(test)]
mod tests;

pub use below::judge_below;
use calls::{Call, Outcome};
use topology::Operation;

/// What comes of the call. No input stops it.
pub fn judge(call: &Call) -> Outcome {
    use Call::*;
    match call {
        MaskCheck(m) => mask::judge_check(m),
        MaskContains(m, index) => mask::judge_contains(m, *index),
        MaskCountOnes(m) => mask::judge_count_ones(m),
        MaskIsEmpty(m) => mask::judge_is_empty(m),
        MaskNew(len, room) => mask::judge_new(*len, room),
        MaskFromIndices(len, indices, room) => mask::judge_from_indices(*len, indices, room),
        MaskSet(m, index, value) => mask::judge_set(m, *index, *value),
        MaskOrWord(m, word, bits) => mask::judge_or_word(m, *word, *bits),
        MaskIndices(m, room) => mask::judge_indices(m, room),
        MaskUnionAssign(m, other) => mask::judge_assign(m, other, |a, b| a | b),
        MaskIntersectAssign(m, other) => mask::judge_assign(m, other, |a, b| a & b),
        MaskAndNotAssign(m, other) => mask::judge_assign(m, other, |a, b| a - b),
        MaskIntersects(m, other) => mask::judge_intersects(m, other),
        Csr32Check(csr) => csr32::judge_check(csr),
        Csr32Apply(csr, x, y) => csr32::judge_apply(csr, x, y),
        Csr32MetadataBytes(csr) => csr32::judge_metadata_bytes(csr),
        Csr32StorageBytes(csr) => csr32::judge_storage_bytes(csr),
        TopologyCheck(t) => topology::judge_check(t),
        TopologyFromCsr32(csr, room) => topology::judge_from_csr32(csr, room),
        TopologyRowWords(t, row) => topology::judge_row_words(t, *row),
        TopologyRowNonemptyWords(t, row) => topology::judge_row_nonempty_words(t, *row),
        TopologyRowPopcount(t, row) => topology::judge_row_popcount(t, *row),
        TopologyRowContains(t, row, col) => topology::judge_row_contains(t, *row, *col),
        TopologyRowRank(t, row, col) => topology::judge_row_rank(t, *row, *col),
        TopologyRowSelect(t, row, ordinal) => topology::judge_row_select(t, *row, *ordinal),
        TopologyStats(t) => topology::judge_stats(t),
        TopologyUnion(a, b, room) => topology::judge_combine(Operation::Union, a, b, room),
        TopologyIntersection(a, b, room) => {
            topology::judge_combine(Operation::Intersection, a, b, room)
        }
        TopologyAndNot(a, b, room) => topology::judge_combine(Operation::AndNot, a, b, room),
        TopologyXor(a, b, room) => topology::judge_combine(Operation::Xor, a, b, room),
        MetadataFirstCheck(store) => metadata_first::judge_check(store),
        MetadataFirstCheckMerge(csr) => metadata_first::judge_check_merge(csr),
        MetadataFirstFromCsr32(csr, room) => metadata_first::judge_from_csr32(csr, room),
        MetadataFirstRowValues(store, row) => metadata_first::judge_row_values(store, *row),
        MetadataFirstStats(store) => metadata_first::judge_stats(store),
        MetadataFirstSparseDotRow(store, row, m, x) => {
            metadata_first::judge_sparse_dot_row(store, *row, m, x)
        }
        MetadataFirstSparseDotRows(store, m, x, sums, executed) => {
            metadata_first::judge_sparse_dot_rows(store, m, x, sums, executed)
        }
        WordBaseCol(word) => words::judge_base_col(*word),
        WordPopcount(bits) => words::judge_popcount(*bits),
        WordContainsOffset(bits, offset) => words::judge_contains_offset(*bits, *offset),
        WordRank(bits, offset) => words::judge_rank(*bits, *offset),
        WordSelect(bits, ordinal) => words::judge_select(*bits, *ordinal),
        TopologyAverageWordNnz(ones, words) => topology::judge_average_word_nnz(*ones, *words),
        TopologyWordFillRatio(ones, words) => topology::judge_word_fill_ratio(*ones, *words),
        TopologyMetadataBytesPerNnz(bytes, ones) => {
            topology::judge_metadata_bytes_per_nnz(*bytes, *ones)
        }
        MetadataFirstPruningRatio(skipped, candidates) => {
            metadata_first::judge_pruning_ratio(*skipped, *candidates)
        }
        MetadataFirstEmptyWordRatio(words, active) => {
            metadata_first::judge_empty_word_ratio(*words, *active)
        }
        MetadataFirstTotalEstimatedBytes(words, pointers, values) => {
            metadata_first::judge_total_estimated_bytes(*words, *pointers, *values)
        }
        MetadataFirstAccumulate(a, b) => metadata_first::judge_accumulate(a, b),
        AbtmValidate(sparse, dense) => abtm::judge_validate(*sparse, *dense),
        AbtmCheck(tiles) => abtm::judge_check(tiles),
        AbtmFromCsr32(csr, sparse, dense, room) => {
            abtm::judge_from_csr32(csr, *sparse, *dense, room)
        }
        AbtmTileKind(meta) => abtm::judge_tile_kind(*meta),
        AbtmTileBaseCol(meta) => abtm::judge_tile_base_col(*meta),
        AbtmRowTiles(tiles, row) => abtm::judge_row_tiles(tiles, *row),
        AbtmStats(tiles) => abtm::judge_stats(tiles),
        AbtmMetadataBytesPerNnz(bytes, ones) => abtm::judge_metadata_bytes_per_nnz(*bytes, *ones),
        AbtmTotalEstimatedBytes(bytes, slots) => abtm::judge_total_estimated_bytes(*bytes, *slots),
        AbtmApply(tiles, x, y) => abtm::judge_apply(tiles, x, y),
        AbtmExpandMaskOneHop(tiles, m, room) => abtm::judge_expand_mask_one_hop(tiles, m, room),
        RestrictedFromCsr32(csr, m, room) => restricted::judge_from_csr32(csr, m, room),
        RestrictedFromAbtm(tiles, m, room) => restricted::judge_from_abtm(tiles, m, room),
        RestrictedRetainedFraction(kept, source) => {
            restricted::judge_retained_fraction(*kept, *source)
        }
        RestrictedStorageBytes(nrows, ncols, kept) => {
            restricted::judge_storage_bytes(*nrows, *ncols, *kept)
        }
        LocalFromCsr32(csr, m, members, room) => {
            restricted::judge_local_from_csr32(csr, m, members, room)
        }
        LocalCheck(size, members) => restricted::judge_local_check(*size, members),
        LocalGatherInput(size, members, global, local) => {
            restricted::judge_gather_input(*size, members, global, local)
        }
        LocalBoundaryPruningRatio(kept, source) => {
            restricted::judge_boundary_pruning_ratio(*kept, *source)
        }
        LocalStorageBytes(members, kept) => restricted::judge_local_storage_bytes(*members, *kept),
        DenseBlockFromCsr32(csr, six, room) => dense_block::judge_from_csr32(csr, *six, room),
        DenseBlockCheck(blocks) => dense_block::judge_check(blocks),
        DenseBlockApply(blocks, x, y) => dense_block::judge_apply(blocks, x, y),
        DenseBlockFastBlockFraction(blocks) => dense_block::judge_fast_block_fraction(blocks),
        DenseBlockBlockFill(structural, valid) => {
            dense_block::judge_block_fill(*structural, *valid)
        }
        DenseBlockValuePaddingRatio(slots, structural) => {
            dense_block::judge_value_padding_ratio(*slots, *structural)
        }
        DenseBlockMetadataBytes(block_rows, count) => {
            dense_block::judge_metadata_bytes(*block_rows, *count)
        }
        DenseBlockStorageBytes(block_rows, count, slots) => {
            dense_block::judge_storage_bytes(*block_rows, *count, *slots)
        }
    }
}
