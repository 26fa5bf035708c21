/* Denimrasp: the sparse-matrix layer of hybit with every function proved.
 *
 * Every call checks its own input and refuses by number, and no input stops it: what a caller owes is that each list's pointer
 * is not null, is aligned, and leads to as many places as the length after it says (for an empty list any such address will
 * do), that a list which a call writes to overlaps no other list of that call, and that the thread has stack left: 136 KiB
 * for building words, 168 KiB for building blocks, 268 KiB for building tiles, 456 KiB for packing and for the check of merged
 * values, 72 KiB for building a local list, 4 KiB for any other call.
 *
 * number in an answer: 0 accepted, 1 over size, 2 bad frame, 3 outside column, 4 not finite, 5 bad mask, 6 lengths differ,
 * 7 no such place, 8 frames differ, 9 bad thresholds, 10 not square, 11 bad words, 12 bad store, 13 short list. Under 6
 * expected and actual are the two lengths, otherwise 0. All other fields of a refused answer are 0.
 *
 * A build (new, from_indices, indices, from_csr32, from_abtm, the set operations, sparse_dot_rows, expand_mask_one_hop) leaves
 * zeros past the part that it used, and zeros alone where it is refused. Any other refused call leaves what it was lent as it
 * was.
 */
#ifndef DENIMRASP_H
#define DENIMRASP_H

#include <stdbool.h>
#include <stddef.h>
#include <stdint.h>

#ifdef __cplusplus
extern "C" {
#endif

/* The answer of a call that has no other result. number is 0 when accepted, else the refusal's; expected
 * and actual are 0 but under 6. */
typedef struct {
    uint32_t number;
    size_t expected;
    size_t actual;
} DenimraspVerdict;

typedef struct {
    uint32_t number;
    size_t expected;
    size_t actual;
    size_t count;
} DenimraspCount;

typedef struct {
    uint32_t number;
    size_t expected;
    size_t actual;
    bool is;
} DenimraspBool;

/* column is 0 where nothing was found. */
typedef struct {
    uint32_t number;
    size_t expected;
    size_t actual;
    bool found;
    size_t column;
} DenimraspSelect;

/* A part of a lent list: the places from start, below end. */
typedef struct {
    uint32_t number;
    size_t expected;
    size_t actual;
    size_t start;
    size_t end;
} DenimraspPart;

/* How much of the lent lists a build used. */
typedef struct {
    uint32_t number;
    size_t expected;
    size_t actual;
    size_t words;
    size_t structural_nnz;
} DenimraspTopology;

typedef struct {
    uint32_t number;
    size_t expected;
    size_t actual;
    size_t nrows;
    size_t ncols;
    size_t structural_nnz;
    size_t nonempty_words;
    size_t metadata_bytes;
} DenimraspTopologyStats;

typedef struct {
    uint32_t number;
    size_t expected;
    size_t actual;
    size_t nrows;
    size_t ncols;
    size_t structural_nnz;
    size_t topology_metadata_bytes;
    size_t value_row_ptr_bytes;
    size_t packed_value_bytes;
} DenimraspStoreStats;

typedef struct {
    uint32_t number;
    size_t expected;
    size_t actual;
    double sum;
    size_t candidate_products;
    size_t executed_products;
    size_t skipped_products;
    size_t topology_words;
    size_t active_words;
} DenimraspDot;

typedef struct {
    uint32_t number;
    size_t expected;
    size_t actual;
    size_t candidate_products;
    size_t executed_products;
    size_t skipped_products;
    size_t topology_words;
    size_t active_words;
} DenimraspTotals;

/* How much of the lent lists a build of tiles used, and how many values there are. */
typedef struct {
    uint32_t number;
    size_t expected;
    size_t actual;
    size_t tiles;
    size_t value_slots;
    size_t matrix_nnz;
} DenimraspTiles;

typedef struct {
    uint32_t number;
    size_t expected;
    size_t actual;
    size_t nrows;
    size_t ncols;
    size_t matrix_nnz;
    size_t tiles;
    size_t sparse_tiles;
    size_t bitmap_tiles;
    size_t dense_tiles;
    size_t value_slots;
    size_t metadata_bytes;
} DenimraspTileStats;

/* A list cut to the active columns: its frame, the entries of its source and those kept. */
typedef struct {
    uint32_t number;
    size_t expected;
    size_t actual;
    size_t nrows;
    size_t ncols;
    size_t source_nnz;
    size_t retained_nnz;
} DenimraspRestriction;

/* A list cut to a region: the length of the region, its members, its entries, and the source entries of its rows. */
typedef struct {
    uint32_t number;
    size_t expected;
    size_t actual;
    size_t global_size;
    size_t local_nodes;
    size_t local_nnz;
    size_t source_row_nnz;
} DenimraspRegion;

/* A matrix in blocks: its rows, columns and block rows, its blocks, their values, the distinct places with an entry, and the
 * places of the blocks inside the frame. */
typedef struct {
    uint32_t number;
    size_t expected;
    size_t actual;
    size_t nrows;
    size_t ncols;
    size_t block_rows;
    size_t unique_blocks;
    size_t dense_value_slots;
    size_t structural_slots;
    size_t valid_dense_slots;
} DenimraspBlocks;

typedef struct {
    uint32_t number;
    size_t expected;
    size_t actual;
    double ratio;
} DenimraspRatio;

/* 5 where the words are not those of a mask of that length. */
DenimraspVerdict denimrasp_mask_check(size_t len, const uint64_t *words, size_t words_len);

/* Whether index is a member; false from the length on. */
DenimraspBool denimrasp_mask_contains(size_t len, const uint64_t *words, size_t words_len, size_t index);

/* How many members the mask has. */
DenimraspCount denimrasp_mask_count_ones(size_t len, const uint64_t *words, size_t words_len);

/* Whether the mask has no member. */
DenimraspBool denimrasp_mask_is_empty(size_t len, const uint64_t *words, size_t words_len);

/* The empty mask of that length. */
DenimraspVerdict denimrasp_mask_new(size_t len, uint64_t *words, size_t words_len);

/* The mask of the listed members. */
DenimraspVerdict denimrasp_mask_from_indices(size_t len, const size_t *indices, size_t indices_len,
    uint64_t *words, size_t words_len);

/* Puts index in or out; a refused call leaves the words as they were. */
DenimraspVerdict denimrasp_mask_set(size_t len, uint64_t *words, size_t words_len, size_t index, bool value);

/* Joins the members of one word; bits from the length on are dropped, a word past the end changes nothing. */
DenimraspVerdict denimrasp_mask_or_word(size_t len, uint64_t *words, size_t words_len, size_t word_index,
    uint64_t bits);

/* The members, ascending; answers how many. */
DenimraspCount denimrasp_mask_indices(size_t len, const uint64_t *words, size_t words_len,
    size_t *out, size_t out_len);

/* Joins the other mask's members to this one's. */
DenimraspVerdict denimrasp_mask_union_assign(size_t len, uint64_t *words, size_t words_len, size_t other_len,
    const uint64_t *other, size_t other_count);

/* Keeps the members that the other mask has too. */
DenimraspVerdict denimrasp_mask_intersect_assign(size_t len, uint64_t *words, size_t words_len,
    size_t other_len, const uint64_t *other, size_t other_count);

/* Keeps the members that the other mask does not have. */
DenimraspVerdict denimrasp_mask_and_not_assign(size_t len, uint64_t *words, size_t words_len,
    size_t other_len, const uint64_t *other, size_t other_count);

/* Whether the two masks have a member in common. */
DenimraspBool denimrasp_mask_intersects(size_t len, const uint64_t *words, size_t words_len, size_t other_len,
    const uint64_t *other, size_t other_count);

/* The Rust's `new` and `validate`. */
DenimraspVerdict denimrasp_csr32_check(size_t nrows, size_t ncols,
    const uint32_t *row_ptr, size_t row_ptr_len, const uint32_t *col_idx, size_t col_idx_len,
    const double *values, size_t values_len);

/* The row products; a refused call leaves y as it was. */
DenimraspVerdict denimrasp_csr32_apply(size_t nrows, size_t ncols,
    const uint32_t *row_ptr, size_t row_ptr_len, const uint32_t *col_idx, size_t col_idx_len,
    const double *values, size_t values_len, const double *x, size_t x_len, double *y, size_t y_len);

/* The bytes of the pointers and columns. */
DenimraspCount denimrasp_csr32_metadata_bytes(size_t nrows, size_t ncols,
    const uint32_t *row_ptr, size_t row_ptr_len, const uint32_t *col_idx, size_t col_idx_len,
    const double *values, size_t values_len);

/* The same and those of the values. */
DenimraspCount denimrasp_csr32_storage_bytes(size_t nrows, size_t ncols,
    const uint32_t *row_ptr, size_t row_ptr_len, const uint32_t *col_idx, size_t col_idx_len,
    const double *values, size_t values_len);

/* The Rust's `validate`. */
DenimraspVerdict denimrasp_topology_check(size_t nrows, size_t ncols,
    const uint32_t *row_word_ptr, size_t row_word_ptr_len,
    const uint32_t *word_indices, size_t word_indices_len, const uint64_t *masks, size_t masks_len,
    size_t structural_nnz);

/* The words of a plot list. */
DenimraspTopology denimrasp_topology_from_csr32(size_t nrows, size_t ncols,
    const uint32_t *row_ptr, size_t row_ptr_len, const uint32_t *col_idx, size_t col_idx_len,
    const double *values, size_t values_len, uint32_t *row_word_ptr, size_t row_word_ptr_len,
    uint32_t *word_indices, size_t word_indices_len, uint64_t *masks, size_t masks_len);

/* The places of the row's word numbers and masks in their lists: from start, below end. */
DenimraspPart denimrasp_topology_row_words(size_t nrows, size_t ncols,
    const uint32_t *row_word_ptr, size_t row_word_ptr_len,
    const uint32_t *word_indices, size_t word_indices_len, const uint64_t *masks, size_t masks_len,
    size_t structural_nnz, size_t row);

/* How many words the row has. */
DenimraspCount denimrasp_topology_row_nonempty_words(size_t nrows, size_t ncols,
    const uint32_t *row_word_ptr, size_t row_word_ptr_len,
    const uint32_t *word_indices, size_t word_indices_len, const uint64_t *masks, size_t masks_len,
    size_t structural_nnz, size_t row);

/* How many columns the row holds. */
DenimraspCount denimrasp_topology_row_popcount(size_t nrows, size_t ncols,
    const uint32_t *row_word_ptr, size_t row_word_ptr_len,
    const uint32_t *word_indices, size_t word_indices_len, const uint64_t *masks, size_t masks_len,
    size_t structural_nnz, size_t row);

/* Whether the row holds the column; false from the column count on. */
DenimraspBool denimrasp_topology_row_contains(size_t nrows, size_t ncols,
    const uint32_t *row_word_ptr, size_t row_word_ptr_len,
    const uint32_t *word_indices, size_t word_indices_len, const uint64_t *masks, size_t masks_len,
    size_t structural_nnz, size_t row, size_t col);

/* How many columns below col the row holds; the column count is allowed. */
DenimraspCount denimrasp_topology_row_rank(size_t nrows, size_t ncols,
    const uint32_t *row_word_ptr, size_t row_word_ptr_len,
    const uint32_t *word_indices, size_t word_indices_len, const uint64_t *masks, size_t masks_len,
    size_t structural_nnz, size_t row, size_t col);

/* The row's column with ordinal columns below it, if there is one. */
DenimraspSelect denimrasp_topology_row_select(size_t nrows, size_t ncols,
    const uint32_t *row_word_ptr, size_t row_word_ptr_len,
    const uint32_t *word_indices, size_t word_indices_len, const uint64_t *masks, size_t masks_len,
    size_t structural_nnz, size_t row, size_t ordinal);

/* The figures of a record. */
DenimraspTopologyStats denimrasp_topology_stats(size_t nrows, size_t ncols,
    const uint32_t *row_word_ptr, size_t row_word_ptr_len,
    const uint32_t *word_indices, size_t word_indices_len, const uint64_t *masks, size_t masks_len,
    size_t structural_nnz);

/* The columns that either record holds, row by row. */
DenimraspTopology denimrasp_topology_union(size_t nrows, size_t ncols,
    const uint32_t *row_word_ptr, size_t row_word_ptr_len,
    const uint32_t *word_indices, size_t word_indices_len, const uint64_t *masks, size_t masks_len,
    size_t structural_nnz, size_t other_nrows, size_t other_ncols,
    const uint32_t *other_row_word_ptr, size_t other_row_word_ptr_len,
    const uint32_t *other_word_indices, size_t other_word_indices_len,
    const uint64_t *other_masks, size_t other_masks_len, size_t other_structural_nnz,
    uint32_t *out_ptr, size_t out_ptr_len, uint32_t *out_words, size_t out_words_len,
    uint64_t *out_masks, size_t out_masks_len);

/* The columns that both hold. */
DenimraspTopology denimrasp_topology_intersection(size_t nrows, size_t ncols,
    const uint32_t *row_word_ptr, size_t row_word_ptr_len,
    const uint32_t *word_indices, size_t word_indices_len, const uint64_t *masks, size_t masks_len,
    size_t structural_nnz, size_t other_nrows, size_t other_ncols,
    const uint32_t *other_row_word_ptr, size_t other_row_word_ptr_len,
    const uint32_t *other_word_indices, size_t other_word_indices_len,
    const uint64_t *other_masks, size_t other_masks_len, size_t other_structural_nnz,
    uint32_t *out_ptr, size_t out_ptr_len, uint32_t *out_words, size_t out_words_len,
    uint64_t *out_masks, size_t out_masks_len);

/* The columns that the first holds and the other does not. */
DenimraspTopology denimrasp_topology_and_not(size_t nrows, size_t ncols,
    const uint32_t *row_word_ptr, size_t row_word_ptr_len,
    const uint32_t *word_indices, size_t word_indices_len, const uint64_t *masks, size_t masks_len,
    size_t structural_nnz, size_t other_nrows, size_t other_ncols,
    const uint32_t *other_row_word_ptr, size_t other_row_word_ptr_len,
    const uint32_t *other_word_indices, size_t other_word_indices_len,
    const uint64_t *other_masks, size_t other_masks_len, size_t other_structural_nnz,
    uint32_t *out_ptr, size_t out_ptr_len, uint32_t *out_words, size_t out_words_len,
    uint64_t *out_masks, size_t out_masks_len);

/* The columns that one of them holds and the other does not. */
DenimraspTopology denimrasp_topology_xor(size_t nrows, size_t ncols,
    const uint32_t *row_word_ptr, size_t row_word_ptr_len,
    const uint32_t *word_indices, size_t word_indices_len, const uint64_t *masks, size_t masks_len,
    size_t structural_nnz, size_t other_nrows, size_t other_ncols,
    const uint32_t *other_row_word_ptr, size_t other_row_word_ptr_len,
    const uint32_t *other_word_indices, size_t other_word_indices_len,
    const uint64_t *other_masks, size_t other_masks_len, size_t other_structural_nnz,
    uint32_t *out_ptr, size_t out_ptr_len, uint32_t *out_words, size_t out_words_len,
    uint64_t *out_masks, size_t out_masks_len);

/* The Rust's `validate`. */
DenimraspVerdict denimrasp_metadata_first_check(size_t nrows, size_t ncols,
    const uint32_t *row_word_ptr, size_t row_word_ptr_len,
    const uint32_t *word_indices, size_t word_indices_len, const uint64_t *masks, size_t masks_len,
    size_t structural_nnz, const uint32_t *row_value_ptr, size_t row_value_ptr_len,
    const double *values, size_t values_len);

/* Whether the plot list can be packed: 4 too where a merged value is not finite. Writes nothing. */
DenimraspVerdict denimrasp_metadata_first_check_merge(size_t nrows, size_t ncols,
    const uint32_t *row_ptr, size_t row_ptr_len, const uint32_t *col_idx, size_t col_idx_len,
    const double *values, size_t values_len);

/* The packed store of a plot list. */
DenimraspTopology denimrasp_metadata_first_from_csr32(size_t nrows, size_t ncols,
    const uint32_t *row_ptr, size_t row_ptr_len, const uint32_t *col_idx, size_t col_idx_len,
    const double *values, size_t values_len, uint32_t *row_word_ptr, size_t row_word_ptr_len,
    uint32_t *word_indices, size_t word_indices_len, uint64_t *masks, size_t masks_len,
    uint32_t *row_value_ptr, size_t row_value_ptr_len, double *packed, size_t packed_len);

/* The places of the row's values in their list: from start, below end. */
DenimraspPart denimrasp_metadata_first_row_values(size_t nrows, size_t ncols,
    const uint32_t *row_word_ptr, size_t row_word_ptr_len,
    const uint32_t *word_indices, size_t word_indices_len, const uint64_t *masks, size_t masks_len,
    size_t structural_nnz, const uint32_t *row_value_ptr, size_t row_value_ptr_len,
    const double *values, size_t values_len, size_t row);

/* The figures of a store. */
DenimraspStoreStats denimrasp_metadata_first_stats(size_t nrows, size_t ncols,
    const uint32_t *row_word_ptr, size_t row_word_ptr_len,
    const uint32_t *word_indices, size_t word_indices_len, const uint64_t *masks, size_t masks_len,
    size_t structural_nnz, const uint32_t *row_value_ptr, size_t row_value_ptr_len,
    const double *values, size_t values_len);

/* One row's pruned dot, with its counts. */
DenimraspDot denimrasp_metadata_first_sparse_dot_row(size_t nrows, size_t ncols,
    const uint32_t *row_word_ptr, size_t row_word_ptr_len,
    const uint32_t *word_indices, size_t word_indices_len, const uint64_t *masks, size_t masks_len,
    size_t structural_nnz, const uint32_t *row_value_ptr, size_t row_value_ptr_len,
    const double *values, size_t values_len, size_t row, size_t mask_len,
    const uint64_t *mask, size_t mask_count, const double *x, size_t x_len);

/* Every row's number and count of executed products. */
DenimraspVerdict denimrasp_metadata_first_sparse_dot_rows(size_t nrows, size_t ncols,
    const uint32_t *row_word_ptr, size_t row_word_ptr_len,
    const uint32_t *word_indices, size_t word_indices_len, const uint64_t *masks, size_t masks_len,
    size_t structural_nnz, const uint32_t *row_value_ptr, size_t row_value_ptr_len,
    const double *values, size_t values_len, size_t mask_len, const uint64_t *mask, size_t mask_count,
    const double *x, size_t x_len, double *sums, size_t sums_len, uint32_t *executed, size_t executed_len);

/* The first column of a word. */
size_t denimrasp_word_base_col(uint32_t word_index);

/* How many bits the mask has. */
size_t denimrasp_word_popcount(uint64_t mask);

/* Whether bit offset is set; false from 64 on. */
bool denimrasp_word_contains_offset(uint64_t mask, size_t offset);

/* How many bits below offset are set; 7 above 64. */
DenimraspCount denimrasp_word_rank(uint64_t mask, size_t offset);

/* The bit with ordinal set bits below it, if there is one. */
DenimraspSelect denimrasp_word_select(uint64_t mask, size_t ordinal);

/* Columns for each word; the ratios are 0.0 where there is nothing to divide by. */
double denimrasp_topology_average_word_nnz(size_t structural_nnz, size_t nonempty_words);

/* The same for each of the 64 columns of a word. */
double denimrasp_topology_word_fill_ratio(size_t structural_nnz, size_t nonempty_words);

/* Bytes for each column. */
double denimrasp_topology_metadata_bytes_per_nnz(size_t metadata_bytes, size_t structural_nnz);

/* Skipped products among the candidates. */
double denimrasp_metadata_first_pruning_ratio(size_t skipped_products, size_t candidate_products);

/* Words without a product among the words; 0.0 where more are active than there are. */
double denimrasp_metadata_first_empty_word_ratio(size_t topology_words, size_t active_words);

/* Their sum, at most SIZE_MAX. */
size_t denimrasp_metadata_first_total_estimated_bytes(size_t topology_metadata_bytes,
    size_t value_row_ptr_bytes, size_t packed_value_bytes);

/* The five totals of two reports; 1 and no totals where one is above SIZE_MAX. */
DenimraspTotals denimrasp_metadata_first_accumulate(size_t candidate_products, size_t executed_products,
    size_t skipped_products, size_t topology_words, size_t active_words, size_t other_candidate_products,
    size_t other_executed_products, size_t other_skipped_products, size_t other_topology_words,
    size_t other_active_words);

/* 9 where the thresholds are bad: sparse at least 1, dense at most 64, sparse below dense. */
DenimraspVerdict denimrasp_abtm_validate(uint8_t sparse_max_nnz, uint8_t dense_min_nnz);

/* 12 where the tiles break a rule. */
DenimraspVerdict denimrasp_abtm_check(size_t nrows, size_t ncols,
    const uint32_t *row_tile_ptr, size_t row_tile_ptr_len, const uint64_t *masks, size_t masks_len,
    const uint32_t *value_offsets, size_t value_offsets_len, const uint32_t *metas, size_t metas_len,
    const double *values, size_t values_len, size_t matrix_nnz);

/* The tiles of a plot list: nrows + 1 pointers, as many masks, offsets and metas as the answer's tiles, as many values
 * as its value_slots. There are at most as many tiles as entries, and at most 64 * entries / dense_min_nnz value slots.
 * 13 exactly where they do not fit. */
DenimraspTiles denimrasp_abtm_from_csr32(size_t nrows, size_t ncols,
    const uint32_t *row_ptr, size_t row_ptr_len, const uint32_t *col_idx, size_t col_idx_len,
    const double *values, size_t values_len, uint8_t sparse_max_nnz, uint8_t dense_min_nnz,
    uint32_t *row_tile_ptr, size_t row_tile_ptr_len, uint64_t *masks, size_t masks_len,
    uint32_t *value_offsets, size_t value_offsets_len, uint32_t *metas, size_t metas_len,
    double *tile_values, size_t tile_values_len);

/* The kind of a tile: 0 Sparse, 1 Bitmap, 2 Dense; 12 for kind 3. */
DenimraspCount denimrasp_abtm_tile_kind(uint32_t meta);

/* The first column of a tile. */
size_t denimrasp_abtm_tile_base_col(uint32_t meta);

/* The places of the row's tiles in the lists of masks, offsets and metas: from start, below end. */
DenimraspPart denimrasp_abtm_row_tiles(size_t nrows, size_t ncols,
    const uint32_t *row_tile_ptr, size_t row_tile_ptr_len, const uint64_t *masks, size_t masks_len,
    const uint32_t *value_offsets, size_t value_offsets_len, const uint32_t *metas, size_t metas_len,
    const double *values, size_t values_len, size_t matrix_nnz, size_t row);

/* The figures of tiles. */
DenimraspTileStats denimrasp_abtm_stats(size_t nrows, size_t ncols,
    const uint32_t *row_tile_ptr, size_t row_tile_ptr_len, const uint64_t *masks, size_t masks_len,
    const uint32_t *value_offsets, size_t value_offsets_len, const uint32_t *metas, size_t metas_len,
    const double *values, size_t values_len, size_t matrix_nnz);

/* Bytes for each value; 0.0 where there is none. */
double denimrasp_abtm_metadata_bytes_per_nnz(size_t metadata_bytes, size_t matrix_nnz);

/* The bytes of the metadata and 8 for each value slot, at most SIZE_MAX. */
size_t denimrasp_abtm_total_estimated_bytes(size_t metadata_bytes, size_t value_slots);

/* The row products of tiles; a refused call leaves y as it was. */
DenimraspVerdict denimrasp_abtm_apply(size_t nrows, size_t ncols,
    const uint32_t *row_tile_ptr, size_t row_tile_ptr_len, const uint64_t *masks, size_t masks_len,
    const uint32_t *value_offsets, size_t value_offsets_len, const uint32_t *metas, size_t metas_len,
    const double *values, size_t values_len, size_t matrix_nnz,
    const double *x, size_t x_len, double *y, size_t y_len);

/* The mask joined with the columns of its rows' tiles, in out: as many words as the mask has. */
DenimraspVerdict denimrasp_abtm_expand_mask_one_hop(size_t nrows, size_t ncols,
    const uint32_t *row_tile_ptr, size_t row_tile_ptr_len, const uint64_t *masks, size_t masks_len,
    const uint32_t *value_offsets, size_t value_offsets_len, const uint32_t *metas, size_t metas_len,
    const double *values, size_t values_len, size_t matrix_nnz,
    size_t mask_len, const uint64_t *mask, size_t mask_count, uint64_t *out, size_t out_len);

/* The entries of a plot list in active columns, in stored order: nrows + 1 pointers, as many columns and values as the
 * answer's retained_nnz. Columns keep their numbers. 13 exactly where they do not fit. */
DenimraspRestriction denimrasp_restricted_from_csr32(size_t nrows, size_t ncols,
    const uint32_t *row_ptr, size_t row_ptr_len, const uint32_t *col_idx, size_t col_idx_len,
    const double *values, size_t values_len, size_t mask_len, const uint64_t *mask, size_t mask_count,
    uint32_t *out_row_ptr, size_t out_row_ptr_len, uint32_t *out_col_idx, size_t out_col_idx_len,
    double *out_values, size_t out_values_len);

/* The entries of tiles in active columns, ascending: the same lists; source_nnz is matrix_nnz. 4 where an active value is
 * infinite, 1 where more than 2^24 entries are active, 13 exactly where they do not fit. */
DenimraspRestriction denimrasp_restricted_from_abtm(size_t nrows, size_t ncols,
    const uint32_t *row_tile_ptr, size_t row_tile_ptr_len, const uint64_t *masks, size_t masks_len,
    const uint32_t *value_offsets, size_t value_offsets_len, const uint32_t *metas, size_t metas_len,
    const double *values, size_t values_len, size_t matrix_nnz,
    size_t mask_len, const uint64_t *mask, size_t mask_count,
    uint32_t *out_row_ptr, size_t out_row_ptr_len, uint32_t *out_col_idx, size_t out_col_idx_len,
    double *out_values, size_t out_values_len);

/* Entries kept among those of the source; 0.0 where it has none. */
double denimrasp_restricted_retained_fraction(size_t retained_nnz, size_t source_nnz);

/* The bytes of a restricted list and of its mask, at most SIZE_MAX. */
size_t denimrasp_restricted_storage_bytes(size_t nrows, size_t ncols, size_t retained_nnz);

/* A region's rows and columns of a square plot list, in stored order, numbered anew: as many members as the answer's
 * local_nodes, ascending (member i is local row and column i), one pointer more, as many columns and values as its
 * local_nnz. 13 exactly where they do not fit. */
DenimraspRegion denimrasp_local_from_csr32(size_t nrows, size_t ncols,
    const uint32_t *row_ptr, size_t row_ptr_len, const uint32_t *col_idx, size_t col_idx_len,
    const double *values, size_t values_len, size_t region_len, const uint64_t *region, size_t region_count,
    uint32_t *members, size_t members_len, uint32_t *out_row_ptr, size_t out_row_ptr_len,
    uint32_t *out_col_idx, size_t out_col_idx_len, double *out_values, size_t out_values_len);

/* 12 where the members do not rise or are not below the global size. */
DenimraspVerdict denimrasp_local_check(size_t global_size, const uint32_t *members, size_t members_len);

/* A region's numbers of a vector, in local; a refused call leaves local as it was. */
DenimraspVerdict denimrasp_local_gather_input(size_t global_size, const uint32_t *members, size_t members_len,
    const double *global, size_t global_len, double *local, size_t local_len);

/* 1.0 less the entries kept among the source entries of the region's rows; 0.0 where they have none. */
double denimrasp_local_boundary_pruning_ratio(size_t local_nnz, size_t source_row_nnz);

/* The bytes of a local list and of its members, at most SIZE_MAX. */
size_t denimrasp_local_storage_bytes(size_t local_nodes, size_t local_nnz);

/* The blocks of a plot list, of width 6 or, where six is false, 3: the answer's block_rows + 1 pointers, as many block columns as
 * its unique_blocks, ascending in a block row, and as many values as its dense_value_slots, each block's row after row. Copies
 * are merged in stored order, from 0.0. 13 exactly where they do not fit. */
DenimraspBlocks denimrasp_dense_block_from_csr32(size_t nrows, size_t ncols,
    const uint32_t *row_ptr, size_t row_ptr_len, const uint32_t *col_idx, size_t col_idx_len,
    const double *values, size_t values_len, bool six,
    uint32_t *out_row_ptr, size_t out_row_ptr_len, uint32_t *out_col_idx, size_t out_col_idx_len,
    double *out_values, size_t out_values_len);

/* 12 where the lists are not those of a matrix in blocks. */
DenimraspVerdict denimrasp_dense_block_check(size_t nrows, size_t ncols, bool six,
    const uint32_t *row_ptr, size_t row_ptr_len, const uint32_t *col_idx, size_t col_idx_len,
    const double *values, size_t values_len);

/* The row products of blocks; a refused call leaves y as it was. */
DenimraspVerdict denimrasp_dense_block_apply(size_t nrows, size_t ncols, bool six,
    const uint32_t *row_ptr, size_t row_ptr_len, const uint32_t *col_idx, size_t col_idx_len,
    const double *values, size_t values_len,
    const double *x, size_t x_len, double *y, size_t y_len);

/* The blocks wholly inside the frame among all blocks; 0.0 without blocks. */
DenimraspRatio denimrasp_dense_block_fast_block_fraction(size_t nrows, size_t ncols, bool six,
    const uint32_t *row_ptr, size_t row_ptr_len, const uint32_t *col_idx, size_t col_idx_len,
    const double *values, size_t values_len);

/* The distinct places with an entry among the places of the blocks inside the frame; 0.0 where there are none. */
double denimrasp_dense_block_block_fill(size_t structural_slots, size_t valid_dense_slots);

/* The values of the blocks to the distinct places with an entry; 0.0 where there are none. */
double denimrasp_dense_block_value_padding_ratio(size_t dense_value_slots, size_t structural_slots);

/* The bytes of pointers and block columns, at most SIZE_MAX. */
size_t denimrasp_dense_block_metadata_bytes(size_t block_rows, size_t unique_blocks);

/* The same with the values. */
size_t denimrasp_dense_block_storage_bytes(size_t block_rows, size_t unique_blocks, size_t dense_value_slots);

#ifdef __cplusplus
}
#endif

#endif
