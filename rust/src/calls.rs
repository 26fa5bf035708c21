//! The C interface over slices: each function hands on its lists and turns the answer into a `Result`. Apart from the
//! declarations in `sys`, this is the only module with `unsafe`.
//!
//! What the header asks is met the same way everywhere. A slice's pointer is not null, is aligned, and leads to as many places
//! as its length says, for an empty slice too. A list that a call writes to is a `&mut` slice, so no other slice overlaps it.

use crate::error::Refusal;
use crate::sys;

/// A mask's length and words.
#[derive(Clone, Copy)]
pub struct Mask<'a> {
    pub len: usize,
    pub words: &'a [u64],
}

/// The lists of a plot list.
#[derive(Clone, Copy)]
pub struct Csr<'a> {
    pub nrows: usize,
    pub ncols: usize,
    pub row_ptr: &'a [u32],
    pub col_idx: &'a [u32],
    pub values: &'a [f64],
}

/// The lists of a matrix's words.
#[derive(Clone, Copy)]
pub struct Words<'a> {
    pub nrows: usize,
    pub ncols: usize,
    pub row_word_ptr: &'a [u32],
    pub word_indices: &'a [u32],
    pub masks: &'a [u64],
    pub structural_nnz: usize,
}

/// The lists of a packed store.
#[derive(Clone, Copy)]
pub struct Store<'a> {
    pub words: Words<'a>,
    pub row_value_ptr: &'a [u32],
    pub values: &'a [f64],
}

/// The lists that a build of words fills.
pub struct Room<'a> {
    pub row_word_ptr: &'a mut [u32],
    pub word_indices: &'a mut [u32],
    pub masks: &'a mut [u64],
}

/// The lists of tiles.
#[derive(Clone, Copy)]
pub struct Tiles<'a> {
    pub nrows: usize,
    pub ncols: usize,
    pub row_tile_ptr: &'a [u32],
    pub masks: &'a [u64],
    pub value_offsets: &'a [u32],
    pub metas: &'a [u32],
    pub values: &'a [f64],
    pub matrix_nnz: usize,
}

/// The lists that a build of tiles fills.
pub struct TileRoom<'a> {
    pub row_tile_ptr: &'a mut [u32],
    pub masks: &'a mut [u64],
    pub value_offsets: &'a mut [u32],
    pub metas: &'a mut [u32],
    pub values: &'a mut [f64],
}

/// The lists of blocks of width 6 or, where `six` is false, 3.
#[derive(Clone, Copy)]
pub struct Blocks<'a> {
    pub nrows: usize,
    pub ncols: usize,
    pub six: bool,
    pub row_ptr: &'a [u32],
    pub col_idx: &'a [u32],
    pub values: &'a [f64],
}

/// The lists that a restricted or local list or blocks fill.
pub struct CsrRoom<'a> {
    pub row_ptr: &'a mut [u32],
    pub col_idx: &'a mut [u32],
    pub values: &'a mut [f64],
}

/// How much of a `Room` was used.
pub struct Used {
    pub words: usize,
    pub structural_nnz: usize,
}

type Answer<T> = Result<T, Refusal>;

/// The answer's value, or its refusal.
macro_rules! settle {
    ($answer:expr, $value:expr) => {{
        let answer = $answer;
        match answer.number {
            0 => Ok($value(answer)),
            number => Err(Refusal {
                number,
                expected: answer.expected,
                actual: answer.actual,
            }),
        }
    }};
}

/// Calls a function whose first parameters are a mask's.
macro_rules! with_mask {
    ($call:ident, $m:expr $(, $rest:expr)*) => {{
        let m: Mask<'_> = $m;
        // SAFETY: every pointer and length is a slice's, and a written slice is borrowed alone.
        unsafe { sys::$call(m.len, m.words.as_ptr(), m.words.len() $(, $rest)*) }
    }};
}

/// Calls a function whose first parameters are those of a mask that it changes.
macro_rules! with_mask_mut {
    ($call:ident, $len:expr, $words:expr $(, $rest:expr)*) => {{
        let words: &mut [u64] = $words;
        // SAFETY: every pointer and length is a slice's, and `words` is borrowed alone.
        unsafe { sys::$call($len, words.as_mut_ptr(), words.len() $(, $rest)*) }
    }};
}

/// Calls a function whose first parameters are a plot list's.
macro_rules! with_csr {
    ($call:ident, $m:expr $(, $rest:expr)*) => {{
        let m: Csr<'_> = $m;
        // SAFETY: every pointer and length is a slice's, and a written slice is borrowed alone.
        unsafe {
            sys::$call(
                m.nrows,
                m.ncols,
                m.row_ptr.as_ptr(),
                m.row_ptr.len(),
                m.col_idx.as_ptr(),
                m.col_idx.len(),
                m.values.as_ptr(),
                m.values.len()
                $(, $rest)*
            )
        }
    }};
}

/// Calls a function whose first parameters are those of words.
macro_rules! with_words {
    ($call:ident, $w:expr $(, $rest:expr)*) => {{
        let w: Words<'_> = $w;
        // SAFETY: every pointer and length is a slice's, and a written slice is borrowed alone.
        unsafe {
            sys::$call(
                w.nrows,
                w.ncols,
                w.row_word_ptr.as_ptr(),
                w.row_word_ptr.len(),
                w.word_indices.as_ptr(),
                w.word_indices.len(),
                w.masks.as_ptr(),
                w.masks.len(),
                w.structural_nnz
                $(, $rest)*
            )
        }
    }};
}

/// Calls a function whose first parameters are a packed store's.
macro_rules! with_store {
    ($call:ident, $s:expr $(, $rest:expr)*) => {{
        let s: Store<'_> = $s;
        with_words!(
            $call,
            s.words,
            s.row_value_ptr.as_ptr(),
            s.row_value_ptr.len(),
            s.values.as_ptr(),
            s.values.len()
            $(, $rest)*
        )
    }};
}

/// Calls a function whose first parameters are those of tiles.
macro_rules! with_tiles {
    ($call:ident, $t:expr $(, $rest:expr)*) => {{
        let t: Tiles<'_> = $t;
        // SAFETY: every pointer and length is a slice's, and a written slice is borrowed alone.
        unsafe {
            sys::$call(
                t.nrows,
                t.ncols,
                t.row_tile_ptr.as_ptr(),
                t.row_tile_ptr.len(),
                t.masks.as_ptr(),
                t.masks.len(),
                t.value_offsets.as_ptr(),
                t.value_offsets.len(),
                t.metas.as_ptr(),
                t.metas.len(),
                t.values.as_ptr(),
                t.values.len(),
                t.matrix_nnz
                $(, $rest)*
            )
        }
    }};
}

/// Calls a function whose first parameters are those of blocks.
macro_rules! with_blocks {
    ($call:ident, $b:expr $(, $rest:expr)*) => {{
        let b: Blocks<'_> = $b;
        // SAFETY: every pointer and length is a slice's, and a written slice is borrowed alone.
        unsafe {
            sys::$call(
                b.nrows,
                b.ncols,
                b.six,
                b.row_ptr.as_ptr(),
                b.row_ptr.len(),
                b.col_idx.as_ptr(),
                b.col_idx.len(),
                b.values.as_ptr(),
                b.values.len()
                $(, $rest)*
            )
        }
    }};
}

/// Calls a set operation of two records of words.
macro_rules! with_two {
    ($call:ident, $a:expr, $b:expr, $room:expr) => {{
        let (b, room): (Words<'_>, Room<'_>) = ($b, $room);
        settle!(
            with_words!(
                $call,
                $a,
                b.nrows,
                b.ncols,
                b.row_word_ptr.as_ptr(),
                b.row_word_ptr.len(),
                b.word_indices.as_ptr(),
                b.word_indices.len(),
                b.masks.as_ptr(),
                b.masks.len(),
                b.structural_nnz,
                room.row_word_ptr.as_mut_ptr(),
                room.row_word_ptr.len(),
                room.word_indices.as_mut_ptr(),
                room.word_indices.len(),
                room.masks.as_mut_ptr(),
                room.masks.len()
            ),
            used
        )
    }};
}

fn unit<T>(_: T) {}

fn count(answer: sys::Count) -> usize {
    answer.count
}

fn is(answer: sys::Bool) -> bool {
    answer.is
}

fn selected(answer: sys::Select) -> Option<usize> {
    answer.found.then_some(answer.column)
}

fn used(answer: sys::Topology) -> Used {
    Used {
        words: answer.words,
        structural_nnz: answer.structural_nnz,
    }
}

pub fn mask_new(len: usize, words: &mut [u64]) -> Answer<()> {
    settle!(with_mask_mut!(denimrasp_mask_new, len, words), unit)
}

pub fn mask_from_indices(len: usize, indices: &[usize], words: &mut [u64]) -> Answer<()> {
    // SAFETY: every pointer and length is a slice's, and `words` is borrowed alone.
    let answer = unsafe {
        sys::denimrasp_mask_from_indices(
            len,
            indices.as_ptr(),
            indices.len(),
            words.as_mut_ptr(),
            words.len(),
        )
    };
    settle!(answer, unit)
}

pub fn mask_contains(m: Mask<'_>, index: usize) -> Answer<bool> {
    settle!(with_mask!(denimrasp_mask_contains, m, index), is)
}

pub fn mask_count_ones(m: Mask<'_>) -> Answer<usize> {
    settle!(with_mask!(denimrasp_mask_count_ones, m), count)
}

pub fn mask_is_empty(m: Mask<'_>) -> Answer<bool> {
    settle!(with_mask!(denimrasp_mask_is_empty, m), is)
}

pub fn mask_indices(m: Mask<'_>, out: &mut [usize]) -> Answer<usize> {
    let (place, len) = (out.as_mut_ptr(), out.len());
    settle!(with_mask!(denimrasp_mask_indices, m, place, len), count)
}

pub fn mask_set(len: usize, words: &mut [u64], index: usize, value: bool) -> Answer<()> {
    settle!(
        with_mask_mut!(denimrasp_mask_set, len, words, index, value),
        unit
    )
}

pub fn mask_or_word(len: usize, words: &mut [u64], word_index: usize, bits: u64) -> Answer<()> {
    settle!(
        with_mask_mut!(denimrasp_mask_or_word, len, words, word_index, bits),
        unit
    )
}

pub fn mask_union_assign(len: usize, words: &mut [u64], other: Mask<'_>) -> Answer<()> {
    let (place, count) = (other.words.as_ptr(), other.words.len());
    settle!(
        with_mask_mut!(
            denimrasp_mask_union_assign,
            len,
            words,
            other.len,
            place,
            count
        ),
        unit
    )
}

pub fn mask_intersect_assign(len: usize, words: &mut [u64], other: Mask<'_>) -> Answer<()> {
    let (place, count) = (other.words.as_ptr(), other.words.len());
    settle!(
        with_mask_mut!(
            denimrasp_mask_intersect_assign,
            len,
            words,
            other.len,
            place,
            count
        ),
        unit
    )
}

pub fn mask_and_not_assign(len: usize, words: &mut [u64], other: Mask<'_>) -> Answer<()> {
    let (place, count) = (other.words.as_ptr(), other.words.len());
    settle!(
        with_mask_mut!(
            denimrasp_mask_and_not_assign,
            len,
            words,
            other.len,
            place,
            count
        ),
        unit
    )
}

pub fn mask_intersects(m: Mask<'_>, other: Mask<'_>) -> Answer<bool> {
    let (place, count) = (other.words.as_ptr(), other.words.len());
    settle!(
        with_mask!(denimrasp_mask_intersects, m, other.len, place, count),
        is
    )
}

pub fn csr32_check(m: Csr<'_>) -> Answer<()> {
    settle!(with_csr!(denimrasp_csr32_check, m), unit)
}

pub fn csr32_apply(m: Csr<'_>, x: &[f64], y: &mut [f64]) -> Answer<()> {
    let answer = with_csr!(
        denimrasp_csr32_apply,
        m,
        x.as_ptr(),
        x.len(),
        y.as_mut_ptr(),
        y.len()
    );
    settle!(answer, unit)
}

pub fn csr32_metadata_bytes(m: Csr<'_>) -> Answer<usize> {
    settle!(with_csr!(denimrasp_csr32_metadata_bytes, m), count)
}

pub fn csr32_storage_bytes(m: Csr<'_>) -> Answer<usize> {
    settle!(with_csr!(denimrasp_csr32_storage_bytes, m), count)
}

pub fn topology_check(w: Words<'_>) -> Answer<()> {
    settle!(with_words!(denimrasp_topology_check, w), unit)
}

pub fn topology_from_csr32(m: Csr<'_>, room: Room<'_>) -> Answer<Used> {
    let answer = with_csr!(
        denimrasp_topology_from_csr32,
        m,
        room.row_word_ptr.as_mut_ptr(),
        room.row_word_ptr.len(),
        room.word_indices.as_mut_ptr(),
        room.word_indices.len(),
        room.masks.as_mut_ptr(),
        room.masks.len()
    );
    settle!(answer, used)
}

pub fn topology_row_nonempty_words(w: Words<'_>, row: usize) -> Answer<usize> {
    settle!(
        with_words!(denimrasp_topology_row_nonempty_words, w, row),
        count
    )
}

pub fn topology_row_popcount(w: Words<'_>, row: usize) -> Answer<usize> {
    settle!(with_words!(denimrasp_topology_row_popcount, w, row), count)
}

pub fn topology_row_contains(w: Words<'_>, row: usize, col: usize) -> Answer<bool> {
    settle!(
        with_words!(denimrasp_topology_row_contains, w, row, col),
        is
    )
}

pub fn topology_row_rank(w: Words<'_>, row: usize, col: usize) -> Answer<usize> {
    settle!(with_words!(denimrasp_topology_row_rank, w, row, col), count)
}

pub fn topology_row_select(w: Words<'_>, row: usize, ordinal: usize) -> Answer<Option<usize>> {
    settle!(
        with_words!(denimrasp_topology_row_select, w, row, ordinal),
        selected
    )
}

pub fn topology_stats(w: Words<'_>) -> Answer<sys::TopologyStats> {
    settle!(with_words!(denimrasp_topology_stats, w), |stats| stats)
}

pub fn topology_union(a: Words<'_>, b: Words<'_>, room: Room<'_>) -> Answer<Used> {
    with_two!(denimrasp_topology_union, a, b, room)
}

pub fn topology_intersection(a: Words<'_>, b: Words<'_>, room: Room<'_>) -> Answer<Used> {
    with_two!(denimrasp_topology_intersection, a, b, room)
}

pub fn topology_and_not(a: Words<'_>, b: Words<'_>, room: Room<'_>) -> Answer<Used> {
    with_two!(denimrasp_topology_and_not, a, b, room)
}

pub fn topology_xor(a: Words<'_>, b: Words<'_>, room: Room<'_>) -> Answer<Used> {
    with_two!(denimrasp_topology_xor, a, b, room)
}

pub fn metadata_first_check(s: Store<'_>) -> Answer<()> {
    settle!(with_store!(denimrasp_metadata_first_check, s), unit)
}

pub fn metadata_first_from_csr32(
    m: Csr<'_>,
    room: Room<'_>,
    row_value_ptr: &mut [u32],
    packed: &mut [f64],
) -> Answer<Used> {
    let answer = with_csr!(
        denimrasp_metadata_first_from_csr32,
        m,
        room.row_word_ptr.as_mut_ptr(),
        room.row_word_ptr.len(),
        room.word_indices.as_mut_ptr(),
        room.word_indices.len(),
        room.masks.as_mut_ptr(),
        room.masks.len(),
        row_value_ptr.as_mut_ptr(),
        row_value_ptr.len(),
        packed.as_mut_ptr(),
        packed.len()
    );
    settle!(answer, used)
}

pub fn metadata_first_stats(s: Store<'_>) -> Answer<sys::StoreStats> {
    settle!(with_store!(denimrasp_metadata_first_stats, s), |stats| {
        stats
    })
}

pub fn metadata_first_sparse_dot_row(
    s: Store<'_>,
    row: usize,
    active: Mask<'_>,
    x: &[f64],
) -> Answer<sys::Dot> {
    let answer = with_store!(
        denimrasp_metadata_first_sparse_dot_row,
        s,
        row,
        active.len,
        active.words.as_ptr(),
        active.words.len(),
        x.as_ptr(),
        x.len()
    );
    settle!(answer, |dot| dot)
}

pub fn metadata_first_sparse_dot_rows(
    s: Store<'_>,
    active: Mask<'_>,
    x: &[f64],
    sums: &mut [f64],
    executed: &mut [u32],
) -> Answer<()> {
    let answer = with_store!(
        denimrasp_metadata_first_sparse_dot_rows,
        s,
        active.len,
        active.words.as_ptr(),
        active.words.len(),
        x.as_ptr(),
        x.len(),
        sums.as_mut_ptr(),
        sums.len(),
        executed.as_mut_ptr(),
        executed.len()
    );
    settle!(answer, unit)
}

pub fn word_base_col(word_index: u32) -> usize {
    // SAFETY: numbers alone.
    unsafe { sys::denimrasp_word_base_col(word_index) }
}

pub fn word_popcount(mask: u64) -> usize {
    // SAFETY: numbers alone.
    unsafe { sys::denimrasp_word_popcount(mask) }
}

pub fn word_contains_offset(mask: u64, offset: usize) -> bool {
    // SAFETY: numbers alone.
    unsafe { sys::denimrasp_word_contains_offset(mask, offset) }
}

pub fn word_rank(mask: u64, offset: usize) -> Answer<usize> {
    // SAFETY: numbers alone.
    let answer = unsafe { sys::denimrasp_word_rank(mask, offset) };
    settle!(answer, count)
}

pub fn word_select(mask: u64, ordinal: usize) -> Answer<Option<usize>> {
    // SAFETY: numbers alone.
    let answer = unsafe { sys::denimrasp_word_select(mask, ordinal) };
    settle!(answer, selected)
}

pub fn topology_average_word_nnz(structural_nnz: usize, nonempty_words: usize) -> f64 {
    // SAFETY: numbers alone.
    unsafe { sys::denimrasp_topology_average_word_nnz(structural_nnz, nonempty_words) }
}

pub fn topology_word_fill_ratio(structural_nnz: usize, nonempty_words: usize) -> f64 {
    // SAFETY: numbers alone.
    unsafe { sys::denimrasp_topology_word_fill_ratio(structural_nnz, nonempty_words) }
}

pub fn topology_metadata_bytes_per_nnz(metadata_bytes: usize, structural_nnz: usize) -> f64 {
    // SAFETY: numbers alone.
    unsafe { sys::denimrasp_topology_metadata_bytes_per_nnz(metadata_bytes, structural_nnz) }
}

pub fn metadata_first_pruning_ratio(skipped: usize, candidates: usize) -> f64 {
    // SAFETY: numbers alone.
    unsafe { sys::denimrasp_metadata_first_pruning_ratio(skipped, candidates) }
}

pub fn metadata_first_empty_word_ratio(topology_words: usize, active_words: usize) -> f64 {
    // SAFETY: numbers alone.
    unsafe { sys::denimrasp_metadata_first_empty_word_ratio(topology_words, active_words) }
}

pub fn metadata_first_total_estimated_bytes(words: usize, pointers: usize, values: usize) -> usize {
    // SAFETY: numbers alone.
    unsafe { sys::denimrasp_metadata_first_total_estimated_bytes(words, pointers, values) }
}

/// The totals of two reports, each in the order of the Rust's fields.
pub fn metadata_first_accumulate(a: [usize; 5], b: [usize; 5]) -> Answer<sys::Totals> {
    // SAFETY: numbers alone.
    let answer = unsafe {
        sys::denimrasp_metadata_first_accumulate(
            a[0], a[1], a[2], a[3], a[4], b[0], b[1], b[2], b[3], b[4],
        )
    };
    settle!(answer, |totals| totals)
}

pub fn abtm_from_csr32(
    m: Csr<'_>,
    (sparse_max_nnz, dense_min_nnz): (u8, u8),
    room: TileRoom<'_>,
) -> Answer<sys::Tiles> {
    let answer = with_csr!(
        denimrasp_abtm_from_csr32,
        m,
        sparse_max_nnz,
        dense_min_nnz,
        room.row_tile_ptr.as_mut_ptr(),
        room.row_tile_ptr.len(),
        room.masks.as_mut_ptr(),
        room.masks.len(),
        room.value_offsets.as_mut_ptr(),
        room.value_offsets.len(),
        room.metas.as_mut_ptr(),
        room.metas.len(),
        room.values.as_mut_ptr(),
        room.values.len()
    );
    settle!(answer, |used| used)
}

pub fn abtm_stats(t: Tiles<'_>) -> Answer<sys::TileStats> {
    settle!(with_tiles!(denimrasp_abtm_stats, t), |stats| stats)
}

pub fn abtm_apply(t: Tiles<'_>, x: &[f64], y: &mut [f64]) -> Answer<()> {
    let answer = with_tiles!(
        denimrasp_abtm_apply,
        t,
        x.as_ptr(),
        x.len(),
        y.as_mut_ptr(),
        y.len()
    );
    settle!(answer, unit)
}

pub fn abtm_expand_mask_one_hop(t: Tiles<'_>, mask: Mask<'_>, out: &mut [u64]) -> Answer<()> {
    let answer = with_tiles!(
        denimrasp_abtm_expand_mask_one_hop,
        t,
        mask.len,
        mask.words.as_ptr(),
        mask.words.len(),
        out.as_mut_ptr(),
        out.len()
    );
    settle!(answer, unit)
}

pub fn abtm_tile_kind(meta: u32) -> Answer<usize> {
    // SAFETY: numbers alone.
    let answer = unsafe { sys::denimrasp_abtm_tile_kind(meta) };
    settle!(answer, count)
}

pub fn abtm_tile_base_col(meta: u32) -> usize {
    // SAFETY: numbers alone.
    unsafe { sys::denimrasp_abtm_tile_base_col(meta) }
}

pub fn abtm_metadata_bytes_per_nnz(metadata_bytes: usize, matrix_nnz: usize) -> f64 {
    // SAFETY: numbers alone.
    unsafe { sys::denimrasp_abtm_metadata_bytes_per_nnz(metadata_bytes, matrix_nnz) }
}

pub fn abtm_total_estimated_bytes(metadata_bytes: usize, value_slots: usize) -> usize {
    // SAFETY: numbers alone.
    unsafe { sys::denimrasp_abtm_total_estimated_bytes(metadata_bytes, value_slots) }
}

pub fn restricted_from_csr32(
    m: Csr<'_>,
    active: Mask<'_>,
    room: CsrRoom<'_>,
) -> Answer<sys::Restriction> {
    let answer = with_csr!(
        denimrasp_restricted_from_csr32,
        m,
        active.len,
        active.words.as_ptr(),
        active.words.len(),
        room.row_ptr.as_mut_ptr(),
        room.row_ptr.len(),
        room.col_idx.as_mut_ptr(),
        room.col_idx.len(),
        room.values.as_mut_ptr(),
        room.values.len()
    );
    settle!(answer, |used| used)
}

pub fn restricted_from_abtm(
    t: Tiles<'_>,
    active: Mask<'_>,
    room: CsrRoom<'_>,
) -> Answer<sys::Restriction> {
    let answer = with_tiles!(
        denimrasp_restricted_from_abtm,
        t,
        active.len,
        active.words.as_ptr(),
        active.words.len(),
        room.row_ptr.as_mut_ptr(),
        room.row_ptr.len(),
        room.col_idx.as_mut_ptr(),
        room.col_idx.len(),
        room.values.as_mut_ptr(),
        room.values.len()
    );
    settle!(answer, |used| used)
}

pub fn restricted_retained_fraction(retained_nnz: usize, source_nnz: usize) -> f64 {
    // SAFETY: numbers alone.
    unsafe { sys::denimrasp_restricted_retained_fraction(retained_nnz, source_nnz) }
}

pub fn restricted_storage_bytes(nrows: usize, ncols: usize, retained_nnz: usize) -> usize {
    // SAFETY: numbers alone.
    unsafe { sys::denimrasp_restricted_storage_bytes(nrows, ncols, retained_nnz) }
}

pub fn local_from_csr32(
    m: Csr<'_>,
    region: Mask<'_>,
    members: &mut [u32],
    room: CsrRoom<'_>,
) -> Answer<sys::Region> {
    let answer = with_csr!(
        denimrasp_local_from_csr32,
        m,
        region.len,
        region.words.as_ptr(),
        region.words.len(),
        members.as_mut_ptr(),
        members.len(),
        room.row_ptr.as_mut_ptr(),
        room.row_ptr.len(),
        room.col_idx.as_mut_ptr(),
        room.col_idx.len(),
        room.values.as_mut_ptr(),
        room.values.len()
    );
    settle!(answer, |used| used)
}

pub fn local_gather_input(
    global_size: usize,
    members: &[u32],
    global: &[f64],
    local: &mut [f64],
) -> Answer<()> {
    // SAFETY: every pointer and length is a slice's, and `local` is borrowed alone.
    let answer = unsafe {
        sys::denimrasp_local_gather_input(
            global_size,
            members.as_ptr(),
            members.len(),
            global.as_ptr(),
            global.len(),
            local.as_mut_ptr(),
            local.len(),
        )
    };
    settle!(answer, unit)
}

pub fn local_boundary_pruning_ratio(local_nnz: usize, source_row_nnz: usize) -> f64 {
    // SAFETY: numbers alone.
    unsafe { sys::denimrasp_local_boundary_pruning_ratio(local_nnz, source_row_nnz) }
}

pub fn local_storage_bytes(local_nodes: usize, local_nnz: usize) -> usize {
    // SAFETY: numbers alone.
    unsafe { sys::denimrasp_local_storage_bytes(local_nodes, local_nnz) }
}

pub fn dense_block_from_csr32(m: Csr<'_>, six: bool, room: CsrRoom<'_>) -> Answer<sys::Blocks> {
    let answer = with_csr!(
        denimrasp_dense_block_from_csr32,
        m,
        six,
        room.row_ptr.as_mut_ptr(),
        room.row_ptr.len(),
        room.col_idx.as_mut_ptr(),
        room.col_idx.len(),
        room.values.as_mut_ptr(),
        room.values.len()
    );
    settle!(answer, |used| used)
}

pub fn dense_block_apply(b: Blocks<'_>, x: &[f64], y: &mut [f64]) -> Answer<()> {
    let answer = with_blocks!(
        denimrasp_dense_block_apply,
        b,
        x.as_ptr(),
        x.len(),
        y.as_mut_ptr(),
        y.len()
    );
    settle!(answer, unit)
}

pub fn dense_block_fast_block_fraction(b: Blocks<'_>) -> Answer<f64> {
    let answer = with_blocks!(denimrasp_dense_block_fast_block_fraction, b);
    settle!(answer, |fraction: sys::Ratio| fraction.ratio)
}

pub fn dense_block_block_fill(structural_slots: usize, valid_dense_slots: usize) -> f64 {
    // SAFETY: numbers alone.
    unsafe { sys::denimrasp_dense_block_block_fill(structural_slots, valid_dense_slots) }
}

pub fn dense_block_value_padding_ratio(dense_value_slots: usize, structural_slots: usize) -> f64 {
    // SAFETY: numbers alone.
    unsafe { sys::denimrasp_dense_block_value_padding_ratio(dense_value_slots, structural_slots) }
}

pub fn dense_block_metadata_bytes(block_rows: usize, unique_blocks: usize) -> usize {
    // SAFETY: numbers alone.
    unsafe { sys::denimrasp_dense_block_metadata_bytes(block_rows, unique_blocks) }
}

pub fn dense_block_storage_bytes(block_rows: usize, unique_blocks: usize, slots: usize) -> usize {
    // SAFETY: numbers alone.
    unsafe { sys::denimrasp_dense_block_storage_bytes(block_rows, unique_blocks, slots) }
}
