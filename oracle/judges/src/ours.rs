//! The library's answer to a call, through its C interface.

use crate::sys;
use calls::{Call, Counts, Csr, Mask, Outcome, Store, StoreRoom, WordsRoom, bits};

/// A number of an answer or of a list, as an outcome holds it.
trait Number: Copy {
    fn number(self) -> u64;
}

impl Number for u32 {
    fn number(self) -> u64 {
        self.into()
    }
}

impl Number for u64 {
    fn number(self) -> u64 {
        self
    }
}

impl Number for usize {
    fn number(self) -> u64 {
        self as u64
    }
}

impl Number for bool {
    fn number(self) -> u64 {
        self.into()
    }
}

impl Number for f64 {
    fn number(self) -> u64 {
        bits(self)
    }
}

/// A list that a call is lent to write. One more place stands behind it, to see that nothing is written past the end.
struct Lent<T> {
    places: Vec<T>,
    guard: T,
}

impl<T: Number> Lent<T> {
    fn new(list: &[T], guard: T) -> Self {
        let mut places = Vec::with_capacity(list.len() + 1);
        places.extend_from_slice(list);
        places.push(guard);
        Lent { places, guard }
    }

    fn len(&self) -> usize {
        self.places.len() - 1
    }

    fn as_mut_ptr(&mut self) -> *mut T {
        self.places.as_mut_ptr()
    }

    fn numbers(&self) -> Vec<u64> {
        let n = self.len();
        assert_eq!(
            self.places[n].number(),
            self.guard.number(),
            "the library wrote past the end of a lent list"
        );
        self.places[..n].iter().map(|v| v.number()).collect()
    }
}

const GUARD32: u32 = 0x5a5a_5a5a;
const GUARD64: u64 = 0x5a5a_5a5a_5a5a_5a5a;

fn lent32(list: &[u32]) -> Lent<u32> {
    Lent::new(list, GUARD32)
}

fn lent64(list: &[u64]) -> Lent<u64> {
    Lent::new(list, GUARD64)
}

fn lent_sizes(list: &[usize]) -> Lent<usize> {
    Lent::new(list, GUARD64 as usize)
}

fn lent_floats(list: &[f64]) -> Lent<f64> {
    Lent::new(list, f64::from_bits(GUARD64))
}

/// Makes an outcome without lists of each answer of the C interface.
trait Answer {
    fn outcome(self) -> Outcome;
}

macro_rules! answer {
    ($name:ident $(, $field:ident)*) => {
        impl Answer for sys::$name {
            fn outcome(self) -> Outcome {
                Outcome {
                    number: self.number,
                    expected: self.expected,
                    actual: self.actual,
                    result: vec![$(self.$field.number()),*],
                    lists: Vec::new(),
                }
            }
        }
    };
}

answer!(Verdict);
answer!(Count, count);
answer!(Bool, is);
answer!(Select, found, column);
answer!(Part, start, end);
answer!(Topology, words, structural_nnz);
answer!(
    TopologyStats,
    nrows,
    ncols,
    structural_nnz,
    nonempty_words,
    metadata_bytes
);
answer!(
    StoreStats,
    nrows,
    ncols,
    structural_nnz,
    topology_metadata_bytes,
    value_row_ptr_bytes,
    packed_value_bytes
);
answer!(
    Dot,
    sum,
    candidate_products,
    executed_products,
    skipped_products,
    topology_words,
    active_words
);
answer!(
    Totals,
    candidate_products,
    executed_products,
    skipped_products,
    topology_words,
    active_words
);

answer!(Tiles, tiles, value_slots, matrix_nnz);
answer!(
    TileStats,
    nrows,
    ncols,
    matrix_nnz,
    tiles,
    sparse_tiles,
    bitmap_tiles,
    dense_tiles,
    value_slots,
    metadata_bytes
);

answer!(Restriction, nrows, ncols, source_nnz, retained_nnz);
answer!(Region, global_size, local_nodes, local_nnz, source_row_nnz);

answer!(
    Blocks,
    nrows,
    ncols,
    block_rows,
    unique_blocks,
    dense_value_slots,
    structural_slots,
    valid_dense_slots
);
answer!(Ratio, ratio);

/// The answer of a call that can't refuse.
fn plain(value: impl Number) -> Outcome {
    Outcome {
        result: vec![value.number()],
        ..Outcome::default()
    }
}

fn with_lists(answer: impl Answer, lists: Vec<Vec<u64>>) -> Outcome {
    Outcome {
        lists,
        ..answer.outcome()
    }
}

// Each macro hands a record's numbers and lists to a C call, then the other arguments.
// SAFETY, of all calls below: each list is a slice or a vector with its own length, and the lists written to are copies of
// their own.

macro_rules! with_mask {
    ($f:ident, $m:expr $(, $more:expr)*) => {
        unsafe { sys::$f($m.len, $m.words.as_ptr(), $m.words.len() $(, $more)*) }
    };
}

macro_rules! with_csr {
    ($f:ident, $c:expr $(, $more:expr)*) => {
        unsafe {
            sys::$f(
                $c.nrows, $c.ncols,
                $c.row_ptr.as_ptr(), $c.row_ptr.len(),
                $c.col_idx.as_ptr(), $c.col_idx.len(),
                $c.values.as_ptr(), $c.values.len()
                $(, $more)*
            )
        }
    };
}

macro_rules! with_words {
    ($f:ident, $w:expr $(, $more:expr)*) => {
        unsafe {
            sys::$f(
                $w.nrows, $w.ncols,
                $w.row_word_ptr.as_ptr(), $w.row_word_ptr.len(),
                $w.word_indices.as_ptr(), $w.word_indices.len(),
                $w.masks.as_ptr(), $w.masks.len(),
                $w.structural_nnz
                $(, $more)*
            )
        }
    };
}

macro_rules! with_store {
    ($f:ident, $s:expr $(, $more:expr)*) => {
        with_words!(
            $f, $s.words,
            $s.row_value_ptr.as_ptr(), $s.row_value_ptr.len(),
            $s.values.as_ptr(), $s.values.len()
            $(, $more)*
        )
    };
}

macro_rules! with_tiles {
    ($f:ident, $t:expr $(, $more:expr)*) => {
        unsafe {
            sys::$f(
                $t.nrows, $t.ncols,
                $t.row_tile_ptr.as_ptr(), $t.row_tile_ptr.len(),
                $t.masks.as_ptr(), $t.masks.len(),
                $t.value_offsets.as_ptr(), $t.value_offsets.len(),
                $t.metas.as_ptr(), $t.metas.len(),
                $t.values.as_ptr(), $t.values.len(),
                $t.matrix_nnz
                $(, $more)*
            )
        }
    };
}

macro_rules! with_blocks {
    ($f:ident, $b:expr $(, $more:expr)*) => {
        unsafe {
            sys::$f(
                $b.nrows, $b.ncols, $b.six,
                $b.row_ptr.as_ptr(), $b.row_ptr.len(),
                $b.col_idx.as_ptr(), $b.col_idx.len(),
                $b.values.as_ptr(), $b.values.len()
                $(, $more)*
            )
        }
    };
}

// Below the macros, which they use.
mod dense_block;
mod restricted;
mod tiles;

/// A call that changes the words of a mask.
macro_rules! mask_change {
    ($f:ident, $m:expr $(, $more:expr)*) => {{
        let mut words = lent64(&$m.words);
        let answer = unsafe { sys::$f($m.len, words.as_mut_ptr(), words.len() $(, $more)*) };
        with_lists(answer, vec![words.numbers()])
    }};
}

/// A set operation on two records.
macro_rules! combine {
    ($f:ident, $a:expr, $b:expr, $room:expr) => {{
        let (a, b, room) = ($a, $b, $room);
        let mut ptr = lent32(&room.row_word_ptr);
        let mut numbers = lent32(&room.word_indices);
        let mut masks = lent64(&room.masks);
        let answer = with_words!(
            $f,
            a,
            b.nrows,
            b.ncols,
            b.row_word_ptr.as_ptr(),
            b.row_word_ptr.len(),
            b.word_indices.as_ptr(),
            b.word_indices.len(),
            b.masks.as_ptr(),
            b.masks.len(),
            b.structural_nnz,
            ptr.as_mut_ptr(),
            ptr.len(),
            numbers.as_mut_ptr(),
            numbers.len(),
            masks.as_mut_ptr(),
            masks.len()
        );
        with_lists(
            answer,
            vec![ptr.numbers(), numbers.numbers(), masks.numbers()],
        )
    }};
}

/// What the library makes of the call.
pub fn judge(call: &Call) -> Outcome {
    use Call::*;
    match call {
        MaskCheck(m) => with_mask!(denimrasp_mask_check, m).outcome(),
        MaskContains(m, i) => with_mask!(denimrasp_mask_contains, m, *i).outcome(),
        MaskCountOnes(m) => with_mask!(denimrasp_mask_count_ones, m).outcome(),
        MaskIsEmpty(m) => with_mask!(denimrasp_mask_is_empty, m).outcome(),
        MaskNew(len, room) => mask_new(*len, room),
        MaskFromIndices(len, indices, room) => mask_from_indices(*len, indices, room),
        MaskSet(m, i, value) => mask_change!(denimrasp_mask_set, m, *i, *value),
        MaskOrWord(m, word, b) => mask_change!(denimrasp_mask_or_word, m, *word, *b),
        MaskIndices(m, room) => mask_indices(m, room),
        MaskUnionAssign(a, b) | MaskIntersectAssign(a, b) | MaskAndNotAssign(a, b) => {
            mask_assign(call, a, b)
        }
        MaskIntersects(a, b) => with_mask!(
            denimrasp_mask_intersects,
            a,
            b.len,
            b.words.as_ptr(),
            b.words.len()
        )
        .outcome(),
        Csr32Check(c) => with_csr!(denimrasp_csr32_check, c).outcome(),
        Csr32Apply(c, x, y) => csr32_apply(c, x, y),
        Csr32MetadataBytes(c) => with_csr!(denimrasp_csr32_metadata_bytes, c).outcome(),
        Csr32StorageBytes(c) => with_csr!(denimrasp_csr32_storage_bytes, c).outcome(),
        TopologyFromCsr32(c, room) => topology_from_csr32(c, room),
        TopologyUnion(a, b, room) => combine!(denimrasp_topology_union, a, b, room),
        TopologyIntersection(a, b, room) => combine!(denimrasp_topology_intersection, a, b, room),
        TopologyAndNot(a, b, room) => combine!(denimrasp_topology_and_not, a, b, room),
        TopologyXor(a, b, room) => combine!(denimrasp_topology_xor, a, b, room),
        MetadataFirstCheckMerge(c) => with_csr!(denimrasp_metadata_first_check_merge, c).outcome(),
        MetadataFirstFromCsr32(c, room) => metadata_first_from_csr32(c, room),
        _ => question(call),
    }
}

/// A question to words or to a store.
fn question(call: &Call) -> Outcome {
    use Call::*;
    match call {
        TopologyCheck(w) => with_words!(denimrasp_topology_check, w).outcome(),
        TopologyRowWords(w, r) => with_words!(denimrasp_topology_row_words, w, *r).outcome(),
        TopologyRowNonemptyWords(w, r) => {
            with_words!(denimrasp_topology_row_nonempty_words, w, *r).outcome()
        }
        TopologyRowPopcount(w, r) => with_words!(denimrasp_topology_row_popcount, w, *r).outcome(),
        TopologyRowContains(w, r, c) => {
            with_words!(denimrasp_topology_row_contains, w, *r, *c).outcome()
        }
        TopologyRowRank(w, r, c) => with_words!(denimrasp_topology_row_rank, w, *r, *c).outcome(),
        TopologyRowSelect(w, r, k) => {
            with_words!(denimrasp_topology_row_select, w, *r, *k).outcome()
        }
        TopologyStats(w) => with_words!(denimrasp_topology_stats, w).outcome(),
        MetadataFirstCheck(s) => with_store!(denimrasp_metadata_first_check, s).outcome(),
        MetadataFirstRowValues(s, r) => {
            with_store!(denimrasp_metadata_first_row_values, s, *r).outcome()
        }
        MetadataFirstStats(s) => with_store!(denimrasp_metadata_first_stats, s).outcome(),
        MetadataFirstSparseDotRow(s, r, m, x) => sparse_dot_row(s, *r, m, x),
        MetadataFirstSparseDotRows(s, m, x, sums, executed) => {
            sparse_dot_rows(s, m, x, sums, executed)
        }
        _ => by_value(call),
    }
}

/// A call whose arguments are numbers alone.
fn by_value(call: &Call) -> Outcome {
    use Call::*;
    // SAFETY: no pointer is handed over.
    unsafe {
        match *call {
            WordBaseCol(word) => plain(sys::denimrasp_word_base_col(word)),
            WordPopcount(mask) => plain(sys::denimrasp_word_popcount(mask)),
            WordContainsOffset(mask, o) => plain(sys::denimrasp_word_contains_offset(mask, o)),
            WordRank(mask, o) => sys::denimrasp_word_rank(mask, o).outcome(),
            WordSelect(mask, k) => sys::denimrasp_word_select(mask, k).outcome(),
            TopologyAverageWordNnz(a, b) => plain(sys::denimrasp_topology_average_word_nnz(a, b)),
            TopologyWordFillRatio(a, b) => plain(sys::denimrasp_topology_word_fill_ratio(a, b)),
            TopologyMetadataBytesPerNnz(a, b) => {
                plain(sys::denimrasp_topology_metadata_bytes_per_nnz(a, b))
            }
            MetadataFirstPruningRatio(a, b) => {
                plain(sys::denimrasp_metadata_first_pruning_ratio(a, b))
            }
            MetadataFirstEmptyWordRatio(a, b) => {
                plain(sys::denimrasp_metadata_first_empty_word_ratio(a, b))
            }
            MetadataFirstTotalEstimatedBytes(a, b, c) => {
                plain(sys::denimrasp_metadata_first_total_estimated_bytes(a, b, c))
            }
            MetadataFirstAccumulate(a, b) => accumulate(a, b),
            _ => tiles::judge(call),
        }
    }
}

fn mask_new(len: usize, room: &[u64]) -> Outcome {
    let mut words = lent64(room);
    let answer = unsafe { sys::denimrasp_mask_new(len, words.as_mut_ptr(), words.len()) };
    with_lists(answer, vec![words.numbers()])
}

fn mask_from_indices(len: usize, indices: &[usize], room: &[u64]) -> Outcome {
    let mut words = lent64(room);
    let answer = unsafe {
        sys::denimrasp_mask_from_indices(
            len,
            indices.as_ptr(),
            indices.len(),
            words.as_mut_ptr(),
            words.len(),
        )
    };
    with_lists(answer, vec![words.numbers()])
}

fn mask_indices(m: &Mask, room: &[usize]) -> Outcome {
    let mut out = lent_sizes(room);
    let answer = with_mask!(denimrasp_mask_indices, m, out.as_mut_ptr(), out.len());
    with_lists(answer, vec![out.numbers()])
}

fn mask_assign(call: &Call, a: &Mask, b: &Mask) -> Outcome {
    let assign = match call {
        Call::MaskUnionAssign(..) => sys::denimrasp_mask_union_assign,
        Call::MaskIntersectAssign(..) => sys::denimrasp_mask_intersect_assign,
        _ => sys::denimrasp_mask_and_not_assign,
    };
    let mut words = lent64(&a.words);
    let answer = unsafe {
        assign(
            a.len,
            words.as_mut_ptr(),
            words.len(),
            b.len,
            b.words.as_ptr(),
            b.words.len(),
        )
    };
    with_lists(answer, vec![words.numbers()])
}

fn csr32_apply(c: &Csr, x: &[f64], y: &[f64]) -> Outcome {
    let mut y = lent_floats(y);
    let answer = with_csr!(
        denimrasp_csr32_apply,
        c,
        x.as_ptr(),
        x.len(),
        y.as_mut_ptr(),
        y.len()
    );
    with_lists(answer, vec![y.numbers()])
}

fn topology_from_csr32(c: &Csr, room: &WordsRoom) -> Outcome {
    let mut ptr = lent32(&room.row_word_ptr);
    let mut numbers = lent32(&room.word_indices);
    let mut masks = lent64(&room.masks);
    let answer = with_csr!(
        denimrasp_topology_from_csr32,
        c,
        ptr.as_mut_ptr(),
        ptr.len(),
        numbers.as_mut_ptr(),
        numbers.len(),
        masks.as_mut_ptr(),
        masks.len()
    );
    with_lists(
        answer,
        vec![ptr.numbers(), numbers.numbers(), masks.numbers()],
    )
}

fn metadata_first_from_csr32(c: &Csr, room: &StoreRoom) -> Outcome {
    let mut ptr = lent32(&room.words.row_word_ptr);
    let mut numbers = lent32(&room.words.word_indices);
    let mut masks = lent64(&room.words.masks);
    let mut value_ptr = lent32(&room.row_value_ptr);
    let mut packed = lent_floats(&room.values);
    let answer = with_csr!(
        denimrasp_metadata_first_from_csr32,
        c,
        ptr.as_mut_ptr(),
        ptr.len(),
        numbers.as_mut_ptr(),
        numbers.len(),
        masks.as_mut_ptr(),
        masks.len(),
        value_ptr.as_mut_ptr(),
        value_ptr.len(),
        packed.as_mut_ptr(),
        packed.len()
    );
    with_lists(
        answer,
        vec![
            ptr.numbers(),
            numbers.numbers(),
            masks.numbers(),
            value_ptr.numbers(),
            packed.numbers(),
        ],
    )
}

fn sparse_dot_row(s: &Store, row: usize, m: &Mask, x: &[f64]) -> Outcome {
    with_store!(
        denimrasp_metadata_first_sparse_dot_row,
        s,
        row,
        m.len,
        m.words.as_ptr(),
        m.words.len(),
        x.as_ptr(),
        x.len()
    )
    .outcome()
}

fn sparse_dot_rows(s: &Store, m: &Mask, x: &[f64], sums: &[f64], executed: &[u32]) -> Outcome {
    let mut sums = lent_floats(sums);
    let mut executed = lent32(executed);
    let answer = with_store!(
        denimrasp_metadata_first_sparse_dot_rows,
        s,
        m.len,
        m.words.as_ptr(),
        m.words.len(),
        x.as_ptr(),
        x.len(),
        sums.as_mut_ptr(),
        sums.len(),
        executed.as_mut_ptr(),
        executed.len()
    );
    with_lists(answer, vec![sums.numbers(), executed.numbers()])
}

fn accumulate(a: Counts, b: Counts) -> Outcome {
    // SAFETY: no pointer is handed over.
    unsafe {
        sys::denimrasp_metadata_first_accumulate(
            a[0], a[1], a[2], a[3], a[4], b[0], b[1], b[2], b[3], b[4],
        )
    }
    .outcome()
}
