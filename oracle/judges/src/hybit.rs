//! hybit's Rust as a judge of a call, and the reasons why it can't be one.
//!
//! The Rust owns its lists and checks them when it makes them, so words and stores that are handed in are made from a plot list
//! with the same columns and values, and the Rust's object must then show the same lists.

pub mod demand;
mod dense_block;
mod restricted;
mod tiles;

use calls::{Call, Counts, Csr, Mask, Outcome, Store, StoreRoom, Words, WordsRoom, bits};
use hybit_core::{HybitError, LinearOperator};
use hybit_matrix::{
    AbtmMetadataFirstMatrix, AbtmMetadataFirstStats, AbtmProductPruningStats, AbtmTopology,
    AbtmTopologyRow, AbtmTopologyStats, AbtmTopologyWord, Csr32Matrix, DofMask, reach,
};
use std::cell::RefCell;
use std::rc::Rc;

/// Why the Rust can't judge a call.
#[derive(Clone, Copy, Debug, PartialEq, Eq)]
pub enum Reason {
    OverSize,
    BadMask,
    BadWords,
    BadStore,
    NegativeZero,
    Copies,
    ResultOverSize,
    ShortList,
    EmptyWord,
    FarWord,
    ActiveAboveWords,
    NoRow,
    BadTiles,
    KindByCount,
    KindThree,
    BytesOverflow,
    BadMembers,
    NoSuchList,
    BadBlocks,
    BlockValue,
}

impl Reason {
    pub const ALL: [Reason; 20] = [
        Reason::OverSize,
        Reason::BadMask,
        Reason::BadWords,
        Reason::BadStore,
        Reason::NegativeZero,
        Reason::Copies,
        Reason::ResultOverSize,
        Reason::ShortList,
        Reason::EmptyWord,
        Reason::FarWord,
        Reason::ActiveAboveWords,
        Reason::NoRow,
        Reason::BadTiles,
        Reason::KindByCount,
        Reason::KindThree,
        Reason::BytesOverflow,
        Reason::BadMembers,
        Reason::NoSuchList,
        Reason::BadBlocks,
        Reason::BlockValue,
    ];

    pub fn text(self) -> &'static str {
        match self {
            Reason::OverSize => "1: a size above document 01's domain, which the Rust accepts",
            Reason::BadMask => "5: a mask that the Rust can't hold",
            Reason::BadWords => "11: words that the Rust can't hold",
            Reason::BadStore => "12: a packed store that the Rust can't hold",
            Reason::NegativeZero => "a packed -0.0, which no merge from 0.0 gives",
            Reason::Copies => "three or more copies of a column in a row to be merged",
            Reason::ResultOverSize => "1: a result of more than 2^24 words or entries",
            Reason::ShortList => "13: a lent list shorter than the Rust's result",
            Reason::EmptyWord => "a word without a one, which no Rust topology holds",
            Reason::FarWord => "a word past column 2^32, which no Rust topology or tile has",
            Reason::ActiveAboveWords => "more active words than words: the Rust subtracts below 0",
            Reason::NoRow => "the dots of no rows: the Rust asks them row by row",
            Reason::BadTiles => "12: tiles that the Rust can't hold",
            Reason::KindByCount => "kinds that no thresholds give these counts",
            Reason::KindThree => "the first column of a tile of kind 3, which no Rust tile is",
            Reason::BytesOverflow => "bytes of tiles above 2^64 - 1: the Rust's sum overflows",
            Reason::BadMembers => "12: members that no region of the Rust has",
            Reason::NoSuchList => "figures of no list, or of one with more than 2,000 entries",
            Reason::BadBlocks => "12: blocks that the Rust can't hold",
            Reason::BlockValue => "the product of blocks with values that no build gives",
        }
    }

    /// The refusal that document 01 has for what the Rust can't judge. The library must give it.
    pub fn number(self) -> Option<u32> {
        match self {
            Reason::OverSize | Reason::ResultOverSize => Some(1),
            Reason::BadMask => Some(5),
            Reason::BadWords => Some(11),
            Reason::BadStore | Reason::BadTiles | Reason::BadMembers | Reason::BadBlocks => {
                Some(12)
            }
            Reason::ShortList => Some(13),
            _ => None,
        }
    }
}

/// The number of an error whose text is not in the table: no judge gives it, so it shows as a difference.
pub const UNKNOWN_ERROR: u32 = u32::MAX;

/// Document 01's number for each error kind and text of the Rust.
const ERRORS: [(u32, HybitError); 19] = [
    (1, HybitError::SizeOverflow),
    (2, matrix("row_ptr length must equal nrows + 1")),
    (2, matrix("col_idx and values lengths differ")),
    (2, matrix("row_ptr[0] must be zero")),
    (2, matrix("row_ptr[nrows] must equal nnz")),
    (2, matrix("row_ptr must be monotonically nondecreasing")),
    (3, matrix("column index out of range")),
    (4, matrix("matrix contains NaN or infinity")),
    (4, matrix("ABTM G2 packed values contain NaN or infinity")),
    (7, argument("DOF mask index out of range")),
    (7, argument("ABTM topology rank offset out of range")),
    (7, argument("ABTM topology row index out of range")),
    (7, argument("ABTM topology row rank column out of range")),
    (7, argument("ABTM G2 row index out of range")),
    (7, argument("ABTM row index out of range")),
    (8, argument("ABTM topology dimensions differ")),
    (9, argument("invalid ABTM density thresholds")),
    (10, matrix("mask expansion requires a square ABTM matrix")),
    (
        10,
        matrix("local R A R preparation requires a square matrix"),
    ),
];

const fn matrix(text: &'static str) -> HybitError {
    HybitError::InvalidMatrix(text)
}

const fn argument(text: &'static str) -> HybitError {
    HybitError::InvalidArgument(text)
}

/// A refusal with as many zero fields as the answer has.
fn refused(error: HybitError, fields: usize) -> Outcome {
    let (number, expected, actual) = match error {
        HybitError::DimensionMismatch { expected, actual } => (6, expected, actual),
        _ => {
            let known = ERRORS.iter().find(|(_, e)| *e == error);
            (known.map_or(UNKNOWN_ERROR, |(number, _)| *number), 0, 0)
        }
    };
    Outcome {
        number,
        expected,
        actual,
        result: vec![0; fields],
        lists: Vec::new(),
    }
}

fn accepted(result: Vec<u64>) -> Outcome {
    Outcome {
        result,
        ..Outcome::default()
    }
}

/// An answer of `fields` numbers, from what the Rust hands back.
fn told(answer: Result<Vec<u64>, HybitError>, fields: usize) -> Outcome {
    match answer {
        Ok(result) => accepted(result),
        Err(error) => refused(error, fields),
    }
}

fn with_lists(outcome: Outcome, lists: Vec<Vec<u64>>) -> Outcome {
    Outcome { lists, ..outcome }
}

/// A lent list after a build: the result and zeros, or the reason that it is too short.
fn filled(used: Vec<u64>, room: usize) -> Result<Vec<u64>, Reason> {
    if used.len() > room {
        return Err(Reason::ShortList);
    }
    let mut list = used;
    list.resize(room, 0);
    Ok(list)
}

fn zeros(rooms: &[usize]) -> Vec<Vec<u64>> {
    rooms.iter().map(|&room| vec![0; room]).collect()
}

fn numbers(list: &[f64]) -> Vec<u64> {
    list.iter().map(|&v| bits(v)).collect()
}

fn wide(list: &[u32]) -> Vec<u64> {
    list.iter().map(|&v| v.into()).collect()
}

fn same_bits(a: &[f64], b: &[f64]) -> bool {
    let same = |(p, q): (&f64, &f64)| p.to_bits() == q.to_bits();
    a.len() == b.len() && a.iter().zip(b).all(same)
}

/// The most rows, columns and entries of a list that is made for its figures.
const MOST_LISTED: usize = 2000;

const MAX_SIZE: usize = 1 << 20;
const MAX_ENTRIES: usize = 1 << 24;

/// Refusal 1 over the sizes of a call: rows, columns and mask lengths; entries, words and packed values.
fn within(sizes: &[usize], entries: &[usize]) -> Result<(), Reason> {
    let fits = sizes.iter().all(|&n| n <= MAX_SIZE) && entries.iter().all(|&n| n <= MAX_ENTRIES);
    if fits { Ok(()) } else { Err(Reason::OverSize) }
}

fn mask_within(m: &Mask) -> Result<(), Reason> {
    within(&[m.len], &[])
}

fn csr_within(c: &Csr) -> Result<(), Reason> {
    within(&[c.nrows, c.ncols], &[c.col_idx.len(), c.values.len()])
}

fn words_within(w: &Words) -> Result<(), Reason> {
    within(&[w.nrows, w.ncols], &[w.word_indices.len(), w.masks.len()])
}

fn store_within(s: &Store) -> Result<(), Reason> {
    words_within(&s.words)?;
    within(&[], &[s.values.len()])
}

/// The Rust's mask with these words, where it can hold them.
fn mask_of(m: &Mask) -> Result<DofMask, Reason> {
    let mut made = DofMask::new(m.len);
    for (i, &word) in m.words.iter().enumerate() {
        reach::or_word(&mut made, i, word);
    }
    if made.words() == m.words {
        Ok(made)
    } else {
        Err(Reason::BadMask)
    }
}

fn csr_of(c: &Csr) -> Result<Csr32Matrix, HybitError> {
    let lists = (c.row_ptr.clone(), c.col_idx.clone(), c.values.clone());
    Csr32Matrix::new(c.nrows, c.ncols, lists.0, lists.1, lists.2)
}

/// The row pointers and columns of a plot list with the columns of these words.
fn columns(w: &Words) -> Result<(Vec<u32>, Vec<u32>), Reason> {
    let n = w.masks.len().min(w.word_indices.len());
    let framed = w.row_word_ptr.len() == w.nrows + 1
        && w.row_word_ptr.iter().all(|&p| p as usize <= n)
        && w.row_word_ptr.is_sorted();
    if !framed {
        return Err(Reason::BadWords);
    }
    let mut row_ptr = Vec::with_capacity(w.nrows + 1);
    let mut cols = Vec::new();
    row_ptr.push(0);
    for row in 0..w.nrows {
        for place in w.row_word_ptr[row] as usize..w.row_word_ptr[row + 1] as usize {
            let base = w.word_indices[place]
                .checked_mul(64)
                .ok_or(Reason::BadWords)?;
            cols.extend(ones(w.masks[place]).map(|bit| base + bit));
        }
        row_ptr.push(cols.len() as u32);
    }
    Ok((row_ptr, cols))
}

fn ones(mask: u64) -> impl Iterator<Item = u32> {
    (0..64).filter(move |bit| mask >> bit & 1 == 1)
}

/// The Rust's topology with these lists, where it can hold them.
fn make_topology(w: &Words) -> Result<AbtmTopology, Reason> {
    let (row_ptr, cols) = columns(w)?;
    let values = vec![1.0; cols.len()];
    let made = Csr32Matrix::new(w.nrows, w.ncols, row_ptr, cols, values)
        .and_then(|csr| AbtmTopology::from_csr32(&csr))
        .map_err(|_| Reason::BadWords)?;
    shows(&made, w).then_some(made).ok_or(Reason::BadWords)
}

/// Whether the topology has the same lists, by what it shows of its rows.
fn shows(t: &AbtmTopology, w: &Words) -> bool {
    let lists = topology_lists(t);
    (t.nrows(), t.ncols(), t.structural_nnz()) == (w.nrows, w.ncols, w.structural_nnz)
        && lists.row_word_ptr == w.row_word_ptr
        && lists.word_indices == w.word_indices
        && lists.masks == w.masks
}

/// The topology's lists, from its rows.
fn topology_lists(t: &AbtmTopology) -> WordsRoom {
    let mut lists = WordsRoom {
        row_word_ptr: Vec::with_capacity(t.nrows() + 1),
        word_indices: Vec::with_capacity(t.nonempty_words()),
        masks: Vec::with_capacity(t.nonempty_words()),
    };
    lists.row_word_ptr.push(0);
    for row in 0..t.nrows() {
        let row = t.row(row).expect("a row below the row count");
        lists
            .word_indices
            .extend(row.words().map(|w| w.word_index()));
        lists.masks.extend(row.words().map(|w| w.mask()));
        lists.row_word_ptr.push(lists.masks.len() as u32);
    }
    lists
}

/// The value pointers of a store, from its rows.
fn value_pointers(m: &AbtmMetadataFirstMatrix) -> Vec<u32> {
    let mut pointers = vec![0];
    let mut end = 0;
    for row in 0..m.topology().nrows() {
        end += m.row_values(row).expect("a row below the row count").len() as u32;
        pointers.push(end);
    }
    pointers
}

/// The Rust's packed store with these lists, where it can hold them.
fn make_store(s: &Store) -> Result<AbtmMetadataFirstMatrix, Reason> {
    let topology = topology_of(&s.words)?;
    if s.values.len() != topology.structural_nnz() {
        return Err(Reason::BadStore);
    }
    let (row_ptr, cols) = columns(&s.words)?;
    let made = Csr32Matrix::new(
        s.words.nrows,
        s.words.ncols,
        row_ptr,
        cols,
        s.values.clone(),
    )
    .and_then(|csr| AbtmMetadataFirstMatrix::from_csr32(&csr))
    .map_err(|_| Reason::BadStore)?;
    if *made.topology() != *topology || value_pointers(&made) != s.row_value_ptr {
        return Err(Reason::BadStore);
    }
    if numbers(made.packed_values()) == numbers(&s.values) {
        Ok(made)
    } else if made.packed_values() == s.values {
        Err(Reason::NegativeZero)
    } else {
        Err(Reason::BadStore)
    }
}

type Made<T> = Result<Rc<T>, Reason>;

// Questions come in runs to the same record, so the last ones made are kept.
thread_local! {
    static TOPOLOGIES: RefCell<Vec<(Words, Made<AbtmTopology>)>> = const { RefCell::new(Vec::new()) };
    static STORES: RefCell<Vec<(Store, Made<AbtmMetadataFirstMatrix>)>> = const { RefCell::new(Vec::new()) };
}

const KEPT: usize = 2;

fn topology_of(w: &Words) -> Made<AbtmTopology> {
    TOPOLOGIES.with_borrow_mut(|kept| {
        if let Some((_, made)) = kept.iter().find(|(key, _)| key == w) {
            return made.clone();
        }
        let made = make_topology(w).map(Rc::new);
        kept.insert(0, (w.clone(), made.clone()));
        kept.truncate(KEPT);
        made
    })
}

/// Equal by the bits of the values, since 0.0 == -0.0.
fn same_store(a: &Store, b: &Store) -> bool {
    a.words == b.words && a.row_value_ptr == b.row_value_ptr && same_bits(&a.values, &b.values)
}

fn store_of(s: &Store) -> Made<AbtmMetadataFirstMatrix> {
    STORES.with_borrow_mut(|kept| {
        if let Some((_, made)) = kept.iter().find(|(key, _)| same_store(key, s)) {
            return made.clone();
        }
        let made = make_store(s).map(Rc::new);
        kept.insert(0, (s.clone(), made.clone()));
        kept.truncate(KEPT);
        made
    })
}

/// What the Rust makes of the call, or why it can't judge it.
pub fn judge(call: &Call) -> Result<Outcome, Reason> {
    use Call::*;
    match call {
        MaskCheck(m) => mask_question(m, |_| vec![]),
        MaskContains(m, i) => mask_question(m, |made| vec![made.contains(*i).into()]),
        MaskCountOnes(m) => mask_question(m, |made| vec![made.count_ones() as u64]),
        MaskIsEmpty(m) => mask_question(m, |made| vec![made.is_empty().into()]),
        MaskNew(len, room) => mask_new(*len, room.len()),
        MaskFromIndices(len, indices, room) => mask_from_indices(*len, indices, room.len()),
        MaskSet(m, i, value) => mask_change(m, |made| made.set(*i, *value)),
        MaskOrWord(m, word, b) => mask_change(m, |made| {
            reach::or_word(made, *word, *b);
            Ok(())
        }),
        MaskIndices(m, room) => mask_indices(m, room.len()),
        MaskUnionAssign(a, b) => two_masks(a, b, |a, b| a.union_assign(b)),
        MaskIntersectAssign(a, b) => two_masks(a, b, |a, b| a.intersect_assign(b)),
        MaskAndNotAssign(a, b) => two_masks(a, b, reach::and_not_assign),
        MaskIntersects(a, b) => mask_intersects(a, b),
        Csr32Check(c) => csr_question(c, |_| vec![], 0),
        Csr32Apply(c, x, y) => csr32_apply(c, x, y),
        Csr32MetadataBytes(c) => csr_question(c, |made| vec![made.metadata_bytes() as u64], 1),
        Csr32StorageBytes(c) => csr_question(c, |made| vec![made.storage_bytes() as u64], 1),
        TopologyFromCsr32(c, room) => topology_from_csr32(c, room),
        TopologyUnion(a, b, room) => combine(a, b, room, AbtmTopology::union),
        TopologyIntersection(a, b, room) => combine(a, b, room, AbtmTopology::intersection),
        TopologyAndNot(a, b, room) => combine(a, b, room, AbtmTopology::and_not),
        TopologyXor(a, b, room) => combine(a, b, room, AbtmTopology::xor),
        MetadataFirstCheckMerge(c) => check_merge(c),
        MetadataFirstFromCsr32(c, room) => metadata_first_from_csr32(c, room),
        _ => question(call),
    }
}

/// A question to words or to a store.
fn question(call: &Call) -> Result<Outcome, Reason> {
    use Call::*;
    match call {
        TopologyCheck(w) => {
            words_within(w)?;
            Ok(told(topology_of(w)?.validate().map(|()| vec![]), 0))
        }
        TopologyRowWords(w, r) => row_words(w, *r),
        TopologyRowNonemptyWords(w, r) => {
            row_question(w, *r, 1, |row| Ok(vec![row.nonempty_words() as u64]))
        }
        TopologyRowPopcount(w, r) => row_question(w, *r, 1, |row| Ok(vec![row.popcount() as u64])),
        TopologyRowContains(w, r, c) => {
            row_question(w, *r, 1, |row| Ok(vec![row.contains(*c).into()]))
        }
        TopologyRowRank(w, r, c) => row_question(w, *r, 1, |row| Ok(vec![row.rank(*c)? as u64])),
        TopologyRowSelect(w, r, k) => row_question(w, *r, 2, |row| Ok(selected(row.select(*k)))),
        TopologyStats(w) => topology_stats(w),
        MetadataFirstCheck(s) => {
            store_within(s)?;
            Ok(told(store_of(s)?.validate().map(|()| vec![]), 0))
        }
        MetadataFirstRowValues(s, r) => row_values(s, *r),
        MetadataFirstStats(s) => store_stats(s),
        MetadataFirstSparseDotRow(s, r, m, x) => sparse_dot_row(s, *r, m, x),
        MetadataFirstSparseDotRows(s, m, x, sums, executed) => {
            sparse_dot_rows(s, m, x, sums.len(), executed.len())
        }
        _ => by_value(call),
    }
}

/// A call whose arguments are numbers alone.
fn by_value(call: &Call) -> Result<Outcome, Reason> {
    use Call::*;
    let float = |value: f64| Ok(accepted(vec![bits(value)]));
    match *call {
        WordBaseCol(word) => base_col(word),
        WordPopcount(mask) => Ok(accepted(vec![word_of(mask)?.popcount() as u64])),
        WordContainsOffset(mask, offset) => Ok(accepted(vec![
            word_of(mask)?.contains_offset(offset).into(),
        ])),
        WordRank(mask, offset) => {
            let rank = word_of(mask)?.rank(offset);
            Ok(told(rank.map(|count| vec![count as u64]), 1))
        }
        WordSelect(mask, ordinal) => Ok(accepted(selected(word_of(mask)?.select(ordinal)))),
        TopologyAverageWordNnz(nnz, words) => float(figures(nnz, words, 0).average_word_nnz()),
        TopologyWordFillRatio(nnz, words) => float(figures(nnz, words, 0).word_fill_ratio()),
        TopologyMetadataBytesPerNnz(bytes, nnz) => {
            float(figures(nnz, 0, bytes).metadata_bytes_per_nnz())
        }
        MetadataFirstPruningRatio(skipped, candidates) => {
            float(report([candidates, 0, skipped, 0, 0]).pruning_ratio())
        }
        MetadataFirstEmptyWordRatio(words, active) => {
            if words != 0 && active > words {
                return Err(Reason::ActiveAboveWords);
            }
            float(report([0, 0, 0, words, active]).empty_word_ratio())
        }
        MetadataFirstTotalEstimatedBytes(a, b, c) => Ok(accepted(vec![total_bytes(a, b, c)])),
        MetadataFirstAccumulate(a, b) => Ok(accumulate(a, b)),
        _ => tiles::judge(call),
    }
}

fn mask_question(m: &Mask, ask: impl Fn(&DofMask) -> Vec<u64>) -> Result<Outcome, Reason> {
    mask_within(m)?;
    Ok(accepted(ask(&mask_of(m)?)))
}

fn mask_new(len: usize, room: usize) -> Result<Outcome, Reason> {
    within(&[len], &[])?;
    let words = filled(DofMask::new(len).words().to_vec(), room)?;
    Ok(with_lists(accepted(vec![]), vec![words]))
}

fn mask_from_indices(len: usize, indices: &[usize], room: usize) -> Result<Outcome, Reason> {
    within(&[len], &[])?;
    match DofMask::from_indices(len, indices) {
        Ok(made) => {
            let words = filled(made.words().to_vec(), room)?;
            Ok(with_lists(accepted(vec![]), vec![words]))
        }
        Err(error) => Ok(with_lists(refused(error, 0), zeros(&[room]))),
    }
}

/// A change of a mask: the words after it, or as they were where it is refused.
fn mask_change(
    m: &Mask,
    change: impl Fn(&mut DofMask) -> Result<(), HybitError>,
) -> Result<Outcome, Reason> {
    mask_within(m)?;
    let mut made = mask_of(m)?;
    let answer = change(&mut made).map(|()| vec![]);
    Ok(with_lists(told(answer, 0), vec![made.words().to_vec()]))
}

fn mask_indices(m: &Mask, room: usize) -> Result<Outcome, Reason> {
    mask_within(m)?;
    let members: Vec<u64> = mask_of(m)?.indices().iter().map(|&i| i as u64).collect();
    let answer = accepted(vec![members.len() as u64]);
    Ok(with_lists(answer, vec![filled(members, room)?]))
}

fn two_masks(
    a: &Mask,
    b: &Mask,
    change: impl Fn(&mut DofMask, &DofMask) -> Result<(), HybitError>,
) -> Result<Outcome, Reason> {
    within(&[a.len, b.len], &[])?;
    let (mut left, right) = (mask_of(a)?, mask_of(b)?);
    let answer = change(&mut left, &right).map(|()| vec![]);
    Ok(with_lists(told(answer, 0), vec![left.words().to_vec()]))
}

fn mask_intersects(a: &Mask, b: &Mask) -> Result<Outcome, Reason> {
    within(&[a.len, b.len], &[])?;
    let answer = mask_of(a)?.intersects(&mask_of(b)?);
    Ok(told(answer.map(|is| vec![is.into()]), 1))
}

fn csr_question(
    c: &Csr,
    ask: impl Fn(&Csr32Matrix) -> Vec<u64>,
    fields: usize,
) -> Result<Outcome, Reason> {
    csr_within(c)?;
    Ok(told(csr_of(c).map(|made| ask(&made)), fields))
}

fn csr32_apply(c: &Csr, x: &[f64], y: &[f64]) -> Result<Outcome, Reason> {
    csr_within(c)?;
    let mut y = y.to_vec();
    let answer = csr_of(c).and_then(|made| made.apply(x, &mut y));
    Ok(with_lists(
        told(answer.map(|()| vec![]), 0),
        vec![numbers(&y)],
    ))
}

/// The three lists of a topology in lent lists.
fn filled_words(t: &AbtmTopology, room: &WordsRoom) -> Result<Vec<Vec<u64>>, Reason> {
    let lists = topology_lists(t);
    Ok(vec![
        filled(wide(&lists.row_word_ptr), room.row_word_ptr.len())?,
        filled(wide(&lists.word_indices), room.word_indices.len())?,
        filled(lists.masks, room.masks.len())?,
    ])
}

fn words_rooms(room: &WordsRoom) -> [usize; 3] {
    [
        room.row_word_ptr.len(),
        room.word_indices.len(),
        room.masks.len(),
    ]
}

fn built(t: Result<AbtmTopology, HybitError>, room: &WordsRoom) -> Result<Outcome, Reason> {
    let made = match t {
        Ok(made) => made,
        Err(error) => return Ok(with_lists(refused(error, 2), zeros(&words_rooms(room)))),
    };
    if made.nonempty_words() > MAX_ENTRIES {
        return Err(Reason::ResultOverSize);
    }
    let answer = vec![made.nonempty_words() as u64, made.structural_nnz() as u64];
    Ok(with_lists(accepted(answer), filled_words(&made, room)?))
}

fn topology_from_csr32(c: &Csr, room: &WordsRoom) -> Result<Outcome, Reason> {
    csr_within(c)?;
    built(
        csr_of(c).and_then(|csr| AbtmTopology::from_csr32(&csr)),
        room,
    )
}

fn combine(
    a: &Words,
    b: &Words,
    room: &WordsRoom,
    join: impl Fn(&AbtmTopology, &AbtmTopology) -> Result<AbtmTopology, HybitError>,
) -> Result<Outcome, Reason> {
    words_within(a)?;
    words_within(b)?;
    let (left, right) = (topology_of(a)?, topology_of(b)?);
    built(join(&left, &right), room)
}

fn row_question(
    w: &Words,
    row: usize,
    fields: usize,
    ask: impl Fn(AbtmTopologyRow<'_>) -> Result<Vec<u64>, HybitError>,
) -> Result<Outcome, Reason> {
    words_within(w)?;
    let made = topology_of(w)?;
    Ok(told(made.row(row).and_then(ask), fields))
}

/// Where the row's words stand: after those of the rows before it. The row itself must show the same words.
fn row_words(w: &Words, row: usize) -> Result<Outcome, Reason> {
    words_within(w)?;
    let made = topology_of(w)?;
    let answer = made.row(row).map(|asked| {
        let before = (0..row).map(|r| made.row(r).map_or(0, |r| r.nonempty_words()));
        let start: usize = before.sum();
        vec![start as u64, (start + asked.nonempty_words()) as u64]
    });
    Ok(told(answer, 2))
}

fn selected(column: Option<usize>) -> Vec<u64> {
    vec![column.is_some().into(), column.unwrap_or(0) as u64]
}

fn topology_stats(w: &Words) -> Result<Outcome, Reason> {
    words_within(w)?;
    let s = topology_of(w)?.stats();
    let fields = [
        s.nrows,
        s.ncols,
        s.structural_nnz,
        s.nonempty_words,
        s.metadata_bytes,
    ];
    Ok(accepted(fields.map(|n| n as u64).to_vec()))
}

/// Whether a row holds a column three times or more: the Rust's order of adding is then its own.
fn many_copies(c: &Csr) -> bool {
    c.row_ptr.windows(2).any(|part| {
        let mut cols = c.col_idx[part[0] as usize..part[1] as usize].to_vec();
        cols.sort_unstable();
        cols.windows(3).any(|three| three[0] == three[2])
    })
}

/// The packed store of a plot list; the Rust judges it where no row holds a column more than twice.
fn packed(c: &Csr) -> Result<Result<AbtmMetadataFirstMatrix, HybitError>, Reason> {
    csr_within(c)?;
    match csr_of(c) {
        Ok(_) if many_copies(c) => Err(Reason::Copies),
        Ok(csr) => Ok(AbtmMetadataFirstMatrix::from_csr32(&csr)),
        Err(error) => Ok(Err(error)),
    }
}

fn check_merge(c: &Csr) -> Result<Outcome, Reason> {
    Ok(told(packed(c)?.map(|_| vec![]), 0))
}

fn metadata_first_from_csr32(c: &Csr, room: &StoreRoom) -> Result<Outcome, Reason> {
    let made = match packed(c)? {
        Ok(made) => made,
        Err(error) => {
            let mut rooms = words_rooms(&room.words).to_vec();
            rooms.extend([room.row_value_ptr.len(), room.values.len()]);
            return Ok(with_lists(refused(error, 2), zeros(&rooms)));
        }
    };
    let mut lists = filled_words(made.topology(), &room.words)?;
    lists.push(filled(
        wide(&value_pointers(&made)),
        room.row_value_ptr.len(),
    )?);
    lists.push(filled(numbers(made.packed_values()), room.values.len())?);
    let (words, nnz) = (
        made.topology().nonempty_words(),
        made.topology().structural_nnz(),
    );
    Ok(with_lists(accepted(vec![words as u64, nnz as u64]), lists))
}

/// Where the row's values stand: after those of the rows before it.
fn row_values(s: &Store, row: usize) -> Result<Outcome, Reason> {
    store_within(s)?;
    let made = store_of(s)?;
    let answer = made.row_values(row).map(|asked| {
        let before = (0..row).map(|r| made.row_values(r).map_or(0, <[f64]>::len));
        let start: usize = before.sum();
        vec![start as u64, (start + asked.len()) as u64]
    });
    Ok(told(answer, 2))
}

fn store_stats(s: &Store) -> Result<Outcome, Reason> {
    store_within(s)?;
    let stats = store_of(s)?.stats();
    let fields = [
        stats.nrows,
        stats.ncols,
        stats.structural_nnz,
        stats.topology_metadata_bytes,
        stats.value_row_ptr_bytes,
        stats.packed_value_bytes,
    ];
    Ok(accepted(fields.map(|n| n as u64).to_vec()))
}

/// The store and the mask of a dot, after the checks that the Rust doesn't make.
fn dot_operands(s: &Store, m: &Mask) -> Result<(Rc<AbtmMetadataFirstMatrix>, DofMask), Reason> {
    store_within(s)?;
    mask_within(m)?;
    let store = store_of(s)?;
    Ok((store, mask_of(m)?))
}

fn sparse_dot_row(s: &Store, row: usize, m: &Mask, x: &[f64]) -> Result<Outcome, Reason> {
    let (store, mask) = dot_operands(s, m)?;
    let answer = store.sparse_dot_row(row, &mask, x).map(|(sum, counts)| {
        let mut fields = vec![bits(sum)];
        fields.extend(counts_of(&counts).map(|n| n as u64));
        fields
    });
    Ok(told(answer, 6))
}

/// The Rust has no call for all rows: its dot is asked row by row.
fn sparse_dot_rows(
    s: &Store,
    m: &Mask,
    x: &[f64],
    sums_room: usize,
    executed_room: usize,
) -> Result<Outcome, Reason> {
    let (store, mask) = dot_operands(s, m)?;
    if s.words.nrows == 0 {
        return Err(Reason::NoRow);
    }
    let rows = 0..s.words.nrows;
    let dots: Result<Vec<_>, _> = rows
        .map(|row| store.sparse_dot_row(row, &mask, x))
        .collect();
    match dots {
        Ok(dots) => {
            let sums = dots.iter().map(|(sum, _)| bits(*sum)).collect();
            let executed = dots
                .iter()
                .map(|(_, counts)| counts.executed_products as u64);
            let lists = vec![
                filled(sums, sums_room)?,
                filled(executed.collect(), executed_room)?,
            ];
            Ok(with_lists(accepted(vec![]), lists))
        }
        Err(error) => Ok(with_lists(
            refused(error, 0),
            zeros(&[sums_room, executed_room]),
        )),
    }
}

/// A word by value can only be had from a topology: of one row with this word as its first.
fn word_of(mask: u64) -> Result<AbtmTopologyWord, Reason> {
    word_at(0, mask)
}

fn word_at(word: u32, mask: u64) -> Result<AbtmTopologyWord, Reason> {
    if mask == 0 {
        return Err(Reason::EmptyWord);
    }
    let base = word.checked_mul(64).ok_or(Reason::FarWord)?;
    let cols: Vec<u32> = ones(mask).map(|bit| base + bit).collect();
    let (n, ncols) = (cols.len(), base as usize + 64);
    let csr = Csr32Matrix::new(1, ncols, vec![0, n as u32], cols, vec![1.0; n]);
    let topology = csr
        .and_then(|csr| AbtmTopology::from_csr32(&csr))
        .expect("a good plot list");
    let row = topology.row(0).expect("the one row");
    Ok(row.words().next().expect("the one word"))
}

fn base_col(word: u32) -> Result<Outcome, Reason> {
    Ok(accepted(vec![word_at(word, 1)?.base_col() as u64]))
}

fn figures(nnz: usize, words: usize, bytes: usize) -> AbtmTopologyStats {
    AbtmTopologyStats {
        structural_nnz: nnz,
        nonempty_words: words,
        metadata_bytes: bytes,
        ..AbtmTopologyStats::default()
    }
}

fn report(c: Counts) -> AbtmProductPruningStats {
    AbtmProductPruningStats {
        candidate_products: c[0],
        executed_products: c[1],
        skipped_products: c[2],
        topology_words: c[3],
        active_words: c[4],
    }
}

fn counts_of(report: &AbtmProductPruningStats) -> Counts {
    [
        report.candidate_products,
        report.executed_products,
        report.skipped_products,
        report.topology_words,
        report.active_words,
    ]
}

fn total_bytes(topology: usize, pointers: usize, values: usize) -> u64 {
    let stats = AbtmMetadataFirstStats {
        topology_metadata_bytes: topology,
        value_row_ptr_bytes: pointers,
        packed_value_bytes: values,
        ..AbtmMetadataFirstStats::default()
    };
    stats.total_estimated_bytes() as u64
}

fn accumulate(a: Counts, b: Counts) -> Outcome {
    let mut total = report(a);
    let answer = total.accumulate(report(b));
    told(
        answer.map(|()| counts_of(&total).map(|n| n as u64).to_vec()),
        5,
    )
}
